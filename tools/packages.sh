#!/usr/bin/env bash
# Installs what the tools are built with where it is missing: the Debian packages of packages.txt, and a cargo that is
# new enough. Where it can't, it says what is missing and fails.
set -euo pipefail
cd "$(dirname "$0")"
least=$(sed -n 's/^rust-version = "\(.*\)"$/\1/p' Cargo.toml)

installed() {
  [ "$(dpkg-query --show --showformat='${db:Status-Status}' "$1" 2> /dev/null)" = installed ]
}
new_enough() {
  [ -n "$1" ] && dpkg --compare-versions "$1" ge "$least"
}
# The package of a cargo that is new enough; `cargo` itself is older in some releases.
cargo_package() {
  local package
  for package in cargo cargo-web; do
    if new_enough "$(apt-cache show --no-all-versions "$package" 2> /dev/null | sed -n 's/^Version: //p')"; then
      echo "$package"
      return
    fi
  done
  echo "no Debian package here has cargo $least or newer; https://rustup.rs tells how to install it" >&2
  return 1
}

missing=()
while read -r package; do
  installed "$package" || missing+=("$package")
done < packages.txt
has_cargo=yes
new_enough "$(cargo --version 2> /dev/null | cut --delimiter=' ' --fields=2)" || has_cargo=
if [ "$has_cargo" ] && [ ${#missing[@]} -eq 0 ]; then exit; fi

if [ "$(id -u)" -ne 0 ] || ! command -v apt-get > /dev/null; then
  if [ -z "$has_cargo" ]; then missing+=("cargo ($least or newer)"); fi
  echo "packages are missing: ${missing[*]}; as root, tools/packages.sh installs them" >&2
  exit 1
fi
export DEBIAN_FRONTEND=noninteractive
apt-get update
if [ -z "$has_cargo" ]; then missing+=("$(cargo_package)"); fi
apt-get install --yes --no-install-recommends "${missing[@]}"
