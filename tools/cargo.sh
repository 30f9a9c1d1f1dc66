#!/usr/bin/env bash
# cargo in this workspace, with the crates of Debian's packages (packages.sh installs them) and no network:
# ./cargo.sh build --release
set -euo pipefail
cd "$(dirname "$0")"
command=$1
shift
# clippy hands on what stands behind it alone; fmt needs no crates
if [ "$command" = fmt ]; then exec cargo fmt "$@"; fi
exec cargo "$command" --offline --config 'source.crates-io.replace-with="debian"' \
  --config 'source.debian.directory="/usr/share/cargo/registry"' "$@"
