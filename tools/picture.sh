#!/usr/bin/env bash
# Makes diff.svg anew from what wirefmt shows on a terminal, which `script` stands for.
set -euo pipefail
cd "$(dirname "$0")"
./cargo.sh build --release --bins --examples
cd wirefmt/examples
run="wirefmt --diff gate.ws"
{
  echo "$ $run"
  PATH=$PWD/../../target/release:$PATH script --quiet --return --command "$run" /dev/null | tr -d '\r'
} | ../../target/release/examples/picture > ../../diff.svg
