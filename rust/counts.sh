#!/usr/bin/env bash
# Instructions that the exported call takes for each input of `bench` at 64 KiB, by callgrind; clearing is within them.
#   counts.sh > FILE          then: join two such files by name to compare two archives
# A call whose output is found too short is made again with a larger one, and both are counted.
set -euo pipefail
cd "$(dirname "$0")"
source ./callgrind.sh
"$bench" --names | while read -r name; do
  log=$(profile "$name" /dev/null)
  printf '%s\t%s\n' "$name" "$(sed -n 's/.*Collected : *//p' <<< "$log")"
done
