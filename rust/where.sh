#!/usr/bin/env bash
# Where the instructions of the exported call go, by callgrind, for inputs of `bench` at 64 KiB: a Markdown table of
# each function's own share, without what it calls. A share of 1 % or less is left out; clearing is `memset`, and
# a name with '2 is a function's calls of itself.
#   where.sh [NAME..]         names as `bench --names` prints them
# A call whose output is found too short is made again with a larger one, and both are counted.
set -euo pipefail
cd "$(dirname "$0")"
source ./callgrind.sh
if [ $# = 0 ]; then
  set -- templates "the Rust's test sources" "grammar, tidy" "wide operator lines" backslashes \
    "deep nesting, empty indent"
fi
names=$("$bench" --names)
for name; do
  grep --quiet --line-regexp --fixed-strings -e "$name" <<< "$names" || { echo "no input is called $name" >&2; exit 1; }
done
file=$(mktemp)
trap 'rm -f "$file"' EXIT

# A line for each input's instructions and for each of its functions: input, function, instructions.
shares() {
  for name; do
    profile "$name" "$file" > /dev/null
    callgrind_annotate --threshold=100 --auto=no "$file" |
      sed -nE -e 's/^ *([0-9,]+) \([ 0-9.]+%\)  (PROGRAM TOTALS)$/\2\t\1/p' \
        -e "s/^ *([0-9,]+) \([ 0-9.]+%\)  [^:]*:(.*) \[.*\]$/\2\t\1/p" |
      while IFS=$'\t' read -r function count; do printf '%s\t%s\t%s\n' "$name" "$function" "${count//,/}"; done
  done
}

# Functions in the order in which they are met: the largest of the first input first.
shares "$@" | awk -F '\t' '
  !($1 in total) { inputs[++columns] = $1 }
  $2 == "PROGRAM TOTALS" { total[$1] = $3; next }
  { own[$1, $2] += $3; if (!seen[$2]++) functions[++rows] = $2 }
  END {
    head = "| function |"; rule = "|---|"; sum = "| instructions |"
    for (c = 1; c <= columns; c++) {
      head = head " " inputs[c] " |"; rule = rule "--:|"; sum = sum " " total[inputs[c]] " |"
    }
    print head; print rule; print sum
    for (r = 1; r <= rows; r++) {
      line = "| `" functions[r] "` |"; some = 0
      for (c = 1; c <= columns; c++) {
        share = 100 * own[inputs[c], functions[r]] / total[inputs[c]]
        if (share > 1) some = 1
        line = line (share > 1 ? sprintf(" %.1f %% |", share) : " - |")
      }
      if (some) print line
    }
  }'
