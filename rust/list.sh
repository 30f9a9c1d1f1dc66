#!/usr/bin/env bash
# Writes the stored list that crates/replay reads: the program `oracle`, after a header that says how the list was made.
#   list.sh [SEED COUNT] > ../crates/replay/stdin
# The Rust formatter's source must be the one that NOTICE names.
set -euo pipefail
cd "$(dirname "$0")"
seed=${1:-1}
count=${2:-5000}
analysis=$(realpath "${WIRESCRIPT_SRC:-../../shared/docs/src}")/crates/wirescript/src/analysis
sums=$(sed -n 's/^ *\([0-9a-f]\{64\}  .*\)/\1/p' ../NOTICE)
(cd "$analysis" && sha256sum --check --strict --quiet <<< "$sums") >&2
cargo build --release --quiet --package runs --bin oracle
cat << END
# Sources, and the texts that the Rust formatter gives for them. crates/replay formats each source and compares.
# Made by rust/list.sh $seed $count, which is \`oracle\` with seed $seed and count $count. The answers are those of \`format_with\` of
# Meshiest/wirescript, commit 8393f639ce, compiled unchanged. The SHA-256 sums of its files, as NOTICE has them:
$(sed 's/^/#     /' <<< "$sums")
# No source is stored twice with the same options, and none that the Rust can't take, so there are no refusals.
# A case: the lengths of source, indent and answer, then width_set, width, line_ending, final_newline; then source, indent, answer, LF.
END
cargo run --release --quiet --package runs --bin oracle -- "$seed" "$count"
