#!/bin/sh
# Holds the definitions of crates/rules to the Rust's answers.
#   sample.sh SCRATCH KIND SEED COUNT
# SCRATCH is a copy of the repository's crates.txt and crates/, which this changes;
# the rest goes to the program `sample`. The theorems that fail are printed.
set -u
here=$(dirname "$0")
scratch=$1
shift
rules=$scratch/crates/rules/proofs
grep -q 'pub mod Sample' "$rules/Lib.antt" || echo 'pub mod Sample' >> "$rules/Lib.antt"
"${CARGO_TARGET_DIR:-$here/target}/release/sample" "$@" > "$rules/Sample.antt" || exit 2
cd "$scratch/crates/rules" || exit 2
if rt check > sample.log 2>&1; then
    echo "$*: $(grep -c '^    ∷$' proofs/Sample.antt) agree"
elif grep 'error:' sample.log | grep -qv 'step limit' || ! grep -q 'step limit' sample.log; then
    echo "$*: DIFFER"
    grep -o 'error: .sample[0-9]*' sample.log
    grep 'error:' sample.log | cut -c 1-300 | head -5
    exit 1
else
    echo "$*: too long for $(grep -c 'step limit' sample.log) theorems, the others agree"
fi
