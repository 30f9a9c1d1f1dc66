# Sourced by counts.sh and where.sh: builds `bench`, and counts the instructions of the exported call.
cargo build --release --quiet --package runs --bin bench
bench=${CARGO_TARGET_DIR:-target}/release/bench

# profile NAME FILE: one call on that input at 64 KiB; what callgrind says goes to standard output, the profile to FILE
profile() {
  valgrind --tool=callgrind --callgrind-out-file="$2" --toggle-collect=wirescript_format "$bench" --once "$1" 2>&1
}
