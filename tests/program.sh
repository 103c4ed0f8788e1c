#!/usr/bin/env bash
# Runs the program `rental`, as `rt ci` or `rt run` built it, on the specification's cases and those of the documents, on the examples, on random inputs
# and on broken streams, and compares all that it prints. Its last line is 'N passed, M failed'.
set -u
cd "$(dirname "$0")/.." || exit 1
cargo run --offline --release --quiet --manifest-path tests/Cargo.toml -p inputs --bin program -- crates/rental/out/rental
