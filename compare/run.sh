#!/usr/bin/env bash
# Builds the static library and compares it with the second calculation.
# Arguments: seed and number of sheets, both optional.
set -eu
cd "$(dirname "$0")/.."
(cd crates/terminal && rt lib)
CARGO_TARGET_DIR=target/compare cargo run --release --offline --manifest-path compare/Cargo.toml -- "$@"
