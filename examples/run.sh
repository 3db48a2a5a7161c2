#!/usr/bin/env bash
# Builds the C and the Rust caller against the static library and runs both on every sample.
#
# NO_STATICLIB=1 takes the archive as it stands; TERMINAL_LIB_DIR names another folder of libterminal.a.
set -eu
cd "$(dirname "$0")/.."

if [ "${NO_STATICLIB:-0}" != 1 ]; then
    (cd crates/terminal && rt lib)
fi
TERMINAL_LIB_DIR=$(cd "${TERMINAL_LIB_DIR:-crates/terminal/out}" && pwd)
export TERMINAL_LIB_DIR

built=target/examples
mkdir -p "$built"
gcc -std=c11 -Wall -Wextra -Werror -O2 -Iinclude examples/c/main.c "$TERMINAL_LIB_DIR/libterminal.a" \
    -o "$built/c_example"
CARGO_TARGET_DIR=$built/rust cargo build --release --offline --quiet --manifest-path examples/rust/Cargo.toml

c=$built/c_example
rust=$built/rust/release/terminal_example

# Prints what is wrong with one sample, nothing where all is well.
faults() {
    "$c" "$1.sheet" >"$built/c.txt" || echo "the C caller fails"
    "$rust" "$1.sheet" >"$built/rust.txt" || echo "the Rust caller fails"
    cmp -s "$built/c.txt" "$built/rust.txt" || echo "the callers differ"
    "$c" "$1.sheet" list | cmp -s - "$1.txt" || echo "the listing from C differs"
    "$rust" "$1.sheet" list | cmp -s - "$1.txt" || echo "the listing from Rust differs"
}

count=0
differences=0
for sheet in samples/*.sheet; do
    count=$((count + 1))
    found=$(faults "${sheet%.sheet}")
    if [ -z "$found" ]; then
        echo "$sheet: $(wc -l <"$built/c.txt") lines agree"
    else
        differences=$((differences + 1))
        echo "$sheet: ${found//$'\n'/, }"
    fi
done
echo "$count samples, $differences differences"
[ "$differences" -eq 0 ]
