#!/usr/bin/env bash
# What the calls need on a board: the archive's code and data in bytes, what it calls of C's library, and the stack that each
# call takes at most over the samples and the heaviest sheet.
#
# NO_STATICLIB=1 takes the archive as it stands.
set -eu
cd "$(dirname "$0")/.."

if [ "${NO_STATICLIB:-0}" != 1 ]; then
    (cd crates/terminal && rt lib)
fi
archive=crates/terminal/out/libterminal.a
built=target/examples
mkdir -p "$built"
size -A "$archive" | awk '
    $1 ~ /^\.text/ {code += $2}
    $1 ~ /^\.rodata/ {constant += $2}
    $1 ~ /^\.(data|bss)/ {data += $2}
    END {print "code", code, "bytes"; print "constants", constant + 0, "bytes"; print "other data", data + 0, "bytes"}'
nm -u "$archive" | awk '$1 == "U" {printf "calls %s of C'\''s library\n", $2}'
gcc -std=c11 -D_POSIX_C_SOURCE=200809L -O2 -Wall -Wextra -Werror -Iinclude examples/board/stack.c "$archive" -lpthread \
    -o "$built/stack"
"$built/stack" samples/*.sheet
