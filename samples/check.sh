#!/usr/bin/env bash
# Gives each sample to snowlist and compares what it prints with the stored listing. Then gives it to canonical: of a refused
# sheet that must print the same line, of any other a sheet with the same listing, which it writes again as it is.
# Arguments: the programs snowlist and canonical as seen from the repository root, those in their crates' out where none are named.
set -eu
cd "$(dirname "$0")/.."

snowlist=${1:-crates/snowlist/out/snowlist}
canonical=${2:-crates/canonical/out/canonical}
for program in "$snowlist" "$canonical"; do
    if ! command -v "$program" >/dev/null; then
        echo "no program $program" >&2
        exit 1
    fi
done
work=$(mktemp -d)
trap 'rm -rf "$work"' EXIT

# What is wrong with a sample, given by its name; nothing where all is well.
faults() {
    "$snowlist" <"$1.sheet" | cmp -s - "$1.txt" || echo "another listing"
    "$canonical" <"$1.sheet" >"$work/once"
    if [ "$(head -c 8 "$1.txt")" = "REFUSED " ]; then
        cmp -s "$work/once" "$1.txt" || echo "another line from canonical"
        return
    fi
    "$snowlist" <"$work/once" | cmp -s - "$1.txt" || echo "another listing in the one way"
    "$canonical" <"$work/once" | cmp -s - "$work/once" || echo "written again it is another sheet"
    case $1 in
    */layout_*) cmp -s "$work/once" samples/stepped_hall.sheet || echo "another layout is left" ;;
    esac
}

count=0
agree=0
for sheet in samples/*.sheet; do
    count=$((count + 1))
    found=$(faults "${sheet%.sheet}")
    if [ -z "$found" ]; then
        agree=$((agree + 1))
    else
        echo "$sheet: ${found//$'\n'/, }"
    fi
done
echo "$agree of $count samples agree"
[ "$agree" -eq "$count" ]
