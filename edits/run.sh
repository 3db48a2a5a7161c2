#!/usr/bin/env bash
# Tries the must-fail edits that the gate leaves out for its seconds: each is a wrong program that the check must refuse.
# Arguments: crates, where not all are to be tried. It works on a copy, so that the repository stays as it is.
set -eu
cd "$(dirname "$0")/.."
work=$(mktemp -d)
trap 'rm -rf "$work"' EXIT
cp -R crates crates.txt "$work"
if [ -d target ]; then cp -R target "$work"; fi
rm -rf "$work"/crates/*/must-fail
if [ $# -eq 0 ]; then set -- $(cd edits && ls -d */ | tr -d /); fi
for crate in "$@"; do cp -R "edits/$crate" "$work/crates/$crate/must-fail"; done
cd "$work"
rt must-fail "$@"
