#!/bin/sh
# Tries the must-fail edits that are not in CI, edits/CRATE/*.edit, of all crates or of the named
# ones. The exit status is 1 if the prover accepts one of them.
set -eu
cd "$(dirname "$0")/.."
crates=${*:-$(ls edits)}

take_out() {
    for crate in $crates; do
        for edit in "edits/$crate"/*.edit; do
            rm -f "crates/$crate/must-fail/${edit##*/}"
        done
        rmdir --ignore-fail-on-non-empty "crates/$crate/must-fail"
    done
}

trap take_out EXIT
trap 'exit 130' INT TERM
for crate in $crates; do
    mkdir -p "crates/$crate/must-fail"
    cp "edits/$crate"/*.edit "crates/$crate/must-fail/"
done
# shellcheck disable=SC2086
rt must-fail $crates
