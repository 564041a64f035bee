#!/bin/sh
# Tries the wrong bodies that the gate leaves out, crates/*/must-fail-release, as it tries the others: `rt must-fail` goes
# over a copy of the crates that has them as must-fail/. It takes what checks of these crates kept on this machine.
# usage: tests/must_fail.sh [CRATE..]
set -eu
cd "$(dirname "$0")/.."
. tests/common.sh
python3 tests/edits.py
cp HANDLES crates.txt "$room"
for crate in crates/*; do
    mkdir -p "$room/$crate"
    for part in src specs proofs must-fail-release; do
        [ ! -d "$crate/$part" ] || cp -r "$crate/$part" "$room/$crate"
    done
    [ ! -d "$crate/must-fail-release" ] || mv "$room/$crate/must-fail-release" "$room/$crate/must-fail"
done
cd "$room"
follow said rt must-fail "$@"
# (Of a crate that is not proved itself, any wrong body is refused.)
! grep 'did not end well\|says little of the contract' said
