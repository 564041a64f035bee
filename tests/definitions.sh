#!/bin/sh
# The definitions: docs/PROMISE.md and BEYOND.md have them as they are, with the terms that they show computed by the
# prover; those of no page are in the folders of specs/. The prover computes them on the worked examples, those of the standard, 200 random commands of a fixed seed and 100 with parts of
# their inputs, as tools/definitions says.
# usage: tests/definitions.sh [PROGRAM]
set -eu
top=$(dirname "$0")/..
python3 "$top/tools/promise.py" --check
python3 "$top/tools/promise.py" --size
if command -v rt >/dev/null; then
    python3 "$top/tools/definitions" 200 --seed 1 --partial 100 ${1:+--program "$1"}
else
    echo "left out: the definitions on random commands (there is no rt in PATH)"
fi
