#!/bin/sh
# Compares the program with the definitions as tools/compare computes them: on the corpus, which has cases that other
# implementations get wrong, and on 200 random cases of a fixed seed, which the system's tools run, too.
# Then, that it finds programs with another status, message or output.
# usage: tests/compare.sh PROGRAM
set -eu
python3 "$(dirname "$0")/../tools/compare" "$1" --corpus "$(dirname "$0")/corpus"
python3 "$(dirname "$0")/../tools/compare" "$1" 200 --seed 1 --brief
room=$(mktemp -d)
trap 'rm -rf "$room"' EXIT
for wrong in 'exit $((status ? 3 - status : 0))' '[ $status = 0 ] || echo more >&2; exit $status' \
    'echo; exit $status'; do
    printf '#!/bin/sh\n"%s" "$@"\nstatus=$?\n%s\n' "$(realpath "$1")" "$wrong" >"$room/wrong"
    chmod +x "$room/wrong"
    if python3 "$(dirname "$0")/../tools/compare" "$room/wrong" 12 --seed 1 --brief >"$room/said"; then
        echo "FAILED: nothing is found of a program that ends with: $wrong"
        exit 1
    fi
done
echo "wrong programs are found"
