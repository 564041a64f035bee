#!/bin/sh
# Tests the README, the manual pages and the documents: their examples, and whether they are as the program and the files
# are.
# usage: tests/documents.sh PROGRAM
set -u
program=$(realpath "${1:?which program?}")
cd "$(dirname "$0")" || exit 1
status=0
for test in examples pages replacing references; do
    python3 "$test.py" "$program" || status=1
done
exit "$status"
