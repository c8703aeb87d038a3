#!/bin/sh
# Asks the crate anew and compares its answers with the recorded ones, byte for byte.
#
#   check.sh CRATE_SRC_DIR
set -eu
. "$(dirname "$0")/sample.sh"

for file in lists beyond large; do
    cmp "$work/$file.txt" "$recorded/$file.txt"
    count=$(grep -c '^list ' "$work/$file.txt")
    calls=$(grep -c ' = ' "$work/$file.txt")
    echo "$file.txt: $count lists, $calls calls, as recorded"
done
