#!/bin/sh
# Asks the crate anew and writes its answers into crates/crate_answers/data/.
#
#   record.sh CRATE_SRC_DIR
set -eu
. "$(dirname "$0")/sample.sh"

for file in lists beyond large; do
    cp "$work/$file.txt" "$recorded/$file.txt"
done
