#!/usr/bin/env bash
# Programs that the check must refuse, and one that it must accept. Each is text here, since a source that does not
# compile would fail the gate itself. Its first line says what the check has to answer. Each is checked as a crate over
# the libraries of this repository, in a temporary folder.
set -euo pipefail
here=$(cd "$(dirname "$0")" && pwd)
root=$(dirname "$here")
libraries="pointer_offset shm_allocator shared_memory resizable_shared_memory"

work=$(mktemp -d)
trap 'rm -rf "$work"' EXIT
mkdir -p "$work/crates/program/src"
for library in $libraries; do
    # With it comes what the library was proved by before, if anything, which saves proving it here.
    cp -r "$root/crates/$library" "$work/crates/"
    grep "^$library:" "$root/crates.txt" >>"$work/crates.txt"
done
echo "program: $libraries" >>"$work/crates.txt"

passed=0
failed=0
for text in "$here"/*.txt; do
    name=$(basename "$text" .txt)
    expected=$(sed -n '1s,^// Answer: ,,p' "$text")
    cp "$text" "$work/crates/program/src/lib.rt"
    answer=0
    (cd "$work/crates/program" && rt check) >"$work/log" 2>&1 || answer=$?
    if [ "$expected" = proved ]; then
        verdict=$([ "$answer" -eq 0 ] && grep -q '^logic=proved' "$work/log" && echo yes || echo no)
    else
        verdict=$([ "$answer" -ne 0 ] && grep -qF "src/lib.rt" "$work/log" && grep -qF "$expected" "$work/log" && echo yes || echo no)
    fi
    if [ "$verdict" = yes ]; then
        passed=$((passed + 1))
        echo "refused/$name: $expected, as it has to be"
    else
        failed=$((failed + 1))
        echo "refused/$name: expected '$expected'; the check said:"
        tail -n 5 "$work/log"
    fi
done
echo "refused: $passed as they have to be, $failed not"
[ "$failed" -eq 0 ]
