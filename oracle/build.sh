#!/bin/sh
# Builds the crate's own source over the stand-ins, and the program that asks it.
#
#   build.sh CRATE_SRC_DIR OUT_DIR
#
# CRATE_SRC_DIR has the crate's files as src--src--FOLDER--FILE.rs.txt. They are compiled unchanged, in a temporary
# folder. OUT_DIR gets the program `oracle`.
set -eu

if [ $# -ne 2 ]; then
    echo "usage: $0 CRATE_SRC_DIR OUT_DIR" >&2
    exit 2
fi
here=$(cd "$(dirname "$0")" && pwd)
crate_files=$(cd "$1" && pwd)
mkdir -p "$2"
out=$(cd "$2" && pwd)
work=$(mktemp -d)
trap 'rm -rf "$work"' EXIT

# The crate's modules that are asked.
asked="
named_concept
dynamic_storage/mod
resizable_shared_memory/mod resizable_shared_memory/dynamic
shared_memory/mod shared_memory/common
shm_allocator/mod shm_allocator/bump_allocator shm_allocator/pointer_offset shm_allocator/pool_allocator
"
# Modules that these name and never use.
unasked="
dynamic_storage/dynamic_storage_configuration dynamic_storage/file dynamic_storage/posix_shared_memory
dynamic_storage/process_local dynamic_storage/recommended
resizable_shared_memory/recommended
shared_memory/file shared_memory/posix shared_memory/process_local shared_memory/recommended
"
# The libraries that one library of stand-ins takes the place of.
replaced="
iceoryx2_bb_concurrency iceoryx2_bb_container iceoryx2_bb_elementary iceoryx2_bb_elementary_traits
iceoryx2_bb_memory iceoryx2_bb_posix iceoryx2_bb_system_types iceoryx2_log tiny_fn
"

mkdir "$work/src"
cp "$here/crate_root.rs" "$work/src/lib.rs"
for module in $asked $unasked; do
    mkdir -p "$(dirname "$work/src/$module")"
done
for module in $asked; do
    cp "$crate_files/src--src--$(echo "$module" | sed 's|/|--|g').rs.txt" "$work/src/$module.rs"
done
for module in $unasked; do
    : > "$work/src/$module.rs"
done

# Overflows and broken preconditions are to be loud, hence the debug assertions.
compile() {
    rustc --edition 2024 -C opt-level=1 -C debug-assertions=on -L "$work" --out-dir "$work" "$@"
}

compile -D warnings --crate-type proc-macro --crate-name serde "$here/serde.rs"
compile -D warnings --crate-type rlib --crate-name standins "$here/standins/lib.rs"

externs=""
for library in $replaced; do
    externs="$externs --extern $library=$work/libstandins.rlib"
done
serde=$(ls "$work"/libserde.*)
compile --cap-lints allow --crate-type rlib --crate-name iceoryx2_cal \
    $externs --extern "serde=$serde" "$work/src/lib.rs"

compile -D warnings --crate-name oracle \
    --extern "standins=$work/libstandins.rlib" --extern "iceoryx2_cal=$work/libiceoryx2_cal.rlib" "$here/main.rs"
mv "$work/oracle" "$out/oracle"
