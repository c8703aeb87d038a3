# Asks the crate anew for the recorded sample: the answers stand in $work/NAME.txt then. Read by record.sh and check.sh,
# which are passed CRATE_SRC_DIR. lists.txt is made up from the seed; beyond.txt and large.txt keep their calls.
seed=20261118
lists=300

if [ $# -ne 1 ]; then
    echo "usage: $0 CRATE_SRC_DIR" >&2
    exit 2
fi
here=$(cd "$(dirname "$0")" && pwd)
recorded=$here/../crates/crate_answers/data
work=$(mktemp -d)
trap 'rm -rf "$work"' EXIT

"$here/build.sh" "$1" "$work"
"$work/oracle" generate "$seed" "$lists" > "$work/lists.calls"
cp "$recorded/beyond.txt" "$work/beyond.calls"
cp "$recorded/large.txt" "$work/large.calls"
for file in lists beyond large; do
    "$work/oracle" run "$work/$file.calls" > "$work/$file.txt"
done
