#!/bin/sh
# Times `desk recheck` on long tables: lines of a small vocabulary that hold, that fail, and of a large one, with one thread
# and with two; and the memory that a million bad lines take.
#
# usage: recheck.sh [DESK]      (default: target/cargo/release/desk; after `cargo build --release`)
# Exit status: 0 done, 1 a run failed, 2 no desk.
set -eu
bench=$(CDPATH='' cd -- "$(dirname -- "$0")" && pwd)
root=$(dirname -- "$bench")
desk=${1:-$root/target/cargo/release/desk}
[ -x "$desk" ] || { echo "recheck.sh: no $desk; 'cargo build --release' makes it" >&2; exit 2; }
work=$(mktemp -d)
trap 'rm -rf -- "$work"' EXIT
cp "$root/examples/v.vocabulary" "$bench/data/walk10.bin" "$work"
cd "$work"

yes 'v.vocabulary 4 3 different' | head -200000 > hold
yes 'v.vocabulary 4 3 equal' | head -200000 > fail
awk 'BEGIN { for (i = 0; i < 3000; i++) print "walk10.bin", i % 29 + 1, i % 31 + 1, "different" }' > walk
yes 'no line' | head -1000000 > bad

# run NAME STATUS OPTION..: the least of five times of a table, and the memory of the last run.
run() {
    table=$1 wanted=$2
    shift 2
    least=
    for _ in 1 2 3 4 5; do
        status=0
        command time -o figures -f '%e %M' "$desk" recheck "$table" "$@" > said 2> errors || status=$?
        [ "$status" -eq "$wanted" ] || { cat errors; echo "recheck.sh: $table: status $status" >&2; exit 1; }
        least=$(tail -1 figures | awk -v least="$least" '{ print least == "" || $1 < least ? $1 : least }')
    done
    lines=$(wc -l < "$table")
    memory=$(tail -1 figures | awk '{ printf "%.1f", $2 / 1024 }')
    name="$table${*:+ $*}"
    echo "| $name | $lines | $least | $(awk "BEGIN { printf \"%.1f\", $lines / $least / 1000 }") | $memory |"
}

echo '| table | lines | s | thousand lines/s | MB |'
echo '|---|---:|---:|---:|---:|'
run hold 0
run fail 1
run walk 1
run walk 1 -j 2
run bad 2
