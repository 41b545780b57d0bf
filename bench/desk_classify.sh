#!/bin/sh
# Times `desk classify` on 10,000 generated customs vocabularies (`bridge customs`) in one run, as text, as JSON and with a
# drawing; and on 1,000 of them with a process each.
#
# usage: desk_classify.sh [DESK]      (default: target/cargo/release/desk; after `cargo build --release`)
# Exit status: 0 done, 1 a run failed, 2 no desk or no bridge.
set -eu
bench=$(CDPATH='' cd -- "$(dirname -- "$0")" && pwd)
root=$(dirname -- "$bench")
desk=${1:-$root/target/cargo/release/desk}
bridge=$root/target/cargo/release/bridge
for program in "$desk" "$bridge"; do
    [ -x "$program" ] || { echo "desk_classify.sh: no $program; 'cargo build --release' makes it" >&2; exit 2; }
done
work=$(mktemp -d)
trap 'rm -rf -- "$work"' EXIT
cd "$work"

# In ten parts, since most of what bridge writes is for the reasoners, and goes.
for seed in 1 2 3 4 5 6 7 8 9 10; do
    "$bridge" customs part --seed "$seed" --count 1000 > /dev/null
    for file in part/*.vocabulary; do
        mv "$file" "$seed-${file#part/}"
    done
    rm -r part
done
printf '%s\n' ./*.vocabulary > all
awk 'NR % 10 == 1' all > some

fail() {
    echo "desk_classify.sh: $1" >&2
    exit 1
}

# run NAME LIST COMMAND..: the least of five times of a command over the files of a list, and the memory of the last run.
run() {
    name=$1 list=$2
    shift 2
    least=
    for _ in 1 2 3 4 5; do
        command time -o figures -f '%e %M' xargs -x -s 1000000 "$@" < "$list" > said || fail "$name"
        least=$(awk -v least="$least" '{ print least == "" || $1 < least ? $1 : least }' figures)
    done
    count=$(wc -l < "$list")
    [ "$(grep -c '^[^ ].*: classified, \|"verdict":"classified"' said)" -eq "$count" ] || fail "$name: not all are classified"
    memory=$(awk '{ printf "%.1f", $2 / 1024 }' figures)
    echo "| $name | $count | $least | $(awk "BEGIN { printf \"%.0f\", $count / $least }") | $memory |"
}

echo '| run | vocabularies | s | vocabularies/s | MB |'
echo '|---|---:|---:|---:|---:|'
run 'one process' all -n 10000 "$desk" classify
run 'one process, --json' all -n 10000 "$desk" classify --json
run 'one process, --dot' all -n 10000 "$desk" classify --dot drawing
run 'a process each' some -n 1 "$desk" classify
