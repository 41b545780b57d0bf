#!/bin/sh
# Measures the library's vocabulary check beside plain C.
#
# usage: vocabulary.sh [--agree | --instructions] [ARCHIVE]
#
# Prints the time of a call on each input, after a comparison of both answers on each and on 55,000
# damages; with --agree the comparison alone; with --instructions the instructions of a call on the
# first eight, and of a catalogue's question for k, counted by callgrind.
# ARCHIVE: default target/staticlib/libjudge.a in the repository.
# Exit status: 0 done, 1 the answers differ or a build failed, 2 bad usage or something is missing.
set -eu
# shellcheck source-path=SCRIPTDIR
. "$(dirname -- "$0")/common.sh"

compile vocabulary vocabulary_plain support

# Instructions of the whole process for $2 calls of $1 on input number $3.
count() {
    callgrind --callgrind-out-file="$build/callgrind.out" "$program" --calls "$1" "$2" "$3"
    total "$build/callgrind.out"
}

# Two runs that differ in ten calls: the start of the process drops out of the difference.
per_call() {
    few=$(count "$1" 10 "$2")
    many=$(count "$1" 20 "$2")
    echo $(((many - few) / 10))
}

case $mode in
time) "$program"; exit ;;
agree) "$program" --agree; exit ;;
esac

echo '| input | library, instructions a call | plain C, instructions a call | ratio |'
echo '|---|---:|---:|---:|'
at=0
for input in '511 names' '511 names, edition 2' 'mixed kinds, full' 'mixed kinds, full, edition 2' \
    '12 records' '12 records, edition 2' 'header alone' 'header alone, edition 2'; do
    library=$(per_call library "$at")
    plain=$(per_call plain "$at")
    hundredths=$(((100 * library + plain / 2) / plain))
    printf '| %s | %d | %d | %d.%02d |\n' \
        "$input" "$library" "$plain" $((hundredths / 100)) $((hundredths % 100))
    at=$((at + 1))
done

# Each with its second edition: k by a pass over the records, and k from the header.
echo
echo '| k of | edition 1: the check, then a pass | edition 2: the check, then the header | fewer |'
echo '|---|---:|---:|---:|'
at=0
for input in '511 names' 'mixed kinds, full' '12 records'; do
    pass=$(per_call pass "$at")
    header=$(per_call header $((at + 1)))
    printf '| %s | %d | %d | %d |\n' "$input" "$pass" "$header" $((pass - header))
    at=$((at + 2))
done
