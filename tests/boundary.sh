#!/usr/bin/env bash
# Compares the exports of crates/judge with what include/judge.h, rust/judge and python/judge declare: the same calls, and
# for each the same parameters, by name, order and width, what is only read, and the answer. No proof shows this: all
# proofs pass with two parameters of an export exchanged.
#
# usage: boundary.sh [DIRECTORY]      (no DIRECTORY: this tree)
#        boundary.sh --self-test      makes each of the four files wrong in several ways, and reports what goes unnoticed
# Exit status: 0 all is so; 1 some declaration is not, and each is reported by file, call and parameter.
set -eu
mode=compare
[ "${1-}" != --self-test ] || { mode=self_test; shift; }
cd "${1:-"$(dirname "$0")/.."}"
work=$(mktemp -d)
trap 'rm -rf -- "$work"' EXIT
rattle=crates/judge/src/lib.rt c=include/judge.h rust=rust/judge/src/lib.rs python=python/judge/_library.py

# A text as one line, without the blanks and commas that only lay out a list.
joined() {
    tr -s '\n ' ' ' | sed -E 's/([({]) /\1/g; s/,? ([)}])/\1/g'
}

# What a file declares, in the words of Rust, a call to a line:
#     judge_record(vocabulary: *const u8, vocabulary_len: usize, number: u32) -> u64
declared() {
    local answer
    case $1 in
    *.rt) # other attributes may follow; a slice is a pointer and a length
        joined < "$1" | grep -oE '#\[unsafe\(no_mangle\)\]( #\[[^]]*\])* [^(]* \w+\([^)]*\)( -> \w+)?' | sed -E '
            s/^#\[unsafe\(no_mangle\)\]( #\[[^]]*\])* [^(]* (\w+\()/\2/
            s/(\w+): &\[u8\]/\1: *const u8, \1_len: usize/g
            s/(\w+): &mut \[u8\]/\1: *mut u8, \1_len: usize/g' ;;
    *.h) # declarations begin at the margin; the heads of inline functions do not end with a semicolon
        awk '/^[a-z].*judge_[a-z_]*\(/ { head = 1 } head { print } /[;{]/ { head = 0 }' "$1" | joined |
            grep -oE '[a-z][a-z0-9_ ]*[ *]judge_\w+\([^)]*\);' | sed -E '
                s/^(\w+) (.*);/\2 -> \1/
                s/const uint8_t \*(\w+)/\1: *const u8/g
                s/uint8_t \*(\w+)/\1: *mut u8/g
                s/(uint[0-9]+_t|size_t) (\w+)/\2: \1/g
                s/uint([0-9]+)_t/u\1/g
                s/size_t/usize/g' ;;
    *.rs)
        joined < "$1" | grep -oE 'extern "C" \{[^}]*\}' | grep -oE '\w+\([^)]*\)( -> \w+)?;' | sed 's/;$//' ;;
    *.py)
        answer=$(sed -nE 's/^ *call\.restype = (\w+)$/\1/p' "$1")
        joined < "$1" | grep -oE '"judge_\w+": \{[^}]*\}' | sed -E '
            s/^"(\w+)": \{(.*)\}/\1(\2) -> '"$answer"'/
            s/"(\w+)": /\1: /g
            s/: c_char_p/: *const u8/g
            s/: c_void_p/: *mut u8/g
            s/c_uint([0-9]+)/u\1/g
            s/c_size_t/usize/g' ;;
    esac
}

# The same, a parameter to a line, kept in the file LANGUAGE: judge_record, parameter 3; a tab; number: u32.
list() {
    declared "$1" | awk -F ' -> ' -v OFS='\t' '{
        call = parameters = $1
        sub(/\(.*/, "", call)
        gsub(/.*\(|\)/, "", parameters)
        count = split(parameters, parameter, ", ")
        for (i = 1; i <= count; i++) print call ", parameter " i, parameter[i]
        print call ", answer", $2
    }' | LC_ALL=C sort > "$work/${1##*.}"
}

# Reports where what is listed differs from the exports.
differences() {
    local file
    [ "$(grep -c answer "$work/rt")" -ge 8 ] || echo "$rattle: fewer than eight exports"
    for file in $c $rust $python; do
        LC_ALL=C join -t $'\t' -a 1 -a 2 -e nothing -o 0,1.2,2.2 "$work/rt" "$work/${file##*.}" |
            awk -F '\t' -v file="$file" '$2 != $3 { print file ": " $1 ": " $3 ", and the export has " $2 }'
    done
}

compare() {
    differences > "$work/report"
    cat "$work/report"
    [ ! -s "$work/report" ]
}

# wrong FILE WHERE EXPRESSION: with FILE changed by sed's EXPRESSION, a difference is reported at WHERE.
wrong() {
    sed -zE "$3" "$1" > "$work/changed.${1##*.}"
    list "$work/changed.${1##*.}"
    differences | grep -F "$2: " > "$work/report" || { echo "$1: goes unnoticed: $3"; faults=1; }
    list "$1"
}

self_test() {
    local file faults=0 at

    at='judge_compare, parameter 3' # two parameters exchanged
    wrong $rattle "$at" 's/a: u32, b: u32/b: u32, a: u32/'
    wrong $c "$at" 's/uint32_t a, uint32_t b/uint32_t b, uint32_t a/'
    wrong $rust "$at" 's/\ba(: u32,\s+)b: u32/b\1a: u32/'
    wrong $python "$at" 's/"a"(: c_uint32,\s+)"b"/"b"\1"a"/'

    at='judge_record, parameter 3' # another width
    wrong $rattle "$at" 's/number: u32/number: u64/'
    wrong $c "$at" 's/uint32_t number/uint64_t number/'
    wrong $rust "$at" 's/number: u32/number: u64/'
    wrong $python "$at" 's/"number": c_uint32/"number": c_uint64/'

    at='judge_check_script, parameter 3' # written, where it is only read
    wrong $rattle "$at" 's/script: &\[u8\]/script: \&mut [u8]/'
    wrong $c "$at" 's/const uint8_t \*script/uint8_t *script/'
    wrong $rust "$at" 's/script: \*const u8/script: *mut u8/'
    wrong $python "$at" 's/"script": c_char_p/"script": c_void_p/'

    at='judge_record, answer' # another answer
    wrong $rattle "$at" 's/(judge_record[^>]*> )u64/\1u32/'
    wrong $c "$at" 's/uint64_t judge_record/uint32_t judge_record/'
    wrong $rust "$at" 's/(fn judge_record[^>]*> )u64/\1u32/'
    wrong $python "$at" 's/restype = c_uint64/restype = c_uint32/'

    at='judge_record, parameter 1' # a call is missing
    wrong $rattle "$at" 's/#\[unsafe\(no_mangle\)\]\n((#\[[^]]*\]\n)*pub extern "C" fn judge_record)/\1/'
    wrong $c "$at" 's/uint64_t judge_record\([^)]*\);//'
    wrong $rust "$at" 's/pub fn judge_record\([^;]*;//'
    wrong $python "$at" 's/"judge_record": \{[^}]*\},//'

    at='judge_other, answer' # a call too many
    for file in $rattle $c $rust $python; do
        wrong "$file" "$at" 's/judge_record([("])/judge_other\1/'
    done
    return $faults
}

for file in $rattle $c $rust $python; do
    list "$file"
done
$mode
