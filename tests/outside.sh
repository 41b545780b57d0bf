#!/bin/sh
# The library through its C boundary beside the second program, on cases that are not stored: vocabularies with record
# calls, comparisons, classifications, scripts and writings, made by five seeds from SEED on, of which each that is new
# counts once. Answers, all lent bytes, guard bytes and guard pages are compared from C and from C++, and once more for
# some of the cases under valgrind. Fails where a kind of answer does not come up, or a subject has fewer than 20,000
# cases.
# usage: tests/outside.sh [SEED]   (target/staticlib/libjudge.a must be built)
set -eu
cd "$(dirname "$0")/.."
first=${1:-7} seeds=5 least=20000 step=20
second=target/cargo/release/second
work=$(mktemp -d)
trap 'rm -rf "$work"' EXIT

# Makes the cases of a subject that are not stored, every so many of them for valgrind, and what is expected.
make_cases() {
    seed=$first
    while [ "$seed" -lt $((first + seeds)) ]; do
        "$second" "$subject" "$seed" 2> "$work/log" || { cat "$work/log"; exit 1; }
        seed=$((seed + 1))
    done > "$work/all"
    "$second" new "$subject" "crates/${subject}_cases/stdin" < "$work/all" > "$work/$subject.cases"
    "$second" every "$subject" $step < "$work/$subject.cases" > "$work/$subject.few"
    for cases in cases few; do
        "$second" "expect-$subject" < "$work/$subject.$cases" > "$work/$subject.$cases.expected"
    done
}

# Runs a subject's test from C, from C++, and, of every so many cases, under valgrind; says how many cases agree.
run_test() {
    for compiler in gcc "g++ -x c++"; do
        $compiler -O2 -Wall -Wextra -Werror -Iinclude -c -o "$work/$subject.o" "tests/$subject.c"
        g++ -o "$work/$subject" "$work/$subject.o" target/staticlib/libjudge.a
        "$work/$subject" "$work/$subject.cases" "$work/$subject.cases.expected" > "$work/said"
    done
    few="not under valgrind, which is missing"
    if command -v valgrind > "$work/log"; then
        few=$(valgrind -q --error-exitcode=1 "$work/$subject" "$work/$subject.few" "$work/$subject.few.expected")
        few="${few#*: } under valgrind"
    fi
    echo "$(cat "$work/said"); $few"
}

# The answers expected, a line for each: the call, the writer's three as one, and the refusal's number or what else it is.
answers() {
    awk '{ print "vocabulary", $1; print "record", $3 }' "$work/vocabulary.cases.expected"
    for subject in comparison classification script writer; do
        awk -v call=$subject '{ print call, $1 == "refused" ? $2 : $1 }' "$work/$subject.cases.expected"
    done
}

# The answers that have to come up, in the same way: what accepts, and each refusal of each call.
wanted() {
    echo "comparison equal
comparison different
classification counts
script accepted
writer length
record 0
record 1
record 9"
    { seq 0 8; echo 28; } | sed 's/^/vocabulary /'
    { seq 1 8; echo 28; seq 10 12; } | sed 's/^/comparison /'
    { seq 1 8; echo 28; echo 11; echo 12; echo 26; } | sed 's/^/classification /'
    { seq 1 8; echo 28; echo 10; seq 13 25; } | sed 's/^/script /'
    { seq 1 8; echo 28; echo 27; } | sed 's/^/writer /'
}

cargo build --release --quiet -p second
total=0
for subject in vocabulary comparison classification script writer; do
    make_cases
    run_test
    count=$(wc -l < "$work/$subject.cases.expected")
    [ "$count" -ge $least ] || { echo "outside: $count cases of $subject are too few"; exit 1; }
    total=$((total + count))
done
answers | sort | uniq -c > "$work/counted"
awk '{ print $2, $3 }' "$work/counted" > "$work/met"
wanted | sort > "$work/wanted"
diff "$work/wanted" "$work/met" || { echo "outside: some answer came up in no case, or should not have"; exit 1; }
rarest=$(sort -n "$work/counted" | awk 'NR == 1 { print $1 }')
echo "outside: each answer of each call came up, the writer's three taken as one, the rarest in $rarest cases"
echo "outside: $(echo $total | sed 's/\([0-9]\{3\}\)$/,\1/') cases agree (seed $first)"
