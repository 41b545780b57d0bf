#!/bin/sh
# Sets up, builds the library and the command `desk`, and runs the worked examples: first the broker's case. Prints each
# command with its answer, and fails where that is not what examples/expected has.
# usage: examples/run.sh           what it does is said on standard error
#        examples/run.sh --write   makes examples/expected again; read the difference before you keep it
set -eu
cd "$(dirname "$0")/.."
root=$PWD
work=$(mktemp -d)
trap 'rm -rf "$work"' EXIT
trap 'exit 130' INT TERM

say() {
    echo "examples/run.sh: $*" >&2
}

quietly() {
    "$@" > "$work/log" 2>&1 || { cat "$work/log" >&2; say "failed: $*"; exit 1; }
}

# shown WORD..: the words as a shell takes them.
shown() {
    for word; do
        case $word in
            *[!a-zA-Z0-9./-]*) printf " '%s'" "$word" ;;
            *) printf ' %s' "$word" ;;
        esac
    done
}

# run STATUS COMMAND..: runs the command, which has to end with this status.
run() {
    wanted=$1
    shift
    printf '$%s\n' "$(shown "$@")"
    status=0
    "$@" || status=$?
    [ "$status" -eq "$wanted" ] || { say "exit status $status, expected $wanted: $*"; exit 1; }
    echo
}

examples() {
    for example in relief vertebrate cat-owner; do
        run 0 desk assemble "$example/terms.text" -o "$example/terms.vocabulary"
        run 0 desk check "$example/terms.vocabulary"
        run 0 desk assemble "$example/proof.text" -o "$example/proof.script"
        run 0 desk verify "$example/terms.vocabulary" "$example/proof.script"
        # A text makes edition 2; the vocabulary that is stored was filed in edition 1.
        run 0 desk edition "$example/terms.vocabulary" 1
        cmp "$example/terms.vocabulary" "$root/examples/$example/terms.vocabulary"
        cmp "$example/proof.script" "$root/examples/$example/proof.script"
    done
    run 0 desk assemble cat-owner/repeated.text -o cat-owner/repeated.script
    run 0 desk verify cat-owner/terms.vocabulary cat-owner/repeated.script
    cmp cat-owner/repeated.script "$root/examples/cat-owner/repeated.script"
    run 0 desk show relief/terms.vocabulary
    run 0 desk compare relief/terms.vocabulary 11 12 --words relief/terms.text
    run 1 desk compare relief/terms.vocabulary 11 14 --words relief/terms.text
    run 0 desk within relief/terms.text 11 14
    run 1 desk within relief/terms.text 14 11 --svg counter-model.svg
    run 0 desk why relief/terms.text 11 12
    run 0 desk within relief/terms.text 'under relief' 'ObjectComplementOf("dutiable")'
    run 0 desk compare vertebrate/terms.vocabulary 4 12
    run 0 desk compare cat-owner/terms.vocabulary 3 9
    run 0 desk verify cat-owner/terms.vocabulary cat-owner/proof.script --trace
    run 0 desk classify relief/terms.text vertebrate/terms.text --dot names.dot
    run 0 cat names.dot
    run 0 desk recheck table

    # The cat owner's vocabulary, record by record, with a mistake on the way.
    run 0 desk new drafted.vocabulary --roles 1
    for term in c1 c2 c3 c4; do
        run 0 desk add drafted.vocabulary term "$term"
    done
    run 0 desk add drafted.vocabulary term ObjectSomeValuesFrom r0 c1
    run 0 desk add drafted.vocabulary term ObjectSomeValuesFrom r0 c4
    run 2 desk add drafted.vocabulary term ObjectAllValuesFrom r1 c1
    run 0 desk add drafted.vocabulary term ObjectAllValuesFrom r0 c1
    run 0 desk add drafted.vocabulary term ObjectIntersectionOf 6 7
    run 0 desk add drafted.vocabulary term ObjectIntersectionOf c3 c2
    run 0 desk add drafted.vocabulary statement 5 c2
    run 0 desk add drafted.vocabulary statement c3 8
    run 0 desk check drafted.vocabulary
    run 0 desk edition drafted.vocabulary 1
    cmp drafted.vocabulary "$root/examples/cat-owner/terms.vocabulary"

    # The same through C: examples/settle.c and examples/write.c.
    run 0 settle v.vocabulary
    run 0 settle v2.vocabulary
    run 1 settle relief/terms.vocabulary 11 14
    run 0 settle vertebrate/terms.vocabulary --names
    run 0 settle relief/terms.vocabulary relief/proof.script
    run 0 write written.vocabulary
    cmp written.vocabulary "$root/examples/v2.vocabulary"
}

say 'proving and building the library (a few minutes from nothing)'
quietly tools/archive.sh
say 'building desk and the examples in C'
quietly cargo build --release
for program in settle write; do
    quietly gcc -O2 -Wall -Wextra -Werror -Iinclude -o "$work/$program" "examples/$program.c" target/staticlib/libjudge.a
done
PATH=$work:$root/target/cargo/release:$PATH

say 'running the worked examples'
# In a copy, so that what is made can be compared with what is stored.
cp -R examples "$work/examples"
cd "$work/examples"
if [ "${1-}" = --write ]; then
    examples > "$root/examples/expected"
    exit
fi
mkfifo "$work/pipe"
tee "$work/made" < "$work/pipe" &
examples > "$work/pipe"
wait
diff "$root/examples/expected" "$work/made" >&2 || { say 'this is not what examples/expected has'; exit 1; }
say "all is as expected; desk is $root/target/cargo/release/desk"
