#!/bin/sh
# What editors have of the project: Vim's files of editors/vim, and the TextMate grammar of editors/textmate, over the samples
# of tests/editors; and what they make of `desk check --format=gcc`. What is missing here is said.
# usage: tests/editors.sh   (target/cargo/release/desk must be built)
set -eu
cd "$(dirname "$0")/.."
samples=$PWD/tests/editors
work=$(mktemp -d)
trap 'rm -rf "$work"' EXIT
PATH=$PWD/target/cargo/release:$PATH
export PATH

printf 'vocabulary roles 0\nc1\n  ObjectUnoinOf(c1 c1)\nc1 "grün" c1\n' > "$work/faulty words.text"
printf '\n-- goods\nvocabulary roles 0\nowl:Thing\nowl:Nothing\nSubClassOf(#1 #2)\n' > "$work/contradiction.judge"
printf 'vocabulary lists of a school\n' > "$work/other.text"
printf 'vocabulary roles 0\n' > "$work/gone.judge"

# What desk writes of the faulty texts; it exits with 2.
(cd "$work" && desk check --format=gcc "faulty words.text" contradiction.judge) > "$work/lines" || [ $? -eq 2 ]

# The line, column, level and message of each of these lines, as Vim has them.
found() {
    sed -n 's/^\(.*\):\([0-9]*\):\([0-9]*\): \([ew]\)[a-z]*: \(.*\)$/\1 \2 \3 1 \4 \5/p' "$work/lines"
}

if command -v vim > /dev/null && vim --version | grep -q '+syntax'; then
    (cd "$work" && OUT=$work/vim EDITORS=$samples/../../editors SAMPLES=$samples WORK=$work \
        vim -es -N -u NONE -i NONE -n -S "$samples/sample.vim" < /dev/null > "$work/log" 2>&1) || cat "$work/log"
    {
        cat "$samples/sample.expected"
        echo "other.text is ours: 0"
        found
        echo "gone.judge 0 0 0  there is no such file"
    } > "$work/wanted"
    diff "$work/wanted" "$work/vim"
    echo "editors: Vim colours the samples, and finds what desk finds"
else
    echo "editors: Vim's files are not checked, since vim is missing or has no syntax"
fi

if command -v python3 > /dev/null; then
    python3 "$samples/sample.py" tokens > "$work/tokens"
    diff "$samples/sample.expected" "$work/tokens"
    python3 "$samples/sample.py" words
    python3 "$samples/sample.py" problems < "$work/lines" > "$work/problems"
    sed 's/^\(.*\):\([0-9]*\):\([0-9]*\): \([a-z]*\): .* \[\(.*\)\]$/\1 \2 \3 \4 \5/' "$work/lines" | diff - "$work/problems"
    [ "$(wc -l < "$work/problems")" -ge 3 ]
    echo "editors: the TextMate grammar colours the samples, and the problem matcher finds what desk finds"
else
    echo "editors: the TextMate grammar is not checked, since python3 is missing"
fi
