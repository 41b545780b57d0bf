# shellcheck shell=sh
# What the benchmarks' scripts share; each sources it with its own arguments still in place.
#
# Sets bench, root, archive, mode (time, agree, instructions) and build, a directory for what is built, which
# goes when the script ends.

fail() {
    printf '%s: %s\n' "${0##*/}" "$1" >&2
    exit 2
}

bench=$(CDPATH='' cd -- "$(dirname -- "$0")" && pwd)
root=$(dirname -- "$bench")
archive=$root/target/staticlib/libjudge.a
mode='time'

for word in "$@"; do
    case $word in
    --agree) mode=agree ;;
    --instructions) mode=instructions ;;
    -*) fail "unknown option $word; usage: ${0##*/} [--agree | --instructions] [ARCHIVE]" ;;
    *) archive=$word ;;
    esac
done
[ -f "$archive" ] || fail "no archive $archive; $root/tools/archive.sh makes it"
[ "$mode" != instructions ] || command -v valgrind >/dev/null || fail '--instructions needs valgrind'

build=$(mktemp -d)
trap 'rm -rf -- "$build"' EXIT
trap 'exit 1' HUP INT TERM

# compile NAME..: the program that the first name's file begins, from these files of bench/ and the archive.
compile() {
    program=$build/$1
    for name in "$@"; do
        set -- "$@" "$bench/$name.c"
        shift
    done
    # Bound at the start, so that no first call pays for it.
    gcc -O2 -Wall -Wextra -Werror -Wl,-z,now -I "$root/include" -o "$program" "$@" "$archive"
}

# Runs valgrind with these arguments; what it says is shown only where it fails.
callgrind() {
    valgrind --tool=callgrind "$@" 2>"$build/log" || {
        cat "$build/log" >&2
        exit 1
    }
}

# The instructions in a file that callgrind wrote.
total() {
    sed -n 's/^totals: //p' "$1"
}

# count_calls COMMAND: runs a program that makes its calls in a function `counted` and prints a line for each;
# $build/counts gets the lines, each with its instructions: input|millions to reach|version|instructions
count_calls() {
    # valgrind counts each byte that `rep stosb` and `rep movsb` handle as an instruction, and glibc uses them for large
    # blocks: both thresholds out of reach, memset and memcpy are counted by their vector instructions, for all versions
    # alike.
    GLIBC_TUNABLES=glibc.cpu.x86_rep_stosb_threshold=10000000:glibc.cpu.x86_rep_movsb_threshold=10000000
    export GLIBC_TUNABLES

    # Counting goes on in `counted` only, and each return from it dumps the count and begins anew.
    callgrind --callgrind-out-file="$build/dump" --toggle-collect=counted --dump-after=counted \
        "$@" >"$build/calls"
    number=0
    while IFS= read -r line; do
        number=$((number + 1))
        printf '%s|%s\n' "$line" "$(total "$build/dump.$number")"
    done <"$build/calls" >"$build/counts"
}

# measure NAME ARGUMENT..: runs the program as the mode asks: the time of each call; the comparison of the answers alone; or
# that, and the instructions of each call, which bench/NAME.awk prints beside the figures to reach.
measure() {
    figures=$bench/$1.awk
    shift
    case $mode in
    time) "$program" "$@" ;;
    agree) "$program" "$@" --agree ;;
    instructions)
        "$program" "$@" --agree
        count_calls "$program" "$@" --count
        awk -F '|' -f "$bench/counts.awk" -f "$figures" "$build/counts"
        ;;
    esac
}
