#!/bin/sh
# Measures the library's comparison and its classification beside the reasoners FaCT++ and Konclude (Debian packages
# fact++ and konclude).
#
# usage: reasoners.sh [--quick] [ARCHIVE]
#
# Prints tables in Markdown, from one run: one question a process over generated customs vocabularies; a table of
# questions over one vocabulary; all names of one vocabulary; the worst known vocabularies, with 60 s for each run of a
# reasoner. All times are wall time of whole processes, alternating; up to 15 minutes. With --quick fewer repeats, and
# 5 s: minutes.
# ARCHIVE: default target/staticlib/libjudge.a in the repository.
# Exit status: 0 done, 1 a build failed, 2 bad usage or no archive; where a run fails, that of tools/bridge (README.md
# there): 69 a reasoner is missing, 71 a process cannot be run, 66 or 73 a file cannot be read or written.
set -eu

repeats=21 tables=11 limit=60
if [ "${1:-}" = --quick ]; then
    repeats=3 tables=2 limit=5
    shift
fi
# shellcheck source-path=SCRIPTDIR
. "$(dirname -- "$0")/common.sh"
[ "$mode" = time ] || fail "usage: ${0##*/} [--quick] [ARCHIVE]"

# The library's programs for one question, which is the example's, and for all names: processes as small as a caller's
# can be.
for source in examples/settle bench/classify; do
    gcc -O2 -Wall -Wextra -Werror -I "$root/include" -o "$build/${source##*/}" "$root/$source.c" "$archive"
done
JUDGE_LIB=$(CDPATH='' cd -- "$(dirname -- "$archive")" && pwd)
export JUDGE_LIB
(cd "$root" && cargo build --quiet --release -p bridge --target-dir "$build/cargo")
bridge=$build/cargo/release/bridge

"$bridge" customs "$build/customs" --count 21 --seed 1

printf '### One question, one process\n\n'
"$bridge" race one "$build/customs" --ours "$build/settle" --repeats "$repeats"
printf '### A table of questions\n\n'
"$bridge" race table "$build/customs" --repeats "$tables"
printf '### All names of one vocabulary, one process\n\n'
"$bridge" race names "$build/customs" --ours "$build/classify" --repeats "$repeats"
printf '### The worst known\n\n'
"$bridge" race worst "$bench/data" --ours "$build/settle" --limit "$limit"
