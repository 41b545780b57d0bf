#!/bin/sh
# Prints every table of docs/BENCHMARKS.md: the library's calls beside C, in time and in instructions; the comparison
# and the classification beside FaCT++ and Konclude; `desk recheck` on long tables and `desk classify` on many
# vocabularies. A quarter of an hour on an idle machine.
#
# usage: all.sh [ARCHIVE]      (after tools/archive.sh)
# Exit status: 0 done; else that of the first part that failed.
set -eu
bench=$(CDPATH='' cd -- "$(dirname -- "$0")" && pwd)

for part in vocabulary comparison classification script writer; do
    printf '## %s\n\n' "$part"
    "$bench/$part.sh" "$@"
    "$bench/$part.sh" --instructions "$@"
done
printf '## reasoners\n\n'
"$bench/reasoners.sh" "$@"
printf '## recheck\n\n'
"$bench/recheck.sh"
printf '## desk classify\n\n'
"$bench/desk_classify.sh"
