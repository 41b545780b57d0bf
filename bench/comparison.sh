#!/bin/sh
# Measures the library's comparison beside C: by the same algorithm, and by the definitions' words.
#
# usage: comparison.sh [--agree | --instructions] [ARCHIVE]
#
# Prints the time of a call on each input, after a comparison of all answers and written bytes on
# each and on 20,000 random vocabularies; with --agree that comparison alone (seconds); with
# --instructions the instructions of a call, counted by callgrind, beside the figures to reach
# (minutes). ARCHIVE: default target/staticlib/libjudge.a in the repository.
# Exit status: 0 done, 1 the answers differ or a build failed, 2 bad usage or something is missing.
set -eu
# shellcheck source-path=SCRIPTDIR
. "$(dirname -- "$0")/common.sh"

compile comparison comparison_questions comparison_fast comparison_literal comparison_answer vocabulary_plain support

measure comparison "$bench/data"
