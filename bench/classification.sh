#!/bin/sh
# Measures the library's classification beside C: by the same algorithm, and by the words.
#
# usage: classification.sh [--agree | --instructions] [ARCHIVE]
#
# Prints the time of a call on each vocabulary, after a comparison of all answers and lent bytes on each and on 20,000
# random vocabularies; with --agree that comparison alone (seconds); with --instructions the instructions of a call,
# counted by callgrind, whole and beyond the elimination, beside the figure to reach.
# ARCHIVE: default target/staticlib/libjudge.a in the repository.
# Exit status: 0 done, 1 the answers differ or a build failed, 2 bad usage or something is missing.
set -eu
# shellcheck source-path=SCRIPTDIR
. "$(dirname -- "$0")/common.sh"

compile classification classification_vocabularies classification_plain classification_literal classification_answer \
    comparison_questions comparison_fast comparison_literal comparison_answer vocabulary_plain support

measure classification "$bench/data"
