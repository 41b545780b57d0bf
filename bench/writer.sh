#!/bin/sh
# Measures the library's writer beside plain C, and beside the library's vocabulary check alone.
#
# usage: writer.sh [--agree | --instructions] [ARCHIVE]
#
# Prints the time of each addition and of whole vocabularies, after a comparison of all answers and lent bytes on each
# and in 40,000 random buffers; with --agree that comparison alone (seconds); with --instructions the instructions,
# counted by callgrind. ARCHIVE: default target/staticlib/libjudge.a in the repository.
# Exit status: 0 done, 1 the answers differ or a build failed, 2 bad usage or something is missing.
set -eu
# shellcheck source-path=SCRIPTDIR
. "$(dirname -- "$0")/common.sh"

compile writer writer_additions writer_plain vocabulary_plain support

measure writer
