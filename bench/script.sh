#!/bin/sh
# Measures the library's script check beside plain C.
#
# usage: script.sh [--agree | --instructions] [ARCHIVE]
#
# Prints the time of a call on each script, after a comparison of both answers on each, on damages of
# them and on 60,000 random scripts; with --agree that comparison alone (seconds); with
# --instructions the instructions of a call, counted by callgrind, beside the figures to reach.
# ARCHIVE: default target/staticlib/libjudge.a in the repository.
# Exit status: 0 done, 1 the answers differ or a build failed, 2 bad usage or something is missing.
set -eu
# shellcheck source-path=SCRIPTDIR
. "$(dirname -- "$0")/common.sh"

compile script script_shapes script_proofs script_plain vocabulary_plain support

measure script
