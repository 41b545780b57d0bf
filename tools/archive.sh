#!/bin/sh
# Proves the static library judge and builds it, and lays it at target/staticlib/libjudge.a, where all that links it looks.
# An archive there that is the same stays untouched, so that nothing above it is built again. RT: the command `rt`.
# usage: tools/archive.sh
set -eu
cd "$(dirname "$0")/.."
made=crates/judge/out/libjudge.a archive=target/staticlib/libjudge.a
(cd crates/judge && "${RT:-rt}" lib)
cmp -s "$made" "$archive" && exit
mkdir -p target/staticlib
trap 'rm -f "$archive.$$"' EXIT
cp "$made" "$archive.$$"
mv "$archive.$$" "$archive"
