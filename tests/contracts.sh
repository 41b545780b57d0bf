#!/bin/sh
# Holds the code of the crates to what docs/ARCHITECTURE.md says of it, so that contracts stay readable: a line has at most
# 130 characters, a contract names its limits, a function has at most 9 parameters and a body of at most 40 lines. Lines of
# specs/ and proofs/ are as short, but for those that say what to unfold. A path in proofs/ goes back at most four `.before` at a
# time: what lies further back is reached by waypoints with names.
#
# usage: contracts.sh [FILE..]        (no FILE: every file of crates/*/src, and the lines of crates/*/specs and proofs)
# Exit status: 0 all is so; 1 some line is not, and each is told.
set -eu
cd "$(dirname "$0")/.."
told=$(mktemp)
trap 'rm -f -- "$told"' EXIT

# Tells the long lines of files. UTF-8, so that characters and not bytes are counted.
tell_long() {
    LC_ALL=C.UTF-8 grep -HnE '^.{131,}' "$@" | grep -vE '^[^:]*:[0-9]+: *unfolding ' |
        sed 's/:\([0-9]*\):.*/:\1: over 130 characters/' >> "$told" || :
}

# Tells the paths of proofs that go further back than four places.
tell_paths() {
    grep -HnE '(\.before ?){5,}' "$@" |
        sed 's/:\([0-9]*\):.*/:\1: a path of more than four `.before`, where a waypoint names the place/' >> "$told" || :
}

if [ $# -eq 0 ]; then
    set -- crates/*/src/*.rt
    tell_long -r --exclude-dir=out --include='*.antt' crates
    tell_paths -r --exclude-dir=out --include='*.antt' crates/*/proofs
fi
tell_long "$@"

awk '
function tell(what) { printf "%s:%d: %s: %s\n", FILENAME, at, name, what }
# The limits of docs/FORMATS.md, by number. An exponent is no limit: 2 ^ 64 is a width. A clause ends with the brace that closes it.
FNR == 1 { contract = 0 }
/^ *(requires|ensures) / { contract = 1; open = 0 }
contract {
    line = " " $0 " "
    open += gsub(/[{]/, "{", line) - gsub(/[}]/, "}", line)
    gsub(/\^ [0-9]+/, "", line)
    if (match(line, /[^0-9](12|64|144|512|2048|4096|32768)[^0-9]/))
        printf "%s:%d: the number %s in a contract, where a name says it\n", FILENAME, FNR, substr(line, RSTART + 1, RLENGTH - 2)
    if (open == 0) contract = 0
}
/^ *(pub(\(crate\))? )?(extern "C" )?fn / {
    at = FNR; name = $0
    sub(/.*fn /, "", name); sub(/\(.*/, "", name)
    parameters = 0; head = 1; body = 0
}
head {
    line = $0
    sub(/ -> .*/, "", line)
    if (line ~ /\(self|\(mut self/) parameters++
    parameters += gsub(/: /, "", line)
    if ($0 ~ /\)/) {
        head = 0
        if (parameters > 9) tell(parameters " parameters")
    }
}
/^ *\{$/ { body = FNR; match($0, /^ */); indent = RLENGTH }
body && /^ *\}$/ {
    match($0, /^ */)
    if (RLENGTH == indent) {
        if (FNR - body > 41) tell(FNR - body - 1 " lines")
        body = 0
    }
}' "$@" >> "$told"

[ ! -s "$told" ] || { sort -t: -k1,1 -k2,2n "$told"; exit 1; }
