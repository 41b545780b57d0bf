#!/usr/bin/env bash
# Compares the statements of crates/demands/specs, and of crates/judge/specs, with the contracts of `hold` in the crate's
# src/lib.rt, which are what the prover checks: each demand, each promise and the samples are among them, and nothing else
# is. A statement is a record or an abbreviation without parameters whose type is Type 0.
#
# usage: statements.sh [DIRECTORY]      (no DIRECTORY: this tree)
# Exit status: 0 all is so; 1 some statement is not, and each is reported.
set -eu
cd "${1:-"$(dirname "$0")/.."}"
export LC_ALL=C.UTF-8
work=$(mktemp -d)
trap 'rm -rf -- "$work"' EXIT

# No statement, but data: Row is a line of the table of refusals.
data='Row'

# A clause of hold: `ensures NAME { STATEMENT }`; where it is the only one, it may go without a name.
clause='^ *ensures( [a-z0-9_]+)? \{ ([^ ]+) \}$'

# compare CRATE STATEMENT..: reports where statements and contracts differ. Named are the statements that have landed, so
# that none goes away together with its contract; each request adds its own.
compare() {
    local specs=crates/$1/specs code=crates/$1/src/lib.rt
    printf '%s\n' "${@:2}" | sort > "$work/landed"
    grep -rhE --include='*.antt' '^(abbrev |unfoldable |opaque )?pub (record |abbrev |unfoldable )?[^ ]+ : Type [0-9]' "$specs" |
        sed 's/ : Type.*//; s/.* //' | grep -vxF "$data" | sort > "$work/statements"
    # The head of hold, without comments.
    sed 's|//.*||' "$code" | awk '/^pub fn hold\(\) *$/ { head = 1; next } /^\{/ { head = 0 } head && NF' > "$work/head"
    sed -nE "s/$clause/\2/p" "$work/head" | sort > "$work/contracts"

    comm -23 "$work/statements" "$work/contracts" | sed "s|.*|$specs: & is not among the contracts of hold|"
    comm -13 "$work/statements" "$work/contracts" | sed "s|.*|$code: hold promises &, which is no statement of $specs|"
    comm -13 "$work/statements" "$work/landed" | sed "s|.*|$specs: & is gone|"
    # a contract of another form, or a condition
    sed -nE "/$clause/! s|^ *(.*)|$code: hold says more than a statement: \1|p" "$work/head"
}

{
    compare demands Demand1 Demand2 Demand3 Limits ChainsEnd WritesSurvivors NearestNames WritesVocabularies EditionsAgree \
        EditionsConvert Samples
    compare judge TakenApart
} > "$work/report"
cat "$work/report"
[ ! -s "$work/report" ]
