#!/bin/sh
# Counts in crates/*/src/*.rt the places of points 1 to 7 of docs/DESIGN-PASS.md, and of point 8 what can be counted in proofs/.
# Prints a line for each sort: point, sort, count, between tabs; then for each point how many lines hold a place of some sort.
# What only reading finds stands in places.tsv beside this script, a place on each line: point, sort, file under crates/, and text of
# the place's line there; it counts while that text stands.
# usage: tools/design/count.sh [--list] [REV]    --list: each place too, as file:line; REV: a commit (none: the checkout)
set -eu
cd "$(dirname "$0")/../.."
export LC_ALL=C.UTF-8
list=false
[ "${1:-}" != --list ] || { list=true; shift; }
found=$PWD/tools/design/places.tsv
work=$(mktemp -d)
trap 'rm -rf -- "$work"' EXIT
mkdir "$work/all" "$work/code" "$work/heads"
if [ $# -gt 0 ]; then git archive "$1" crates; else tar -c --exclude=out crates; fi | tar -x -C "$work/all"

# code/ has the files without comments, ghost lines and clauses, heads/ the clauses alone; lines keep their numbers.
cd "$work/all"
for file in crates/*/src/*.rt; do
    mkdir -p "$work/code/${file%/*}" "$work/heads/${file%/*}"
    sed 's|//.*||; s|^ghost .*||' "$file" | awk -v heads="$work/heads/$file" -v code="$work/code/$file" '
        /^ *(requires|ensures) / { head = 1 }
        /^ *\{(\})? *$/ { head = 0 }
        { print head ? $0 : "" > heads; print head ? "" : $0 > code }'
done

# put POINT SORT: counts the places on standard input, a line each, which begin with file:line. What is only to compare is no place.
put() {
    cat > "$work/places"
    case $2 in *'to compare)') ;; *) sed "s/^\([^:]*:[0-9]*\):.*/$1	\1/" "$work/places" >> "$work/lines" ;; esac
    printf '%s\t%s\t%s\n' "$1" "$2" "$(grep -c '' "$work/places")"
    ! $list || sed 's|^crates/||; s/^/    /; s/: */: /2' "$work/places"
}

# has POINT SORT PATTERN: the lines of code that a pattern finds.
has() { (grep -nE -- "$3" crates/*/src/*.rt || :) | put "$1" "$2"; }

# scan POINT SORT PROGRAM: the places that an awk program prints; at() is this line's place.
scan() { awk "function at() { return FILENAME \":\" FNR \": \" } $3" crates/*/src/*.rt | put "$1" "$2"; }

# read_ones POINT: the places of the list, of this point. Of twins those that have another of their sort left.
read_ones() {
    grep "^$1	" "$found" | while IFS='	' read -r _ sort file text; do
        line=$({ grep -nF -m 1 -- "$text" "crates/$file" || :; } 2> "$work/log")
        [ -z "$line" ] || printf '%s\tcrates/%s:%s\n' "$sort" "$file" "$line"
    done > "$work/read"
    cut -f 1 "$work/read" | sort -u | while IFS= read -r sort; do
        awk -F '	' -v sort="$sort" '$1 == sort { print $2 }' "$work/read" > "$work/sort"
        case $sort in twins:*) [ "$(wc -l < "$work/sort")" -gt 1 ] || continue ;; esac
        put "$1" "$sort" < "$work/sort"
    done
}

# Signatures, one on each line: file:line, name, parameters, with a tab between.
signatures() {
    awk '
        / fn |^fn / { text = ""; place = FILENAME ":" FNR; open = 1 }
        open { text = text $0 }
        open && (/^ *\{/ || /\{ *$/) {
            open = 0; name = text; sub(/.*fn /, "", name); sub(/[(<].*/, "", name)
            gsub(/ +/, " ", text); sub(/[^(]*\(/, "", text); sub(/\) *(->.*)?\{.*$/, "", text); gsub(/^ +|,? *$/, "", text)
            print place "\t" name "\t" text
        }' crates/*/src/*.rt
}

cd "$work/code"
signatures > "$work/signatures"

scan 1 'own enums with a variant that says fine or refused' '
    /enum [A-Z]/ { enum = at() $0 } /^}/ { enum = "" } enum && /^ *(Fine|Refused)/ { print enum; enum = "" }'
has 1 'functions that make such an enum, or turn one into another' 'fn (pass_if|[a-z_]+_after(_count)?)\('
has 1 'let .. else that hands such an enum on' 'let [A-Z][A-Za-z]+::[A-Z][A-Za-z]*(\([a-z_]+\))? = .* else'
has 1 'uses of a variant that refuses' '[A-Z][A-Za-z]+::Refused'
has 1 'numbers of rows as literals' 'pass_if\(.*, [0-9]+, |number: [0-9]+|Sort::[A-Z][a-z]+ => [0-9]+,'
has 1 'fields and parameters that hold the number of a row' '(number|row): u8'
has 1 'matches on a kind that is a number' 'match ([a-z_.]+\.)?(kind|w0) '
has 1 'comparisons with a kind, an edition or a call that is a number' '(kind|w0|second|call) (==|!=|<=?|>=?) [0-9]+'
has 1 'kinds handed on as literals' 'kind: [0-9]+|fields_of\([0-9]|is_labelled\([^)]*, [0-9]'
has 1 'parameters and fields that hold a kind as a number' '\b(kind|call|w0): u(8|16)'
read_ones 1

cut -f 1,2 "$work/signatures" | grep -v '^crates/demands/' | awk -F '	' '
    { file = $1; sub(/:.*/, "", file) }
    !((file, $2) in seen) { seen[file, $2] = 1; files[$2]++; places[$2] = places[$2] $1 ": " $2 "\n" }
    END { for (name in files) if (files[name] > 1) printf "%s", places[name] }' | sort |
    put 2 'functions whose name two or more files have (demands aside)'
read_ones 2

# A loop: what its condition asks first is counted by one, or moved in another way, or neither.
loops='
    match($0, /^ *while /) { indent = RLENGTH - 6; v = $2; line = at() $0; how = "other"; loop = 1; next }
    loop && $1 == v && $2 ~ /^[+-]=$/ { how = $3 == "1;" ? "counts" : "steps" }
    loop && match($0, /^ *}$/) && RLENGTH == indent + 1 { loop = 0; if (how == want) print line }'
has 3 'while loops' '^ *while '
scan 3 'of them: count an index by one' "BEGIN { want = \"counts\" } $loops"
scan 3 'of them: add something else to an index' "BEGIN { want = \"steps\" } $loops"
scan 3 'of them: go on until something is so' "BEGIN { want = \"other\" } $loops"
has 3 'for loops (no place, to compare)' '^ *for '

has 4 'conditions made 1 or 0, or one of two values, by if' 'if .* \{ [^{}]* \} else \{ [^{}]* \}'
has 4 'bytes put together or taken apart by arithmetic' '(256|65536|4294967296) \*|[%/] 256'
has 4 'return true, return false' 'return (true|false);'
has 4 'arms that say true or false' '=> (true|false),'
read_ones 4

# The clauses of a crate that three or more functions ask: by the word they begin with where that is a proposition's name, else by
# their text with `_` for what is lent.
cd "$work/heads"
awk '
    FNR == 1 { clause = "" }
    /^ *requires / { clause = $0; place = FILENAME ":" FNR }
    clause && !/^ *requires / { clause = /^ *ensures |^$/ ? "" : clause $0 }
    clause && gsub(/\{/, "{", clause) == gsub(/\}/, "}", clause) {
        gsub(/ +/, " ", clause); fact = clause; clause = ""
        sub(/^[^{]*\{ /, "", fact); sub(/ \}$/, "", fact); gsub(/[a-z_0-9]+\.(now|old)/, "_", fact)
        if (fact ~ /^[A-Z]/) sub(/ .*/, "", fact)
        crate = place; sub(/crates\//, "", crate); sub(/\/.*/, "", crate)
        n[crate ": " fact]++; places[crate ": " fact] = places[crate ": " fact] place ": " crate ": " fact "\n"
    }
    END { for (fact in n) if (n[fact] > 2) printf "%s", places[fact] }' crates/*/src/*.rt > "$work/clauses"
cut -d : -f 3- "$work/clauses" | sort -u | sed 's/^ /crates: /' | put 5 'facts that three or more functions of a crate ask (to compare)'
sort "$work/clauses" | put 5 'clauses that ask such a fact'

cd "$work/code"
awk -F '	' '
    { n = split($3, p, /, */); split($1, path, "/"); crate = path[2]
      for (i = 1; i < n; i++) {
          pair = p[i] ", " p[i + 1]
          if (pair !~ /^&?(mut )?self/ && p[i + 1] != "") { count[crate ": " pair]++
              places[crate ": " pair] = places[crate ": " pair] $1 ": " crate ": " pair "\n" } } }
    END { for (pair in count) if (count[pair] > 2) printf "%s", places[pair] }' "$work/signatures" > "$work/pairs"
cut -d : -f 3- "$work/pairs" | sort -u | sed 's/^ /crates: /' |
    put 5 'parameters side by side in three or more signatures of a crate (to compare)'
sort "$work/pairs" | put 5 'signatures with such a pair, for each pair'

awk -F '	' '{ n = gsub(/\[[a-z0-9]+; [A-Za-z0-9:_ ]+\]/, "&", $3); 
    if (n > 1) print $1 ": " $2 ": " n " arrays" }' "$work/signatures" | put 6 'functions with two or more arrays as parameters'
scan 6 'structs with two or more arrays as fields' '
    /^pub struct|^struct/ { line = at() $0; n = 0 } line && /^ +(pub )?[a-z_]+: \[/ { n++ }
    /^}/ { if (n > 1) print line; n = 0; line = "" }'
read_ones 6

scan 7 'matches whose arms each call one function or give a constant' '
    match($0, /^ *match /) { indent = RLENGTH - 6; line = at() $0; all = 1; calls = 0; loop = 1; next }
    loop && match($0, /^ *}$/) && RLENGTH == indent + 1 { loop = 0; if (all && calls > 1) print line; next }
    loop { if ($0 ~ /=> [a-z_:]+\(.*\),$/) calls++; else if ($0 !~ /=> [A-Za-z_:]+(\(\))?,$/) all = 0 }'
read_ones 7

cd "$work/all"
for crate in crates/*; do
    find "$crate/proofs" -name Answers.antt | sed 's/$/:1: answers/' | put 8 "answers files of ${crate#*/}"
done
# A lemma of proofs/ that no line but its own cites: its name stands in no line of an .antt file or an edit but those that declare or
# define it. (The check may still use it: it finds lemmas of imported files by itself.)
find crates -name '*.antt' -exec cat {} + > "$work/antt"
cat crates/*/must-fail/*.edit >> "$work/antt"
sed 's/--.*//' "$work/antt" | awk '{ own = $1 == "pub" ? $2 : $1 ~ /^(abbrev|unfoldable|opaque)$/ ? $3 : $1
    gsub(/[(){}.,;\[\]]/, " "); k = split($0, w, " "); delete here
    for (i = 1; i <= k; i++) if (w[i] != own && !(w[i] in here)) { here[w[i]] = 1; print w[i] } }' | sort -u > "$work/cited"
find crates/*/proofs -name '*.antt' ! -name Answers.antt ! -name Invariants.antt \
    -exec grep -HnE '^(abbrev |unfoldable )?pub [^ ]+ :' {} + |
    awk -v cited="$work/cited" 'BEGIN { while ((getline word < cited) > 0) is[word] = 1 }
        { name = $0; sub(/^[^:]*:[0-9]*:/, "", name); sub(/^(abbrev |unfoldable )?pub /, "", name); sub(/ .*/, "", name)
          if (!(name in is)) print }' | put 8 'lemmas of proofs/ that no other line cites'

sort -u "$work/lines" | cut -f 1 | uniq -c | while read -r count point; do
    printf '%s\tlines with a place, each counted once\t%s\n' "$point" "$count"
done
