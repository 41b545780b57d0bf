#!/usr/bin/env bash
# Tells where docs/ARCHITECTURE.md leads a reader to a definition that is not there: in the rows that end with a file of
# specs/, each name in the middle column is declared in that file.
set -eu
cd "$(dirname "$0")/.."
faults=0
rows=0
while IFS='|' read -r _ _ names file _; do
    path=crates/$(sed 's/[` ]//g' <<< "$file").antt
    rows=$((rows + 1))
    [ -f "$path" ] || { echo "docs/ARCHITECTURE.md: no file $path"; faults=1; continue; }
    # what stands after a semicolon, or in brackets, leads elsewhere
    for name in $(sed 's/;.*//; s/([^)]*)//g' <<< "$names" | grep -o '`[^`]*`' | tr -d '`'); do
        grep -qE "^ *(abbrev |unfoldable |opaque )?pub (record |data |abbrev |unfoldable )?$name( |$)" "$path" ||
            { echo "docs/ARCHITECTURE.md: $path declares no $name"; faults=1; }
    done
done < <(grep -E '\| `[a-z]+/specs/[A-Za-z/]+` \|$' docs/ARCHITECTURE.md)
[ "$rows" -ge 50 ] || { echo "docs/ARCHITECTURE.md: only $rows rows lead to a definition"; faults=1; }
exit $faults
