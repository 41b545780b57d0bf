# Reads the counts of common.sh: lines input|millions to reach|version|instructions.

{
    if (!($1 in reach))
        inputs[++count] = $1
    reach[$1] = $2
    ir[$1, $3] = $4
}

# A figure, marked where it is past what is to be reached.
function marked(format, value, past) {
    return sprintf(format, value) (past ? " **missed**" : "")
}
