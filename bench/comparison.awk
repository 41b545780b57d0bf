# The tables of comparison.sh --instructions, after counts.awk.

function row(input,    library, fast, literal, ratio) {
    library = ir[input, "library"]
    fast = ir[input, "fast C"]
    ratio = library / fast
    literal = (input, "literal C") in ir ? ir[input, "literal C"] : "over 20 s"
    printf "| %s | %s | %d | %d | %s | %s |\n", input,
        marked("%d", library, library > 1e6 * reach[input]), 1e6 * reach[input], fast,
        marked("%.2f", ratio, ratio > 1.3), literal
}

# What the elimination takes: all but what is taken where there is no type to eliminate.
function elimination(version) {
    return ir["walk10 and 3 records", version] - ir["walk10, no type", version]
}

function elimination_row(version,    own, times) {
    own = elimination(version)
    times = elimination("literal C") / own
    printf "| %s | %d | %s |\n", version, own,
        version == "literal C" ? "1" : marked("%.1f", times, times < 90)
}

END {
    print "| input | library, instructions a call | to reach | fast C, instructions a call " \
        "| ratio (to reach: 1.30) | literal C, instructions a call |"
    print "|---|---:|---:|---:|---:|---:|"
    for (i = 1; i <= count - 2; i++)
        row(inputs[i])
    print ""
    print "| elimination alone, walk10 | instructions " \
        "| times fewer than literal C (to reach: 90) |"
    print "|---|---:|---:|"
    elimination_row("library")
    elimination_row("fast C")
    elimination_row("literal C")
}
