# The table of script.sh --instructions, after counts.awk.

function row(input,    library, plain, ratio) {
    library = ir[input, "library"]
    plain = ir[input, "plain C"]
    ratio = library / plain
    printf "| %s | %s | %d | %d | %s |\n", input,
        marked("%d", library, library > 1e6 * reach[input]), 1e6 * reach[input], plain,
        marked("%.2f", ratio, ratio > 2)
}

END {
    print "| script | library, instructions a call | to reach | plain C, instructions a call " \
        "| ratio (to reach: 2.00) |"
    print "|---|---:|---:|---:|---:|"
    for (i = 1; i <= count; i++)
        row(inputs[i])
}
