# The table of classification.sh --instructions, after counts.awk.

# What a classification takes more than a comparison over the same vocabulary.
function beyond(input, version) {
    return ir[input, version] - ir[input, version ", comparison"]
}

function row(input,    own) {
    own = beyond(input, "library")
    printf "| %s | %d | %d | %.2f | %s | %d |\n", input, ir[input, "library"], ir[input, "plain C"],
        ir[input, "library"] / ir[input, "plain C"], marked("%d", own, own > 1e6 * reach[input]),
        beyond(input, "plain C")
}

END {
    print "| input | library, instructions a call | plain C, instructions a call | ratio " \
        "| library, beyond the elimination (to reach: 100000) | plain C, beyond the elimination |"
    print "|---|---:|---:|---:|---:|---:|"
    for (i = 1; i <= count; i++)
        row(inputs[i])
}
