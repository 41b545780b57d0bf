# The table of writer.sh --instructions, after counts.awk.

function row(input,    library, plain, check) {
    library = ir[input, "library"]
    plain = ir[input, "plain C"]
    check = ir[input, "check alone"]
    printf "| %s | %d | %d | %.2f | %d | %d |\n", input, library, plain, library / plain, check, library - check
}

END {
    print "| input | library, instructions | plain C, instructions | ratio " \
        "| the library's checks alone | library, beyond the checks |"
    print "|---|---:|---:|---:|---:|---:|"
    for (i = 1; i <= count; i++)
        row(inputs[i])
}
