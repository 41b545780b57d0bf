# Completion of desk for bash, of version 4.4 or later; nothing else is needed.

_desk_commands='check show record compare within why classify verify columns assemble new add edition recheck diff help'
_desk_topics='texts tables refusals'
_desk_kinds='owl:Thing owl:Nothing ObjectComplementOf ObjectIntersectionOf ObjectUnionOf ObjectSomeValuesFrom ObjectAllValuesFrom'

# _desk_options COMMAND: its options, beside those of every command.
_desk_options() {
    case $1 in
        check) echo '--format' ;;
        compare) echo '--words --survivors --dot --svg' ;;
        within) echo '--words --dot --svg' ;;
        why) echo '--within --all --words' ;;
        classify) echo '--words --dot' ;;
        verify) echo '--trace --words' ;;
        columns) echo '--words' ;;
        assemble) echo '-o --output --force' ;;
        new) echo '--roles' ;;
        recheck) echo '-j --jobs --strict --explain --words --html' ;;
        '') echo '-V --version' ;;
    esac
    echo '--json -q --quiet --color -h --help'
}

# _desk_place COMMAND N SORT: what may stand as word N after a command, 'FILE' for a file; SORT is what `add` adds.
_desk_place() {
    case $1,$2 in
        ,*) echo "$_desk_commands" ;;
        help,1) echo "$_desk_commands $_desk_topics" ;;
        add,2) echo 'term statement' ;;
        add,3) [[ $3 != term ]] || echo "$_desk_kinds" ;;
        edition,2) echo '1 2' ;;
        check,* | show,* | classify,* | verify,[12] | diff,[123] | *,1) echo FILE ;;
    esac
}

# _desk_value OPTION: what an option takes; nothing, if it has no value that follows as a word.
_desk_value() {
    case $1 in
        --format) echo 'gcc sarif' ;;
        --words | --survivors | --dot | --svg | --html | -o | --output) echo FILE ;;
        --roles | --all | -j | --jobs) echo NUMBER ;;
    esac
}

# Reads the words before the cursor: the command and what follows it into `given`, an option that waits for its value into
# `option`, and what is there of a word with a colon, which bash splits, into `begun`.
_desk_read() {
    local word before='' i
    for ((i = 1; i < COMP_CWORD; i++)); do
        word=${COMP_WORDS[i]}
        if [[ $word == '=' && $before == --* ]]; then
            option=$before
        elif [[ $word == ':' && ${#given[@]} -gt 0 ]]; then
            begun=${given[-1]}:
            unset 'given[-1]'
        elif [[ -n $option ]]; then
            option=
        elif [[ -n $begun ]]; then
            given+=("$begun$word")
            begun=
        elif [[ -z $ended && $word == -- ]]; then
            ended=yes
        elif [[ -z $ended && $word == -?* ]]; then
            [[ -z $(_desk_value "$word") ]] || option=$word
        else
            given+=("$word")
        fi
        before=$word
    done
}

_desk() {
    local current=${COMP_WORDS[COMP_CWORD]} option='' begun='' ended='' offered word
    local -a given=()
    _desk_read
    if [[ $current == '=' ]]; then
        option=${COMP_WORDS[COMP_CWORD - 1]}
        current=
    elif [[ $current == ':' && ${#given[@]} -gt 0 ]]; then
        begun=${given[-1]}:
        unset 'given[-1]'
        current=
    fi
    if [[ $option == --color ]]; then
        offered='auto always never'
    elif [[ -n $option ]]; then
        offered=$(_desk_value "$option")
    elif [[ -z $ended && $current == -* ]]; then
        offered=$(_desk_options "${given[0]-}")
    else
        offered=$(_desk_place "${given[0]-}" "${#given[@]}" "${given[2]-}")
    fi
    COMPREPLY=()
    case $offered in
        FILE) compopt -o default ;;
        NUMBER) ;;
        *)
            for word in $offered; do
                [[ $word != "$begun$current"* ]] || COMPREPLY+=("${word#"$begun"}")
            done
            ;;
    esac
}

complete -F _desk desk
