# Completion of desk for fish.

# The words before the cursor that are no options and no values of options: the command first.
function __desk_words
    set -l words (commandline -opc)
    set -l takes_value --format --words --survivors --dot --svg --html -o --output --roles --all -j --jobs
    set -l is_value no
    for word in $words[2..]
        if test $is_value = yes
            set is_value no
        else if contains -- $word $takes_value
            set is_value yes
        else if not string match -q -- '-?*' $word
            echo $word
        end
    end
end

# Whether there is no command yet.
function __desk_wants_command
    test (count (__desk_words)) -eq 0
end

# Whether the command is one of these.
function __desk_is
    set -l words (__desk_words)
    test (count $words) -gt 0; and contains -- $words[1] $argv
end

# Whether a term of some kind is to come.
function __desk_wants_kind
    set -l words (__desk_words)
    test (count $words) -eq 3 -a "$words[1] $words[3]" = 'add term'
end

# Whether word N after one of these commands is to come: __desk_at N COMMAND ..
function __desk_at
    test (count (__desk_words)) -eq $argv[1]; and __desk_is $argv[2..]
end

complete -c desk -l json -d 'One JSON object a line instead'
complete -c desk -s q -l quiet -d 'No answer; the exit status tells'
complete -c desk -l color -d 'Colours'
complete -c desk -n 'string match -q -- "--color=*" (commandline -ct)' -f -a '--color={auto,always,never}'
complete -c desk -s h -l help -d 'How it is called'
complete -c desk -n __desk_wants_command -s V -l version -d 'The version'

complete -c desk -n __desk_wants_command -f
complete -c desk -n __desk_wants_command -a check -d 'Whether a vocabulary is accepted'
complete -c desk -n __desk_wants_command -a show -d 'A vocabulary or a script as text'
complete -c desk -n __desk_wants_command -a record -d 'One record, its fields and what it says'
complete -c desk -n __desk_wants_command -a compare -d 'Whether two terms are equal'
complete -c desk -n __desk_wants_command -a within -d 'Whether one term lies within another'
complete -c desk -n __desk_wants_command -a why -d 'The statements by which two terms are equal'
complete -c desk -n __desk_wants_command -a classify -d 'The names from the broadest down'
complete -c desk -n __desk_wants_command -a verify -d 'Whether a script proves that one term lies within another'
complete -c desk -n __desk_wants_command -a columns -d 'The columns that a script may use'
complete -c desk -n __desk_wants_command -a assemble -d 'A vocabulary or a script from its text'
complete -c desk -n __desk_wants_command -a new -d 'Makes an empty vocabulary'
complete -c desk -n __desk_wants_command -a add -d 'Adds a term or a statement to a vocabulary'
complete -c desk -n __desk_wants_command -a edition -d 'Converts a vocabulary to an edition'
complete -c desk -n __desk_wants_command -a recheck -d 'Every line of a filed table'
complete -c desk -n __desk_wants_command -a diff -d 'What changed between two vocabularies'
complete -c desk -n __desk_wants_command -a help -d 'How a command is called'

complete -c desk -n '__desk_is check' -l format -x -a 'gcc sarif' -d 'Faults for editors and code review'
complete -c desk -n '__desk_is compare within why classify verify columns recheck' -l words -r -F -d 'The text whose comments say what records are called'
complete -c desk -n '__desk_is compare' -l survivors -r -F -d 'Writes the bytes of the interpretation'
complete -c desk -n '__desk_is compare within classify' -l dot -r -F -d 'Draws it for Graphviz'
complete -c desk -n '__desk_is compare within' -l svg -r -F -d 'Draws it as a picture'
complete -c desk -n '__desk_is why' -l within -d 'Why A lies within B'
complete -c desk -n '__desk_is why' -l all -x -d 'Up to so many sets'
complete -c desk -n '__desk_is verify' -l trace -d 'Prints each step'
complete -c desk -n '__desk_is assemble' -s o -l output -r -F -d 'The file to write'
complete -c desk -n '__desk_is assemble' -l force -d 'Writes what is refused, too'
complete -c desk -n '__desk_is new' -l roles -x -d 'The number of roles'
complete -c desk -n '__desk_is recheck' -s j -l jobs -x -d 'Judges with so many threads'
complete -c desk -n '__desk_is recheck' -l strict -d 'Lines that hold vacuously fail'
complete -c desk -n '__desk_is recheck' -l explain -d 'Explains lines that do not hold'
complete -c desk -n '__desk_is recheck' -l html -r -F -d 'Writes a report'

# Words that are no files.
complete -c desk -n '__desk_at 2 record compare within why columns' -f
complete -c desk -n '__desk_at 3 compare within why add' -f
complete -c desk -n '__desk_at 2 add' -f -a 'term statement'
complete -c desk -n __desk_wants_kind -f -a 'owl:Thing owl:Nothing ObjectComplementOf ObjectIntersectionOf ObjectUnionOf'
complete -c desk -n __desk_wants_kind -f -a 'ObjectSomeValuesFrom ObjectAllValuesFrom'
complete -c desk -n '__desk_at 2 edition' -f -a '1 2'
complete -c desk -n '__desk_is help' -f
complete -c desk -n '__desk_at 1 help' -a 'check show record compare within why classify verify columns assemble new add edition recheck diff'
complete -c desk -n '__desk_at 1 help' -a 'texts tables refusals'
