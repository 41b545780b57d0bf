# What zsh offers where a line ends, a word a line.
# usage: zsh -f tests/complete.zsh DIRECTORY LINE        (DIRECTORY has _desk)
#
# A second zsh runs on a terminal of its own, since zsh completes nowhere else. What its completion adds goes to a file.
zmodload zsh/zpty
found=$(mktemp -d)
cat > $found/begin <<END
PROMPT= RPROMPT=
fpath=(${(q)1} \$fpath)
autoload -Uz compinit
compinit -u -d ${(q)found}/dump
zstyle ':completion:*' insert-tab false
bindkey '^I' complete-word
compadd() {
  local -a hits
  # with -O, -A or -D it adds nothing, but asks what matches
  [[ \${@[1,(i)(-|--)]} == *-[OAD]* ]] || { builtin compadd -A hits "\$@"; print -rl -- \$hits >> ${(q)found}/offered }
  builtin compadd "\$@"
}
comppostfuncs=(finish)
finish() { : > ${(q)found}/done }
END
: > $found/offered
zpty child zsh -f -i
zpty -w child "source ${(q)found}/begin"
zpty -n -w child "$2"$'\t'
for ((i = 0; i < 100; i++)); do
  zpty -r -t child said > /dev/null
  [[ -e $found/done ]] && break
  sleep 0.1
done
zpty -d child
cat $found/offered
[[ -e $found/done ]]
ended=$?
rm -rf $found
exit $ended
