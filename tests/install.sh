#!/usr/bin/env bash
# `make install` and `make uninstall`, into directories with blanks in their names, and what was installed as people use it:
# the library from C, static and shared, by pkg-config; desk; the manual pages; the completions; Vim's files; the package of
# Python; one version everywhere.
# usage: tests/install.sh        (after `make`; it calls no prover)
# Says nothing where all is well, but what could not be checked. Exit status: 0 all is well; 1 something is not, and is told.
set -eu
cd "$(dirname "$0")/.."
work=$(mktemp -d)
trap 'rm -rf "$work"' EXIT
trap 'exit 130' INT TERM
# What a caller's make, or shell, has set is not meant for this one.
unset MAKEFLAGS MFLAGS MAKEOVERRIDES DESTDIR PREFIX BINDIR LIBDIR INCLUDEDIR DATADIR MANDIR DOCDIR PKGCONFIGDIR BASHDIR ZSHDIR \
    FISHDIR VIMDIR PYTHONDIR PYTHON INSTALL PKG_CONFIG_PATH PKG_CONFIG_LIBDIR PKG_CONFIG_SYSROOT_DIR

stage="$work/a stage"
prefix='/opt/the judge'
place=$stage$prefix
version=$(sed -n 's/^version = "\(.*\)"$/\1/p' Cargo.toml)

fail() {
    echo "tests/install.sh: $*"
    exit 1
}

# has TOOL: whether it is installed; it is told where it is not.
has() {
    command -v "$1" > "$work/log" || { echo "not checked, since $1 is missing"; return 1; }
}

# same WHAT WANTED FOUND
same() {
    [ "$2" = "$3" ] || fail "$1: wanted"$'\n'"$2"$'\n'found$'\n'"$3"
}

# quietly COMMAND..: what it prints is shown where it fails.
quietly() {
    "$@" > "$work/log" 2>&1 || { cat "$work/log"; fail "failed: $*"; }
}

# judge_make TARGET VARIABLE=VALUE..: no prover is called for a library that is there.
judge_make() {
    quietly make PROVE=true "$@"
}

# The files that are there, each with its mode.
listed() {
    (cd "$1" && find . ! -type d -printf '%P %m %l\n' | sed 's/ 777 / -> /; s/ *$//' | LC_ALL=C sort)
}

installed_files() {
    sed 's/  */ /' <<END
bin/desk 755
include/judge.h 644
lib/libjudge.a 644
lib/libjudge.so -> libjudge.so.${version%%.*}
lib/libjudge.so.${version%%.*} -> libjudge.so.$version
lib/libjudge.so.$version 755
lib/pkgconfig/judge.pc 644
share/bash-completion/completions/desk 644
share/doc/judge/DESK.md 644
share/doc/judge/FORMATS.md 644
share/doc/judge/counter-model.svg 644
share/fish/vendor_completions.d/desk.fish 644
share/man/man1/desk.1 644
share/man/man3/judge.3 644
share/vim/vimfiles/compiler/desk.vim 644
share/vim/vimfiles/ftdetect/judge.vim 644
share/vim/vimfiles/ftplugin/judge.vim 644
share/vim/vimfiles/syntax/judge.vim 644
share/zsh/site-functions/_desk 644
END
}

# The eight calls and nothing else; no code that has to be changed when it is loaded; no stack that can be run.
shared_library() {
    local library=$place/lib/libjudge.so calls
    calls=$(sed -n 's/^uint64_t \(judge_[a-z_]*\)(.*/\1/p' include/judge.h | LC_ALL=C sort)
    same 'calls of judge.h' 8 "$(wc -l <<< "$calls")"
    same 'what libjudge.so shows' "$calls" "$(nm -D --defined-only "$library" | awk '{ print $3 }' | LC_ALL=C sort)"
    readelf -dW "$library" > "$work/dynamic"
    same 'the name of libjudge.so' "libjudge.so.${version%%.*}" "$(sed -n 's/.*soname: \[\(.*\)\]/\1/p' "$work/dynamic")"
    same 'what libjudge.so needs' libc.so.6 "$(sed -n 's/.*Shared library: \[\(.*\)\]/\1/p' "$work/dynamic")"
    ! grep -q TEXTREL "$work/dynamic" || fail 'libjudge.so is not position independent'
    readelf -lW "$library" | grep -q 'GNU_STACK.* RW ' || fail 'libjudge.so has a stack that can be run'
}

# from_pkg_config WORD..: what pkg-config says of the library as it is installed below the stage.
from_pkg_config() {
    PKG_CONFIG_PATH=$place/lib/pkgconfig PKG_CONFIG_SYSROOT_DIR=$stage pkg-config "$@" judge
}

# built OUTPUT SOURCE: a program linked with libjudge.a and, as OUTPUT.shared, with libjudge.so, by what pkg-config says, which is
# quoted for a shell, or without it.
built() {
    local flags="-I'$place/include'" libs="-L'$place/lib' -ljudge"
    if command -v pkg-config > "$work/log"; then
        flags=$(from_pkg_config --cflags)
        libs=$(from_pkg_config --libs)
    fi
    eval "quietly gcc -O2 -Wall -Wextra -Werror -o \"\$1\" \"\$2\" $flags -Wl,-Bstatic $libs -Wl,-Bdynamic"
    eval "quietly gcc -O2 -Wall -Wextra -Werror -o \"\$1.shared\" \"\$2\" $flags $libs"
    ! readelf -dW "$1" | grep -q libjudge || fail "$2: linked with libjudge.so, where libjudge.a was asked for"
    readelf -dW "$1.shared" | grep -q 'NEEDED.*libjudge.so' || fail "$2: not linked with libjudge.so"
}

# both PROGRAM WORD..: what both forms of a program answer, which has to be the same.
both() {
    local program=$1 answer
    shift
    answer=$("$program" "$@") || :
    same "$program.shared" "$answer" "$(LD_LIBRARY_PATH=$place/lib "$program.shared" "$@" || :)"
    echo "$answer"
}

# The examples in C, and the one of judge(3); the version that the header has.
programs() {
    local answer
    built "$work/settle" examples/settle.c
    same 'settle v.vocabulary' 'examples/v.vocabulary: accepted, 6 records, edition 1, 3 atoms' \
        "$(both "$work/settle" examples/v.vocabulary | head -n 1)"
    built "$work/write" examples/write.c
    both "$work/write" "$work/written" > "$work/log"
    cmp "$work/written" examples/v2.vocabulary
    awk '/^\.Ed/ { exit } text; /^\.Bd -literal$/ { text = 1 }' man/judge.3 | sed 's/\\e/\\/g; s/\\-/-/g' > "$work/equal.c"
    built "$work/equal" "$work/equal.c"
    answer=$(both "$work/equal" examples/v.vocabulary)
    same 'the example of judge(3)' 'different at element 4' "$answer"
    cat > "$work/version.c" <<'END'
#include <judge.h>
#include <stdio.h>

int main(void)
{
    printf("%s %d.%d.%d\n", JUDGE_VERSION, JUDGE_VERSION_MAJOR, JUDGE_VERSION_MINOR, JUDGE_VERSION_PATCH);
    return judge_refusal(judge_check_vocabulary((const uint8_t *)"", 0)) != 1;
}
END
    built "$work/version" "$work/version.c"
    same 'the version of judge.h' "$version $version" "$(both "$work/version")"
}

# judge.pc says directories by the prefix where they are below it, so that a moved installation is found; others as they are.
pkg_config_file() {
    same 'the version of judge.pc' "$version" "$(from_pkg_config --modversion)"
    cp -R "$place" "$work/moved"
    same 'a moved installation' "-I$work/moved/include" \
        "$(PKG_CONFIG_PATH=$work/moved/lib/pkgconfig pkg-config --define-prefix --cflags judge | sed 's/ *$//')"
    judge_make install DESTDIR="$work/other" PREFIX=/usr LIBDIR=/usr/lib/x86_64-linux-gnu INCLUDEDIR=/opt/include
    # shellcheck disable=SC2016 # the prefix is put in by pkg-config
    same 'judge.pc' $'prefix=/usr\nlibdir=${prefix}/lib/x86_64-linux-gnu\nincludedir=/opt/include' \
        "$(head -n 3 "$work/other/usr/lib/x86_64-linux-gnu/pkgconfig/judge.pc")"
}

manual_pages() {
    local page
    for page in man1/desk.1 man3/judge.3; do
        grep -qx "\.Os \"Buyangsi $version\"" "$place/share/man/$page" || fail "$page: the version is not $version"
    done
    has mandoc || return 0
    for page in man1/desk.1 man3/judge.3; do
        quietly mandoc -T lint -W warning "$place/share/man/$page"
        # in the examples a line that is too long would be cut or wrapped
        mandoc -T ascii -O width=80 "$place/share/man/$page" | col -b -x > "$work/page"
        ! grep -nE '^.{81}' "$work/page" || fail "$page: over 80 columns"
    done
}

# offers SHELL LINE WORD..: what a shell offers at the end of a line, beside other words, has these.
offers() {
    local shell=$1 line=$2 word
    shift 2
    "offered_by_$shell" "$line" > "$work/offered"
    for word in "$@"; do
        grep -qxF -e "$word" "$work/offered" || { cat "$work/offered"; fail "$shell does not offer $word after: $line"; }
    done
}

# away COMMAND..: runs a shell that finds no settings and leaves none.
away() {
    mkdir -p "$work/home"
    env HOME="$work/home" XDG_CONFIG_HOME="$work/home" XDG_DATA_HOME="$work/home" XDG_CACHE_HOME="$work/home" "$@"
}

# Bash calls the function with the words, the last of which may be empty; '=' is a word of its own.
offered_by_bash() {
    # shellcheck disable=SC2016 # for bash
    away bash --norc -c '. "$1/share/bash-completion/completions/desk"
        compopt() { [ "$*" != "-o default" ] || compgen -f -- "${COMP_WORDS[COMP_CWORD]}"; }
        read -ra COMP_WORDS <<< "${2//=/ = }"
        [[ $2 != *" " ]] || COMP_WORDS+=("")
        COMP_CWORD=$((${#COMP_WORDS[@]} - 1))
        function=$(complete -p desk)
        [[ $function == *"-F _desk desk" ]] || exit 1
        _desk desk "" ""
        printf "%s\n" "${COMPREPLY[@]}"' bash "$place" "$1"
}

offered_by_zsh() {
    away zsh -f tests/complete.zsh "$place/share/zsh/site-functions" "$1"
}

offered_by_fish() {
    # shellcheck disable=SC2016 # for fish
    away fish --no-config -c 'source $argv[1]; complete -C $argv[2]' "$place/share/fish/vendor_completions.d/desk.fish" "$1" |
        sed 's/\t.*//; s/^--format=//'
}

completions() {
    local shell
    for shell in bash zsh fish; do
        has "$shell" || continue
        offers "$shell" 'desk ' check compare classify recheck help
        offers "$shell" 'desk com' compare
        same "$shell: desk com" 1 "$(wc -l < "$work/offered")"
        offers "$shell" 'desk recheck --' --jobs --strict --html --json
        offers "$shell" 'desk check --format=' gcc sarif
        offers "$shell" 'desk compare -q --words README.md README' README.md
        offers "$shell" 'desk edition -q file ' 1 2
        offers "$shell" 'desk add file term Object' ObjectUnionOf ObjectAllValuesFrom
        offers "$shell" 'desk help t' texts tables
    done
}

# Vim finds its files where the directory is one of those that it looks in.
vim_files() {
    printf 'vocabulary roles 0\nc1\n' > "$work/goods.text"
    # shellcheck disable=SC2016 # for vim
    PLACE=$place OUT=$work/vim away vim -es -N -u NONE -i NONE -n --cmd 'let &runtimepath .= "," . escape($PLACE, " ") . "/share/vim/vimfiles"' \
        -c 'filetype plugin on' -c "edit $work/goods.text" \
        -c 'call writefile([&filetype, get(b:, "current_compiler", "none")], $OUT)' -c 'qall!' < /dev/null > "$work/log" 2>&1 || :
    same 'the file type in Vim' $'judge\ndesk' "$(cat "$work/vim")"
}

# The package, which finds the library below the same prefix, and leaves nothing behind.
python_package() {
    local package found
    judge_make install-python DESTDIR="$stage" PREFIX="$prefix"
    package=$(dirname "$(find "$place/lib" -name py.typed)")
    same 'the package of Python' "$(cd python/judge && printf '%s\n' *.py py.typed)" "$(ls "$package")"
    found=$(cd / && PYTHONPATH=${package%/*} python3 -c '
import judge, judge._library
print(judge.VERSION, judge._library.FREE._name)')
    same 'the package, and the library that it finds' "$version $place/lib/libjudge.so.${version%%.*}" "$found"
    judge_make uninstall-python DESTDIR="$stage" PREFIX="$prefix"
    judge_make uninstall-python DESTDIR="$stage" PREFIX="$prefix"
    same 'after make uninstall-python' '' "$(find "$place" -path '*python*')"
    same 'PYTHONDIR of /usr' "$(python3 packaging/pythondir.py /usr)/judge" \
        "$(make -n install-python PREFIX=/usr | sed -n 's/^install -d "\(.*\)"$/\1/p')"
}

# What others have put there stays, and so do the directories that every system has.
uninstalled() {
    local others=$place/share/fish/vendor_completions.d/others.fish
    : > "$others"
    judge_make uninstall DESTDIR="$stage" PREFIX="$prefix"
    same 'after make uninstall' 'share/fish/vendor_completions.d/others.fish 644' "$(umask 022; chmod 644 "$others"; listed "$place")"
    rm "$others"
    judge_make uninstall DESTDIR="$stage" PREFIX="$prefix"
    same 'directories after make uninstall' $'bin\ninclude\nlib\nshare\nshare/doc\nshare/man' \
        "$(cd "$place" && find . -mindepth 1 -printf '%P\n' | LC_ALL=C sort)"
}

[ -f target/staticlib/libjudge.a ] || fail 'there is no target/staticlib/libjudge.a; make makes it'
has make || exit 0
judge_make install DESTDIR="$stage" PREFIX="$prefix"
same 'what is installed' "$(installed_files)" "$(listed "$place")"
shared_library
programs
if has pkg-config; then
    pkg_config_file
fi
same 'desk --version' "desk $version" "$("$place/bin/desk" --version)"
"$place/bin/desk" check -q examples/v.vocabulary || fail 'desk does not accept examples/v.vocabulary'
manual_pages
completions
if has vim; then
    vim_files
fi
if has python3; then
    python_package
fi
uninstalled
