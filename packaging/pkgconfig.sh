#!/bin/sh
# Prints judge.pc, which tells pkg-config where the library is. Directories below PREFIX are said by it, so that an
# installation that was moved is found with another prefix (pkg-config --define-prefix).
# usage: pkgconfig.sh VERSION PREFIX LIBDIR INCLUDEDIR
set -eu
version=$1
prefix=$2

# shellcheck disable=SC2016 # pkg-config puts the prefix in
below_prefix() {
    case $1 in
        "$prefix"/*) printf '${prefix}%s' "${1#"$prefix"}" ;;
        *) printf '%s' "$1" ;;
    esac
}

cat <<END
prefix=$prefix
libdir=$(below_prefix "$3")
includedir=$(below_prefix "$4")

Name: judge
Description: The duty vocabulary judge: terms of the description logic ALC compared, classified and proved
Version: $version
Cflags: -I"\${includedir}"
Libs: -L"\${libdir}" -ljudge
END
