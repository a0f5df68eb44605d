#!/bin/sh
# Installs into temporary folders, builds examples/resolvers.c with the flags that pkg-config gives and runs it, then uninstalls.
# Ends in 'N passed, M failed'.
set -u
cd "$(dirname "$0")/.." || exit 2
work=$(mktemp -d) || exit 2
trap 'rm -rf "$work"' EXIT
passed=0
failed=0

# step NAME COMMAND..: one check that passes when the command does.
step() {
    name=$1
    shift
    if "$@"; then
        passed=$((passed + 1))
    else
        echo "install: $name: FAILED"
        failed=$((failed + 1))
    fi
}

# flags FILE.pc SYSROOT: the compiler's flags. Without pkg-config the shell reads the file, whose variables are assignments to it too.
flags() {
    if command -v pkg-config >/dev/null; then
        PKG_CONFIG_PATH=$(dirname "$1") PKG_CONFIG_SYSROOT_DIR=$2 pkg-config --cflags --libs dnr
    else
        (
            eval "$(grep -E '^[a-z]+=' "$1")"
            eval "echo $(sed -n -e 's/^Cflags: //p' -e 's/^Libs: //p' "$1" | tr '\n' ' ')"
        ) | sed "s|-\([IL]\)|-\1$2|g"
    fi
}

version() {
    grep -qxF "Version: $(cat VERSION)" "$1"
}

# The flags are words, to be split.
runs() {
    words=$(flags "$1" "$2") && ${CC:-cc} -std=c11 examples/resolvers.c $words -o "$work/resolvers" &&
        "$work/resolvers" >"$work/out" && diff examples/k01-dhcp6.out "$work/out"
}

helps() {
    "$1" --help >"$work/help" && grep -qF "usage: dnr-capture" "$work/help"
}

files() {
    find "$1" ! -type d | sed "s|^$1/||" | sort
}

# installed NAME PREFIX DESTDIR: everything that make install promises of one place.
installed() {
    root=$3$2
    step "$1: make install" make --no-print-directory -s install PREFIX="$2" DESTDIR="$3"
    printf '%s\n' bin/dnr bin/dnr-capture include/dnr.h lib/libdnr.a lib/pkgconfig/dnr.pc >"$work/expected"
    files "$root" >"$work/found"
    step "$1: the files" diff "$work/expected" "$work/found"
    step "$1: the prefix" grep -qxF "prefix=$2" "$root/lib/pkgconfig/dnr.pc"
    step "$1: the version" version "$root/lib/pkgconfig/dnr.pc"
    step "$1: a program built with its flags" runs "$root/lib/pkgconfig/dnr.pc" "$3"
    step "$1: dnr-capture" helps "$root/bin/dnr-capture"
    step "$1: make uninstall" make --no-print-directory -s uninstall PREFIX="$2" DESTDIR="$3"
    step "$1: nothing left" test -z "$(files "$root")"
}

installed "a prefix" "$work/own" ""
installed "a staging folder" /usr/local "$work/stage"
echo "$passed passed, $failed failed"
[ "$failed" -eq 0 ]
