#!/usr/bin/env bash
# Installs into folders under target/, uses what is there, and uninstalls: once with DESTDIR under the
# usual prefix, once under a prefix of its own.
set -euo pipefail
cd "$(dirname "$0")/../.."
unset MAKEFLAGS MFLAGS MAKELEVEL DESTDIR PKG_CONFIG_PATH # of the `make` that runs this, or the user's
umask 077 # others can read what is installed all the same
folder=$PWD/target/install
version=$(sed -n 's/^#define WINDOWFLOOR_VERSION "\(.*\)"$/\1/p' include/windowfloor.h)

fail() {
    echo "install: $*" >&2
    exit 1
}

expect() {
    [ "$2" = "$3" ] || fail "$1: expected '$2', found '$3'"
}

check_files() {
    expect "modes and names in $1" "$(printf '%s\n' '644 include/windowfloor.h' \
        '644 lib/libwindowfloor.a' '644 lib/pkgconfig/windowfloor.pc' '755 bin' '755 bin/windowfloor' \
        '755 include' '755 lib' '755 lib/pkgconfig')" "$(find "$1" -mindepth 1 -printf '%m %P\n' | sort)"
    cmp include/windowfloor.h "$1/include/windowfloor.h"
    cmp target/libwindowfloor.a "$1/lib/libwindowfloor.a"
    cmp target/bin/windowfloor "$1/bin/windowfloor"
}

# A line of the file for pkg-config by its name, with the variables' values put in.
pc_line() {
    local value
    value=$(sed -n "s/^$2[=:] *//p" "$1")
    while [[ $value =~ \$\{([a-z]+)\} ]]; do
        value=${value//"${BASH_REMATCH[0]}"/$(pc_line "$1" "${BASH_REMATCH[1]}")}
    done
    echo "$value"
}

check_pc() { # FILE PREFIX
    expect prefix "$2" "$(pc_line "$1" prefix)"
    expect Version "$version" "$(pc_line "$1" Version)"
    expect Cflags "-I$2/include" "$(pc_line "$1" Cflags)"
    expect Libs "-L$2/lib -lwindowfloor" "$(pc_line "$1" Libs)"
}

# Compiles the example with these flags alone, and runs it.
check_flags() {
    local planner=$folder/planner
    rm -f "$planner"
    "${CC:-gcc}" -std=c99 examples/planner.c examples/reading.c "$@" -o "$planner"
    "$planner" 10 6 6 6 | grep -x 'best floor 3: threshold, p = 5' >/dev/null || fail "planner with $*"
}

# The paths in the file hold where DESTDIR is the root; here it goes before them.
check_with_sed() { # DESTDIR FILE
    check_flags $(echo "$(pc_line "$2" Cflags) $(pc_line "$2" Libs)" | sed "s,-\([IL]\),-\1$1,g")
}

check_with_pkg_config() { # DESTDIR FILE
    export PKG_CONFIG_SYSROOT_DIR=$1 PKG_CONFIG_LIBDIR=${2%/*}
    export PKG_CONFIG_ALLOW_SYSTEM_CFLAGS=1 PKG_CONFIG_ALLOW_SYSTEM_LIBS=1
    expect 'pkg-config --modversion' "$version" "$(pkg-config --modversion windowfloor)"
    check_flags $(pkg-config --cflags --libs windowfloor)
}

check_installed() { # DESTDIR PREFIX
    local file=$1$2/lib/pkgconfig/windowfloor.pc
    check_files "$1$2"
    check_pc "$file" "$2"
    check_with_sed "$1" "$file"
    if command -v pkg-config >/dev/null; then
        check_with_pkg_config "$1" "$file"
    else
        echo 'install: no pkg-config here; its file is read with sed alone'
    fi
    "$1$2/bin/windowfloor" <examples/handover.job | cmp - examples/handover.txt
}

# What others have put there stays.
check_uninstall() { # FOLDER, arguments of make
    touch "$1/include/other.h"
    make --silent uninstall "${@:2}"
    expect "files left in $1" include/other.h "$(find "$1" -type f -printf '%P\n')"
}

rm -rf "$folder"
mkdir -p "$folder"
make --silent install DESTDIR="$folder/staged"
check_installed "$folder/staged" /usr/local
check_uninstall "$folder/staged/usr/local" DESTDIR="$folder/staged"

make --silent install PREFIX="$folder/own"
make --silent install PREFIX="$folder/own" # over the first
check_installed '' "$folder/own"
check_uninstall "$folder/own" PREFIX="$folder/own"

if make --silent install PREFIX=target/install/relative 2>/dev/null; then
    fail 'a relative PREFIX is not refused'
fi
expect 'folders' 'own planner staged' "$(echo $(ls "$folder"))"
echo 'install: installed, used and uninstalled, with DESTDIR and with PREFIX'
