#!/usr/bin/env bash
# Installs the library into target/ctest/prefix, builds examples/three_facilities.c by the flags of the installed pkg-config file
# and compares what it prints; then installs under DESTDIR. Argument: the static library. Last line: 'N passed, M failed'.
set -euo pipefail

[ $# -ge 1 ] || { echo "usage: tests/installed_test.sh LIBRARY.a" >&2; exit 2; }
library=$(realpath "$1")
cd "$(dirname "$0")/.."

out=$PWD/target/ctest
prefix=$out/prefix
file=$prefix/lib/pkgconfig/bilzhaan.pc
passed=0
failed=0
check() {
    local name=$1
    shift
    if "$@"; then
        passed=$((passed + 1))
    else
        echo "not so: $name"
        failed=$((failed + 1))
    fi
}

installs() {
    if command -v make >/dev/null; then
        make -s install LIBRARY="$library" "$@" >/dev/null
    else
        env LIBRARY="$library" "$@" tools/install.sh >/dev/null
    fi
}

# Succeeds where nothing is installed, of which install.sh says $1.
refuses() {
    local words=$1
    shift
    if installs DESTDIR="$out/refused" "$@" 2>"$out/refused.txt"; then return 1; fi
    grep -qF "$words" "$out/refused.txt" && [ ! -e "$out/refused" ]
}

# The flags as pkg-config gives them, and as the file's variables do where there is no pkg-config.
flags_of_pkg_config() {
    local words
    read -ra words <<<"$(PKG_CONFIG_PATH=$prefix/lib/pkgconfig pkg-config --cflags --libs bilzhaan)"
    echo "${words[*]}"
}
flags_of_file() {
    (
        eval "$(grep -E '^[a-z]+=' "$file")"
        eval "echo $(sed -n 's/^Cflags: //p' "$file") $(sed -n 's/^Libs: //p' "$file")"
    )
}
same() { [ "$1" = "$2" ]; }
example() {
    gcc -std=c99 -Wall -Wextra -Werror -pedantic -O2 examples/three_facilities.c $flags -o "$out/three_facilities" || return 1
    "$out/three_facilities" | diff examples/three_facilities.txt -
}
staged() {
    local name
    for name in include/bilzhaan.h include/bilzhaan_record.h lib/libbilzhaan.a; do
        cmp "$out/stage/usr/$name" "$prefix/$name" || return 1
    done
    grep -qx 'prefix=/usr' "$out/stage/usr/lib/pkgconfig/bilzhaan.pc"
}

rm -rf "$prefix" "$out/stage" "$out/refused" "$out/three_facilities"
check "make install" installs PREFIX="$prefix"
flags=$(flags_of_file)
if command -v pkg-config >/dev/null; then
    check "pkg-config gives the flags of its file" same "$(flags_of_pkg_config)" "$flags"
    flags=$(flags_of_pkg_config)
fi
check "the example from the installed copy" example
check "make install under DESTDIR" installs PREFIX=/usr DESTDIR="$out/stage"
check "the same files under DESTDIR, for the prefix without it" staged
check "an empty PREFIX isn't taken for another" refuses "not an absolute path: ''" PREFIX=
check "a PREFIX that isn't absolute is refused" refuses "not an absolute path: 'usr'" PREFIX=usr
check "a PREFIX with a blank is refused" refuses "has a blank" PREFIX="/usr/a b"

echo "$passed passed, $failed failed"
[ "$failed" -eq 0 ]
