#!/usr/bin/env bash
# Adds 1 to each constant of include/bilzhaan.h in turn and asks that tests/c/header_test.c notices: that it fails, or doesn't
# compile. Argument: the static library. Each constant that nothing notices is named. Last line: 'N passed, M failed'.
set -euo pipefail

[ $# -ge 1 ] || { echo "usage: tests/header_mutants.sh LIBRARY.a" >&2; exit 2; }
[ -f "$1" ] || { echo "no library at $1" >&2; exit 2; }
library=$(realpath "$1")
cd "$(dirname "$0")/.."

out=target/ctest/mutants
rm -rf "$out"
mkdir -p "$out"
header=$(<include/bilzhaan.h)

# Succeeds where the header test passes with the header in folder $1.
passes() {
    gcc -std=c99 -O0 -I"$1" tests/c/header_test.c "$library" -o "$1/test" >"$1/log" 2>&1 && timeout 60 "$1/test" >>"$1/log" 2>&1
}

# $1: the constant as the header has it, with its number at the end.
try() {
    local number=${1##*[!0-9]}
    local folder=$out/${1//[!A-Z0-9a-z_]/-}
    mkdir "$folder"
    printf '%s\n' "${header/"$1"/"${1%"$number"}$((number + 1))"}" >"$folder/bilzhaan.h"
    cmp -s include/bilzhaan.h "$folder/bilzhaan.h" && { echo "not changed: $1"; return; }
    if passes "$folder"; then echo "not noticed: $1 made $((number + 1))"; else rm -r "$folder"; fi
}

mkdir "$out/as-it-is"
cp include/bilzhaan.h "$out/as-it-is"
passes "$out/as-it-is" || { cat "$out/as-it-is/log"; echo "the header test fails with the header as it is"; echo "0 passed, 1 failed"; exit 1; }
if grep -E '^ *BILZHAAN_[A-Z0-9_]+ *(,|$)' include/bilzhaan.h; then
    echo "a constant without its number"
    echo "0 passed, 1 failed"
    exit 1
fi

# Enumerators and macros, and the three numbers of BILZHAAN_BOOK_WORDS.
grep -oE 'BILZHAAN_[A-Z0-9_]+ = [0-9]+|#define BILZHAAN_[A-Z0-9_]+ [0-9]+|\(size_t\)[0-9]+' include/bilzhaan.h >"$out/constants.txt"
export -f try passes
export out header library
xargs -a "$out/constants.txt" -d '\n' -n 1 -P "$(nproc)" bash -c 'try "$1"' try >"$out/survivors.txt"
cat "$out/survivors.txt"
all=$(wc -l <"$out/constants.txt")
survivors=$(wc -l <"$out/survivors.txt")
echo "$all constants plus 1, $survivors not noticed"
echo "$((all - survivors)) passed, $survivors failed"
[ "$survivors" -eq 0 ]
