#!/usr/bin/env bash
# Builds the test of random lists. Arguments: the static library, the program to write.
set -euo pipefail

[ $# -eq 2 ] || { echo "usage: tests/differential_build.sh LIBRARY.a PROGRAM" >&2; exit 2; }
root=$(dirname "$0")/..
sources=(differential_test random_lists struck_out damaged_part compared_call counted_calls watched_words
    lent_memory random_calls list_machine listed_words)

mkdir -p "$(dirname "$2")"
sources=("${sources[@]/#/"$root/tests/c/"}")
gcc -std=c11 -Wall -Wextra -Werror -pedantic -O2 -I"$root/include" "${sources[@]/%/.c}" "$root/bench/plain_book.c" "$1" -o "$2"
