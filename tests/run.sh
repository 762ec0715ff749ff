#!/usr/bin/env bash
# Builds into target/ctest/ and runs the tests that call the library from C and C++: headers and archive, machine code, an
# installed copy, by hand, dates, vectors, random lists. Arguments: the static library, seconds of random lists (20), seed (1).
# Last line: 'N passed, M failed'.
set -euo pipefail

[ $# -ge 1 ] || { echo "usage: tests/run.sh LIBRARY.a [SECONDS] [SEED]" >&2; exit 2; }
[ -f "$1" ] || { echo "no library at $1" >&2; exit 2; }
library=$(realpath "$1")
seconds=${2:-20}
seed=${3:-1}
cd "$(dirname "$0")/.."

for tool in gcc g++ nm objdump awk python3; do
    command -v "$tool" >/dev/null || { echo "$tool is not on the PATH" >&2; exit 2; }
done

out=target/ctest
mkdir -p "$out"
warnings="-Wall -Wextra -Werror -pedantic"
c11="gcc -std=c11 $warnings -O2 -Iinclude"
passed=0
failed=0

# A check of this script's own: a name, and a command that succeeds.
check() {
    local name=$1
    shift
    if "$@"; then
        passed=$((passed + 1))
    else
        echo "not so: $name"
        failed=$((failed + 1))
    fi
}

# What a test program printed: its counts are those of its last line.
count() { # NAME STATUS OUTPUT
    echo "-- $1"
    cat "$3"
    local counts
    counts=$(awk 'END { if ($0 ~ /^[0-9]+ passed, [0-9]+ failed$/) print $1, $3 }' "$3")
    if [ -z "$counts" ] || { [ "$2" -ne 0 ] && [ "${counts#* }" -eq 0 ]; }; then
        echo "$1 ended with status $2 and no result"
        failed=$((failed + 1))
        return
    fi
    passed=$((passed + ${counts% *}))
    failed=$((failed + ${counts#* }))
}

run() {
    local status=0
    "$@" >"$out/last.txt" || status=$?
    count "$(basename "$1")" "$status" "$out/last.txt"
}

# Random lists run beside the tests that follow, and are counted last.
tests/differential_build.sh "$library" "$out/differential_test"
"$out/differential_test" "$seconds" "$seed" >"$out/random.txt" &
random=$!
trap 'kill "$random" 2>/dev/null || :' EXIT

# What the header says of every function, as far as an archive shows it. Lines of nm: address (if defined), kind, name.
symbols() { nm "$library" | awk "NF >= 2 { kind = \$(NF - 1); name = \$NF; if ($1) print name }"; }
functions() {
    local found
    found=$(symbols 'kind == "T" && name ~ /^bilzhaan_(call|open|record_test|next_period|period_of|date_of|version|book_version)$/') || return 1
    [ "$(echo "$found" | wc -l)" -eq 8 ]
}
calls_nothing() {
    local found
    found=$(symbols 'kind == "U" && name !~ /^(mem(cpy|move|set|cmp)|bilzhaan_.*)$/') || return 1
    [ -z "$found" ]
}
no_globals() {
    local found
    found=$(symbols 'kind ~ /^[BbDdCcGgSs]$/') || return 1
    [ -z "$found" ]
}

# Succeeds where the compiler refuses the header and says so in the words of $1.
refused_with() {
    local words=$1
    shift
    if "$@" 2>"$out/refused.txt"; then return 1; fi
    grep -qF "$words" "$out/refused.txt"
}

# Each number's text is the page's, "What it means", but for four signs that aren't ASCII.
texts_of_the_page() {
    awk -F' [|] ' '/^## / { on = $0 == "## The numbers" } on && /^[|] [0-9]+ [|]/ { print substr($1, 3) "\t" $3 }' \
        docs/REFUSALS.md | sed 's/≤/<=/g; s/≥/>=/g; s/·/*/g; s/±/+\/-/g' >"$out/texts_of_the_page.txt"
    "$out/record_header_test" --texts | sed -n '2,22p' >"$out/texts.txt"
    [ "$(wc -l <"$out/texts.txt")" -eq 21 ] && diff "$out/texts.txt" "$out/texts_of_the_page.txt"
}

echo '#include "bilzhaan_record.h"' >"$out/include.c"
strict="$warnings -Wconversion -Wsign-conversion -Wshadow -Iinclude -fsyntax-only"
check "the headers in C99" gcc -std=c99 $strict "$out/include.c"
check "the headers in C11" gcc -std=c11 $strict "$out/include.c"
check "the headers in C++11" g++ -std=c++11 $strict -x c++ "$out/include.c"
if command -v clang >/dev/null; then
    check "the headers in clang's C99" clang -std=c99 $strict "$out/include.c"
    check "the headers in clang's C++11" clang -std=c++11 $strict -x c++ "$out/include.c"
fi
check "the header refuses a 32-bit target" refused_with "is for x86-64" \
    gcc -m32 -ffreestanding -std=c99 -Iinclude -fsyntax-only "$out/include.c"
check "the header refuses pointers of 32 bits in C99" refused_with bilzhaan_layout_of_x86_64 \
    gcc -mx32 -ffreestanding -std=c99 -Iinclude -fsyntax-only "$out/include.c"
check "the archive has the functions of the header" functions
check "the library calls no allocator, nor anything but memory copies" calls_nothing
check "the library has no writable globals" no_globals
run tests/machine_code_test.py "$library"

g++ -std=c++11 $warnings -O2 -Iinclude tests/c/header_test.cpp "$library" -o "$out/header_cpp_test"
check "calls from C++" "$out/header_cpp_test"

gcc -std=c99 $warnings -O2 -Iinclude tests/c/header_test.c "$library" -o "$out/header_test"
gcc -std=c99 $warnings -O2 -Iinclude tests/c/record_header_test.c "$library" -o "$out/record_header_test"
run "$out/header_test"
run tests/header_mutants.sh "$library"
run "$out/record_header_test" samples/worked-run.records
check "the numbers' texts are those of docs/REFUSALS.md" texts_of_the_page
run tests/installed_test.sh "$library"

$c11 -pthread tests/c/library_*.c tests/c/check.c tests/c/lent_memory.c "$library" -o "$out/library_test"
$c11 tests/c/vectors_test.c tests/c/list_machine.c bench/plain_book.c "$library" -o "$out/vectors_test"
$c11 tests/c/dates_test.c tests/c/counted_calendar.c bench/plain_calendar.c "$library" -o "$out/dates_test"
$c11 tests/c/script*.c tests/c/listed_words.c tests/c/list_machine.c tests/c/counted_calendar.c bench/plain_*.c "$library" \
    -o "$out/scripts_test"

run "$out/library_test"
python3 tests/datetime_days.py >"$out/days.txt"
run "$out/dates_test" "$out/days.txt"
run "$out/vectors_test" tests/vectors
run "$out/scripts_test" --every-number tests/vectors/*.txt
check "the scripts are those that make.py makes" python3 tests/vectors/make.py --check "$out/scripts_test"
status=0
wait "$random" || status=$?
trap - EXIT
count differential_test "$status" "$out/random.txt"

echo "$passed passed, $failed failed"
[ "$failed" -eq 0 ]
