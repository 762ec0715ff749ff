#!/usr/bin/env bash
# Random lists for every F from 1 to 64 with S 1 and 5 in turn, until so many calls were compared: number, 24 words, sum and every
# word of the book at every call, striking out, damaged books and records. Some six minutes; .ci/run has some seconds of it, by tests/run.sh.
# Arguments: the static library, calls (10,000,000), seed (1), a list's number for that list alone. Last line: 'N passed, M failed'.
set -euo pipefail

[ $# -ge 1 ] || { echo "usage: tests/long_lists.sh LIBRARY.a [CALLS] [SEED] [LIST]" >&2; exit 2; }
[ -f "$1" ] || { echo "no library at $1" >&2; exit 2; }
library=$(realpath "$1")
cd "$(dirname "$0")/.."

tests/differential_build.sh "$library" target/ctest/long_lists
exec target/ctest/long_lists --every-size "${2:-10000000}" "${3:-1}" ${4:+"$4"}
