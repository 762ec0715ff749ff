#!/usr/bin/env bash
# Builds the static library for C, target/libbilzhaan.a, from the proved crates: the record test, the opening, the call,
# a slot's next period, and dates.
# include/bilzhaan.h is its header.
set -euo pipefail
cd "$(dirname "$0")/.."

for tool in rt ar; do
    command -v "$tool" >/dev/null || { echo "$tool is not on the PATH" >&2; exit 2; }
done

# Each crate for C is a static library of its own. One for all would do, but the call and the record test would then share one copy of
# test_record, which costs every call 16 to 29 instructions.
crates="record_c book_c opening_c periods_c calendar_c"
parts=$(mktemp -d)
trap 'rm -rf "$parts"' EXIT
for crate in $crates; do
    (cd "crates/$crate" && rt lib) >"$parts/log" 2>&1 || { cat "$parts/log"; exit 1; }
    grep '^logic=' "$parts/log" | tail -n 1 | sed "s/^/$crate: /"
    (cd "$parts" && ar x "$OLDPWD/crates/$crate/out/lib$crate.a")
done
mkdir -p target
rm -f target/libbilzhaan.a
ar rcsD target/libbilzhaan.a "$parts"/*.o
echo "target/libbilzhaan.a"
