#!/usr/bin/env bash
# Proves the program and what it stands on, then runs it on document 01's nine records and prints its nine lines.
# What the prover says goes to target/worked-run.log, and to the screen if it fails. The program stays in target/bin/.
set -euo pipefail
cd "$(dirname "$0")/.."

command -v rt >/dev/null || { echo "rt is not on the PATH: see README.md" >&2; exit 2; }
mkdir -p target/bin
log=target/worked-run.log
echo "proving offer_book and what it stands on, some minutes the first time on two cores" >&2
status=0
(cd crates/offer_book && rt run </dev/null) >"$log" 2>&1 || status=$?
if [ "$status" -ne 0 ]; then
    cat "$log" >&2
    echo "offer_book is not proved" >&2
    exit "$status"
fi
cp crates/offer_book/out/offer_book target/bin/offer_book
target/bin/offer_book <samples/worked-run.records
