#!/usr/bin/env bash
# A slot's next period by an `if`, proved to keep the promise of crates/periods and built for C as that is: no proof tells the two apart, and
# the reader of machine code must. Last line: 'N passed, M failed'.
set -euo pipefail
cd "$(dirname "$0")/.."

repository=$(mktemp -d)
trap 'rm -rf "$repository"' EXIT
step=$repository/crates/periods
mkdir -p "$step/src" "$step/proofs/bilzhaan_next_period"
cp tests/step_with_if/lib.rt.txt "$step/src/lib.rt"
cp tests/step_with_if/Answers.antt.txt "$step/proofs/bilzhaan_next_period/Answers.antt"
cp -r crates/offer_rules crates/book_rules crates/layout "$repository/crates"
{
    grep -E '^(offer_rules|book_rules|layout):' crates.txt
    echo "periods staticlib: offer_rules layout"
} >"$repository/crates.txt"

(cd "$step" && rt lib >"$repository/log" 2>&1) || { cat "$repository/log"; exit 1; }
python3 tests/machine_code_test.py --with-if "$step/out/libperiods.a"
