#!/usr/bin/env bash
# Builds into target/bench/ and measures the library against bench/plain_book.c and plain_calendar.c, compiled by gcc -O2, gcc -O3 and
# clang -O2, as two Markdown tables: nanoseconds and instructions. Arguments: the static library, processes (31), rounds (40).
# A process's nanoseconds are the least of its rounds, and a figure is the median of the processes: where a process's stack and books
# lie changes some calls by a tenth. Every figure includes the loop around the call, and a ratio is that of the two figures shown.
set -euo pipefail

[ $# -ge 1 ] || { echo "usage: bench/run.sh LIBRARY.a [PROCESSES] [ROUNDS]" >&2; exit 2; }
[ -f "$1" ] || { echo "no library at $1" >&2; exit 2; }
library=$(realpath "$1")
processes=${2:-31}
rounds=${3:-40}
cd "$(dirname "$0")/.."

for tool in gcc awk; do
    command -v "$tool" >/dev/null || { echo "$tool is not on the PATH" >&2; exit 2; }
done

out=target/bench
rm -rf "$out"
mkdir -p "$out"

# The plain book and the plain calendar, each plain_FUNCTION under the name NAME_FUNCTION.
plain() { # NAME COMPILER...
    local name=$1 function file named=()
    shift
    for function in call open record_test next_period period_of date_of; do
        named+=("-Dplain_$function=${name}_$function")
    done
    for file in plain_book plain_calendar; do
        "$@" -std=c11 -Wall -Wextra -Werror -pedantic -Iinclude "${named[@]}" -c "bench/$file.c" -o "$out/${name}_$file.o"
    done
}
plain gcc_o2 gcc -O2
plain gcc_o3 gcc -O3
compilers=$(gcc --version | head -n 1)
with_clang=""
if command -v clang >/dev/null; then
    plain clang_o2 clang -O2
    with_clang=-DWITH_CLANG
    compilers="$compilers, $(clang --version | head -n 1)"
else
    echo "clang is not on the PATH: its columns are left out" >&2
    compilers="$compilers; clang was not at hand"
fi
gcc -std=c11 -Wall -Wextra -Werror -pedantic -O2 -Iinclude $with_clang bench/bench.c "$out"/*.o "$library" -o "$out/bench"

for i in $(seq "$processes"); do
    "$out/bench" "$rounds" | awk -v process="$i" '{ print $0 "\t" process }'
done >"$out/times.tsv"

# One dump of callgrind for each run of measured_calls, in the order of the lines that the program prints.
: >"$out/instructions.tsv"
if command -v valgrind >/dev/null; then
    valgrind --tool=callgrind --callgrind-out-file="$out/dump" --zero-before=measured_calls --dump-after=measured_calls \
        "$out/bench" instructions >"$out/runs.tsv" 2>"$out/valgrind.txt" \
        || { echo "valgrind failed, see $out/valgrind.txt" >&2; exit 1; }
    line=0
    while IFS= read -r run; do
        line=$((line + 1))
        printf '%s\t%s\n' "$run" "$(awk '$1 == "totals:" || $1 == "summary:" { print $2; exit }' "$out/dump.$line")"
    done <"$out/runs.tsv" >"$out/instructions.tsv"
else
    echo "valgrind is not on the PATH: no instructions are counted" >&2
fi

echo "Machine: $(awk -F': ' '/^model name/ { print $2; exit }' /proc/cpuinfo); $compilers. $processes processes, $rounds rounds each."
awk -F'\t' '
    function median(key, subject,    i, j, x, v) {
        for (i = 1; i <= processes; i++) {
            x = ns[key, subject, i]
            for (j = i - 1; j >= 1 && v[j] > x; j--) v[j + 1] = v[j]
            v[j + 1] = x
        }
        return (v[int((processes + 1) / 2)] + v[int(processes / 2) + 1]) / 2
    }
    # One row: the figures as they are shown, then the ratios of these.
    function row(key, figures, format,    i, name, shown) {
        split(key, name, FS)
        printf "| %s | %s |", name[1], name[2]
        for (i = 1; i <= subjects; i++) {
            shown[i] = sprintf(format, figures[i])
            printf " %s |", shown[i]
        }
        for (i = 2; i <= subjects; i++) printf " %s |", (shown[i] > 0 ? sprintf("%.2f", shown[1] / shown[i]) : "-")
        print ""
    }
    function head(title,    i) {
        printf "\n%s\n\n| Call | Where | Library |", title
        for (i = 2; i <= subjects; i++) printf " %s |", subject[i]
        for (i = 2; i <= subjects; i++) printf " Library to %s |", subject[i]
        printf "\n|---|---|"
        for (i = 1; i < 2 * subjects; i++) printf "---|"
        print ""
    }
    FILENAME ~ /times/ {
        key = $1 FS $2
        if (!(key in seen)) { seen[key] = 1; order[++rows] = key }
        if (rows == 1 && $6 == 1 && $3 != "loop") subject[++subjects] = $3
        ns[key, $3, $6] = $5
        processes = $6
        next
    }
    { count[$1 FS $2, $3] = $6 / $4; counted = 1 }
    END {
        head("Nanoseconds a call, the loop around included:")
        for (i = 1; i <= rows; i++) {
            for (j = 1; j <= subjects; j++) figures[j] = median(order[i], subject[j])
            row(order[i], figures, "%.1f")
        }
        printf "\nThe loop with a call that does nothing takes %.1f ns, with a record test %.1f ns, with a next period %.1f ns, " \
            "with a date to P %.1f ns, with a P to its date %.1f ns.\n", \
            median("1 clock" FS "hot", "loop"), median("record test, look-up" FS "hot", "loop"), median("next period" FS "hot", "loop"), \
            median("date and period to P" FS "hot", "loop"), median("P to date and period" FS "hot", "loop")
        if (!counted) exit
        head("Instructions a call, by callgrind, the loop taken off:")
        for (i = 1; i <= rows; i++) {
            for (j = 1; j <= subjects; j++) figures[j] = count[order[i], subject[j]] - count[order[i], "loop"]
            row(order[i], figures, "%.0f")
        }
    }' "$out/times.tsv" "$out/instructions.tsv"
