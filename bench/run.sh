#!/usr/bin/env bash
# Measures the readers and plain C programs that make the same checks, on the same bytes in one run.
# MEASURE and ADDR2LINE_LIVE name programs that are built already. LTO_PROGRAM names a program of
# the distribution that was built with link-time optimization, /usr/bin/python3.11 by default. It is
# measured if its debug file is installed (python3.11-dbg of Debian).
set -euo pipefail
cd "$(dirname "$0")/.."

# Copies the debug file of a program without compression, if the file is installed.
copy_debug_file() {
    local program=$1 copy=$2 id debug
    id=$(readelf -n "$program" 2> /dev/null | sed -n 's/.*Build ID: //p')
    debug=/usr/lib/debug/.build-id/${id:0:2}/${id:2}.debug
    [ ! -f "$debug" ] || objcopy --decompress-debug-sections "$debug" "$copy"
}

tools/build.sh measure measure.log
tools/build.sh addr2line_live program.log
measure=${MEASURE:-crates/measure/out/measure}
program=${ADDR2LINE_LIVE:-crates/addr2line_live/out/addr2line_live}
bench/build.sh
[ -f out/leb.bin ] || out/leb make out/leb.bin 100000000
[ -f out/objects/large ] || tools/make_objects.sh out/objects
[ -f out/objects/huge ] || tools/make_large.sh out/objects/huge 150
[ -f out/objects/clang ] || ! command -v clang++ > /dev/null ||
    tools/make_large.sh out/objects/clang 60 clang++
[ -f out/objects/lto ] || copy_debug_file "${LTO_PROGRAM:-/usr/bin/python3.11}" out/objects/lto
[ -f out/objects/hundred ] || tools/repeat_lines.sh out/objects/large out/objects/hundred

# Prints the processor time that this machine had, and that other machines took from it, in ticks.
processor_time() {
    awk '/^cpu / { print $2 + $3 + $4 + $7 + $8, $9 }' /proc/stat
}

# Prints the time in microseconds that ends the output of a command, as `.., N us`.
time_of() {
    "$@" | sed -n 's/.*, \([0-9]*\) us$/\1/p'
}

# Prints the minimum of nine times of our reader, of plain C and, if there is one, of earlier plain
# C, in alternating runs. To reduce noise, there are 25 runs if our reader takes less than half a
# second, and 75 if it takes less than a tenth.
least_of_all() {
    local object=$1 plain=$2 command=$3 turns=9 first earlier
    earlier=out/earlier/$(basename "$plain")
    first=$(time_of "$measure" "$command" "$object")
    if [ "$first" -lt 500000 ]; then turns=25; fi
    if [ "$first" -lt 100000 ]; then turns=75; fi
    for ((turn = 0; turn < turns; turn++)); do
        echo "$(time_of "$measure" "$command" "$object") $(time_of "$plain" "$object")" \
            "$([ ! -f "$earlier" ] || time_of "$earlier" "$object")"
    done | awk 'NR == 1 || $1 < a { a = $1 } NR == 1 || $2 < b { b = $2 }
        NR == 1 || $3 < c { c = $3 } END { print a, b, c }'
}

# Prints the times and the ratios of the plain C programs.
compare() {
    local what=$1
    read -r ours plain earlier <<< "$(least_of_all "$2" "$3" "$4")"
    awk -v w="$what" -v a="$ours" -v b="$plain" -v c="$earlier" 'BEGIN {
        printf "%-40s %6.1f ms, plain C %6.1f ms", w, a / 1000, b / 1000
        if (c != "") printf ", earlier plain C %6.1f ms", c / 1000
        printf ", ratio %.2f", b / (a > 0 ? a : 1)
        print c == "" ? "" : sprintf(" and %.2f", c / (a > 0 ? a : 1))
    }'
}

# Prints what is left of a whole load without its line programs and its scopes. Each argument has
# the times of our reader, of plain C and of earlier plain C, as `compare` leaves them.
compare_index() {
    awk -v w="index of $1" -v lines="$2" -v scopes="$3" -v load="$4" 'BEGIN {
        split(lines, l); split(scopes, s); split(load, all)
        for (i = 1; i <= 3; i++) left[i] = all[i] - l[i] - s[i]
        printf "%-40s %6.1f ms, plain C %6.1f ms", w, left[1] / 1000, left[2] / 1000
        printf ", earlier plain C %6.1f ms, ratio %.2f and %.2f\n", left[3] / 1000,
            left[2] / (left[1] > 0 ? left[1] : 1), left[3] / (left[1] > 0 ? left[1] : 1)
    }'
}

# Prints the peak memory of a command in MiB, and the number of its page faults.
peak() {
    PYTHONPATH=bench python3 -c 'import sys
from usage import usage
used = usage(sys.argv[1:])
print(int(used.mebibytes), used.faults)' "$@"
}

# Prints the duration in milliseconds of a command that prints no time.
duration() {
    local start
    start=$(date +%s%N)
    "$@" > /dev/null
    echo $((($(date +%s%N) - start) / 1000000))
}

# Prints the peak memory and the page faults of our reader and of both plain C programs.
compare_peaks() {
    local what=$1 object=$2 plain=$3 command=$4
    local memory faults plain_memory plain_faults earlier_memory earlier_faults
    read -r memory faults <<< "$(peak "$measure" "$command" "$object")"
    read -r plain_memory plain_faults <<< "$(peak "out/$plain" "$object")"
    read -r earlier_memory earlier_faults <<< "$(peak "out/earlier/$plain" "$object")"
    echo "memory for $what: $memory MiB, plain C $plain_memory MiB," \
        "earlier plain C $earlier_memory MiB"
    echo "page faults for $what: $faults, plain C $plain_faults, earlier plain C $earlier_faults"
}

# Prints the number before a word in the output of a command.
count_of() {
    sed -n "s/.*\\b\\([0-9][0-9]*\\) $1\\b.*/\\1/p" <<< "$2"
}

# Measures the line programs, the scopes, the index and the whole load of a program.
measure_program() {
    local name=$1 object=$2 output lines scopes
    output=$(out/entries "$object")
    compare "line programs of $name" "$object" out/lines lines
    lines="$ours $plain $earlier"
    compare "scopes of $name" "$object" out/entries scopes
    scopes="$ours $plain $earlier"
    for what in entries scopes; do
        awk -v n="$(count_of $what "$output")" -v w="$what a second: $name" -v a="$ours" \
            -v b="$plain" -v c="$earlier" 'BEGIN {
            printf "%s: %d, plain C %d", w, n * 1000000 / a, n * 1000000 / b
            printf ", earlier plain C %d\n", n * 1000000 / c
        }'
    done
    "$measure" scopes "$object"
    echo "$output"
    compare_peaks "scopes of $name" "$object" entries scopes
    compare "whole load of $name" "$object" out/load module
    compare_index "$name" "$lines" "$scopes" "$ours $plain $earlier"
    "$measure" module "$object"
    out/load "$object"
    compare_peaks "whole load of $name" "$object" load module
    bench/huge_pages.py "$program" "$object" "$name"
    bench/same_data.py --measure "$measure" "$object"
}

read -r had taken <<< "$(processor_time)"
compare 'LEB128, 100 MB' out/leb.bin out/leb leb
compare 'line programs, 100 MB' out/objects/hundred out/lines lines
measure_program 'a C++ program' out/objects/large
measure_program 'a C++ program of 162 MB' out/objects/huge
if [ -f out/objects/clang ]; then
    measure_program 'a C++ program of clang' out/objects/clang
fi
if [ -f out/objects/lto ]; then
    measure_program 'a distribution program with link-time optimization' out/objects/lto
fi
for peer in 'llvm-dwarfdump --debug-info' 'readelf --debug-dump=info'; do
    if command -v "${peer%% *}" > /dev/null; then
        read -r memory _ <<< "$(peak $peer out/objects/large)"
        echo "$peer of a C++ program: $(duration $peer out/objects/large) ms, $memory MiB"
    fi
done
read -r had_now taken_now <<< "$(processor_time)"
awk -v had=$((had_now - had)) -v taken=$((taken_now - taken)) 'BEGIN {
    if (had > 0) printf "other machines took %.1f %% of the processor time\n",
        100 * taken / (had + taken)
}'
