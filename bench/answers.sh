#!/usr/bin/env bash
# answers.sh [MANY [FEW]] measures answers per second on three objects, for this program, plain C
# and the installed peers: in a batch over a pipe, in a batch from a file to a file (per second of
# CPU time) and in ping-pong, with FILE:LINE alone and with functions and inlined callers. The
# addresses are spread over an object in random order. For this program it also measures sixteen
# addresses that are looked up repeatedly. The fast programs run in alternating turns, and the
# fastest turn of each is printed, because other work on the machine only slows a turn down. MANY is
# the number of addresses. Ping-pong asks a quarter of them. A peer that takes more than half a
# second for them runs once, and gets only FEW of them if it takes more than five seconds. It fails
# if plain C answers differently.
set -euo pipefail
cd "$(dirname "$0")/.."
program=${ADDR2LINE_LIVE:-crates/addr2line_live/out/addr2line_live}
many=${1:-200000}
few=${2:-200}
turns=5
questions=() address_files=() commands=()
tools/build.sh addr2line_live program.log
[ -f out/objects/large ] || tools/make_objects.sh out/objects
gcc -O2 -o out/ask bench/ask.c
bench/build.sh

# spread OBJECT COUNT KINDS prints COUNT addresses of the executable sections in random order, or
# repeats the first KINDS of them.
spread() {
    python3 - "$1" "$2" "$3" << 'PY'
import random
import sys
sys.path.insert(0, "tools")
from compare_addr2line import addresses
path, count, kinds = sys.argv[1], int(sys.argv[2]), int(sys.argv[3])
asked = list(addresses(path, count))
random.Random(1).shuffle(asked)
for number in range(count):
    print(f"0x{asked[number % kinds]:x}")
PY
}

# Prints the number of bytes of a program's answer to each address. The program runs with -a, and
# the address lines that start its answers are not counted. Its exit status is ignored.
lengths() {
    local addresses=$1
    shift
    { "$@" -a < "$addresses" || true; } | python3 -c '
import re, sys
lengths = []
for line in sys.stdin.buffer:
    if re.fullmatch(rb"0x[0-9a-f]+:?\n", line):
        lengths.append(0)
    else:
        lengths[-1] += len(line)
print(*lengths, sep="\n")'
}

# Prints one line: the question, the turn with the highest rate, and the median of the rates.
print_best() {
    local what=$1 results count
    mapfile -t results <<< "$(sort -rn "$2")"
    count=${#results[@]}
    printf '  %-44s %s, the median of %d turns is %s\n' "$what" "${results[0]}" "$count" \
        "${results[count / 2]%% *}"
}

# Adds a question for the fast programs.
add() {
    local what=$1 addresses=$2
    shift 2
    lengths "$addresses" "$@" > "out/lengths.${#questions[@]}"
    questions+=("$what")
    address_files+=("$addresses")
    commands+=("$(printf '%s\n' "$@")")
}

# Asks all added questions in turn, several times, and prints their results.
ask_in_turns() {
    local how=$1 turn number words
    rm -f out/turns.*
    for ((turn = 0; turn < turns; turn++)); do
        for number in "${!questions[@]}"; do
            mapfile -t words <<< "${commands[number]}"
            out/ask "$how" "${address_files[number]}" "out/lengths.$number" "${words[@]}" \
                >> "out/turns.$number" || true
        done
    done
    for number in "${!questions[@]}"; do
        print_best "${questions[number]}" "out/turns.$number"
    done
    questions=() address_files=() commands=()
}

# Asks a slow program once and prints its result.
show() {
    local what=$1 how=$2 addresses=$3
    shift 3
    lengths "$addresses" "$@" > out/lengths
    printf '  %-44s %s\n' "$what" "$(out/ask "$how" "$addresses" out/lengths "$@" || true)"
}

# Returns whether a program answers all addresses within a number of seconds.
answers_within() {
    local seconds=$1
    shift
    timeout "$seconds" "$@" < out/spread > /dev/null || [ $? -ne 124 ]
}

# Adds a question for a peer that is fast. Asks a slow one once and prints its result.
ask_peer() {
    local name=$1 how=$2
    shift 2
    if answers_within 0.5 "$@"; then
        add "$name, spread" out/spread "$@"
    elif answers_within 5 "$@"; then
        show "$name, spread" "$how" out/spread "$@"
    else
        show "$name, fewer" "$how" out/few "$@"
    fi
}

# Asks the peers that are installed.
ask_peers() {
    local object=$1 how=$2 options=$3 style='--functions=none --no-inlines'
    [ -z "$options" ] || style='--functions=short --inlines'
    if [ -n "${GIMLI_ADDR2LINE:-}" ]; then
        add 'addr2line of gimli, spread' out/spread "$GIMLI_ADDR2LINE" -e "$object" $options
    fi
    if command -v llvm-symbolizer > /dev/null; then
        ask_peer llvm-symbolizer "$how" \
            llvm-symbolizer --output-style=GNU --no-demangle $style --obj="$object"
    fi
    if command -v eu-addr2line > /dev/null; then
        ask_peer eu-addr2line "$how" eu-addr2line -e "$object" $options
    fi
    ask_peer 'addr2line of binutils' "$how" addr2line -e "$object" $options
}

measure() {
    local object=$1 how=$2 options=$3 count=$many
    [ "$how" != pingpong ] || count=$((many / 4))
    spread "$object" "$count" "$count" > out/spread
    spread "$object" "$count" 16 > out/hot
    head -n "$few" out/spread > out/few
    cmp <("$program" -e "$object" $options < out/spread) \
        <(out/replies -e "$object" $options < out/spread)
    for cache in 1024 0 65536; do
        add "addr2line_live --cache $cache, spread" out/spread \
            "$program" -e "$object" $options --cache $cache
    done
    add 'addr2line_live, sixteen addresses' out/hot "$program" -e "$object" $options
    add 'plain C, spread' out/spread out/replies -e "$object" $options
    ask_peers "$object" "$how" "$options"
    ask_in_turns "$how"
}

for object in out/objects/small out/objects/program out/objects/large; do
    for how in batch file pingpong; do
        for options in '' '-f -i'; do
            echo "$(basename "$object"), $how${options:+, }$options"
            measure "$object" "$how" "$options"
        done
    done
done
