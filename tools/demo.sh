#!/usr/bin/env bash
# demo.sh [--stored | --try]: runs the program on an object that gcc compiles from demo.c. With
# --stored, or if there is no gcc, it uses demo.stored, which gcc compiled from demo.c in /src. With
# --try it uses demo.stored too, and `rt try` compiles and runs the program without proving it.
set -euo pipefail
cd "$(dirname "$0")/.."
program=${ADDR2LINE_LIVE:-crates/addr2line_live/out/addr2line_live}
mode=${1:-}
mkdir -p out
object=out/demo

# Runs the program with these options on standard input.
run() {
    if [ "$mode" != --try ]; then
        "$program" "$@"
        return
    fi
    local top=$PWD
    (cd crates/addr2line_live && rt try --data "$object=$top/tools/demo.stored" \
        --data "README.md=$top/README.md" -- "$@" 2> "$top/out/try.log")
}

# Finds the first address whose innermost frame is main, and the first address with three frames,
# which is in code that was inlined.
find_addresses() {
    local addresses address
    addresses=$(for ((address = 0x1000; address < 0x1400; address++)); do
        printf '%x ' $address
    done)
    read -r plain inlined < <("$program" -a -f -i -p -e "$object" $addresses | awk '
        /^0x/ { frames = 1; address = substr($1, 1, 18) }
        /^0x/ && !plain && $2 == "main" { plain = address }
        /^ / { if (++frames == 3 && !inlined) inlined = address }
        END { print plain, inlined }')
    [ -n "$inlined" ] && return
    echo "$object has no code of main, or nothing inlined into it, from 1000 to 13ff" >&2
    exit 1
}

if [ -z "$mode" ] && command -v gcc > /dev/null; then
    gcc -g -gdwarf-5 -O2 -fPIE -pie -o "$object" tools/demo.c
    find_addresses
else
    cp tools/demo.stored "$object"
    plain=0x1050 inlined=0x1068
fi

at() { printf '%x' $(($1 + $2)); }
commands=(
    "load app 0x550000000000 $object"
    "$(at 0x550000000000 "$plain")"
    "$(at 0x550000000000 "$inlined")"
    "load plugin 0x7f0000000000 $object"
    list
    'move plugin 0x7f0000200000'
    "$(at 0x7f0000200000 "$inlined")"
    'unload plugin'
    "$(at 0x7f0000200000 "$inlined")"
    "load other 0x550000001000 $object"
    'load other 0 README.md'
)

# The line `.` after each command is not a command. Its reply marks the end of the reply before it.
if ! replies=$(printf '%s\n.\n' "${commands[@]}" | run -f -i -p); then
    [ "$mode" != --try ] || tail -5 out/try.log >&2
    exit 1
fi
echo '$ addr2line_live -f -i -p'
for command in "${commands[@]}"; do
    echo "> $command"
    while IFS= read -r reply && [ "$reply" != 'refused command' ]; do
        echo "$reply"
    done
done <<< "$replies"
