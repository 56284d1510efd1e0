#!/usr/bin/env bash
# build.sh [FOLDER [FLAG..]] compiles the plain C programs into FOLDER, and bench/earlier
# into FOLDER/earlier. The default is `out -O2`.
set -euo pipefail
cd "$(dirname "$0")/.."
folder=${1:-out}
flags=("${@:2}")
[ ${#flags[@]} -gt 0 ] || flags=(-O2)

# Compiles the programs of a folder of sources.
compile() {
    local sources=$1 to=$2
    mkdir -p "$to"
    for program in lines entries; do
        gcc "${flags[@]}" -o "$to/$program" "$sources/$program.c" "$sources/elf.c"
    done
    for part in elf lines entries; do
        gcc "${flags[@]}" -DWHOLE -c -o "$to/$part.o" "$sources/$part.c"
    done
    g++ "${flags[@]}" -o "$to/load" "$sources/load.cpp" "$to"/{elf,lines,entries}.o
}

compile bench "$folder"
g++ "${flags[@]}" -o "$folder/replies" bench/replies.cpp "$folder"/{elf,lines,entries}.o
compile bench/earlier "$folder/earlier"
gcc "${flags[@]}" -o "$folder/leb" bench/leb.c
