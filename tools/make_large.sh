#!/usr/bin/env bash
# make_large.sh OBJECT COUNT [COMPILER] compiles a large C++ program from four parts in parallel.
# Each part has COUNT instantiations. The compiler is g++ if none is given. With g++, the program has
# 69 MB for a COUNT of 60, and 162 MB for 150.
set -euo pipefail
object=$1 count=$2 compiler=${3:-g++}
tools=$(dirname "$0")
folder=$(mktemp -d "$object.parts.XXXXXX")
trap 'rm -rf "$folder"' EXIT
flags=(-O2 -g -gdwarf-5)
parts=(one two three four)
{
    for part in "${parts[@]}"; do echo "namespace $part { int run(int seed); }"; done
    echo 'int main(int argc, char **) { return 0'
    for part in "${parts[@]}"; do echo "    + $part::run(argc)"; done
    echo ';}'
} > "$folder/main.cpp"
compiling=()
for part in "${parts[@]}"; do
    "$tools/instantiate.sh" "$count" "$part" > "$folder/$part.cpp"
    "$compiler" "${flags[@]}" -c -o "$folder/$part.o" "$folder/$part.cpp" &
    compiling+=($!)
done
for part in "${compiling[@]}"; do wait "$part"; done
"$compiler" "${flags[@]}" -o "$object" "$folder/main.cpp" "$folder"/*.o
