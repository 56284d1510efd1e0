#!/usr/bin/env bash
# make_objects.sh FOLDER compiles the objects for comparisons and measurements into FOLDER:
# - a C program, a shared library, and a large C++ program with many instantiations;
# - a C++ program, the same with type units, and the same with link-time optimization;
# - with dwz, a C++ program of two units that share partial units;
# - with clang, a C and a C++ program, and the same in the 64-bit format of DWARF;
# - with clang and lld, a C++ program whose dead code has the tombstone address 2^64-1, and one with
#   link-time optimization.
set -euo pipefail
folder=$1
mkdir -p "$folder"

cat > "$folder/small.c" <<'C'
#include <stdio.h>
#include <stdlib.h>
static inline int square(int x) { return x * x; }
static inline int sum_of_squares(int n) {
    int sum = 0;
    for (int i = 0; i < n; i++)
        sum += square(i) ^ (sum >> 3);
    return sum;
}
int compare(const void *a, const void *b) { return *(const int *)a - *(const int *)b; }
int main(int argc, char **argv) {
    int numbers[64];
    for (int i = 0; i < 64; i++) numbers[i] = sum_of_squares(i + argc);
    qsort(numbers, 64, sizeof *numbers, compare);
    for (int i = 0; i < 64; i++) printf("%d %s\n", numbers[i], argv[0]);
    return 0;
}
C

flags=(-O2 -g -gdwarf-5)
tools=$(dirname "$0")
"$tools/instantiate.sh" 2 library > "$folder/library.cpp"
"$tools/instantiate.sh" 3 program > "$folder/program.cpp"
echo 'int main(int argc, char **) { return program::run(argc); }' >> "$folder/program.cpp"
gcc "${flags[@]}" -o "$folder/small" "$folder/small.c"
g++ "${flags[@]}" -shared -fPIC -o "$folder/library.so" "$folder/library.cpp"
g++ "${flags[@]}" -o "$folder/program" "$folder/program.cpp"
g++ "${flags[@]}" -fdebug-types-section -o "$folder/program.types" "$folder/program.cpp"
if command -v dwz > /dev/null; then
    g++ "${flags[@]}" -o "$folder/program.two" "$folder/program.cpp" "$folder/library.cpp"
    dwz -o "$folder/program.dwz" "$folder/program.two"
fi
g++ "${flags[@]}" -flto=1 -o "$folder/program.lto" "$folder/program.cpp" "$folder/library.cpp"
if command -v clang > /dev/null; then
    clang "${flags[@]}" -o "$folder/small.clang" "$folder/small.c"
    clang "${flags[@]}" -gdwarf64 -o "$folder/small.dwarf64" "$folder/small.c"
fi
if command -v clang++ > /dev/null; then
    clang++ "${flags[@]}" -o "$folder/program.clang" "$folder/program.cpp"
    clang++ "${flags[@]}" -gdwarf64 -o "$folder/program.dwarf64" "$folder/program.cpp"
    if command -v ld.lld > /dev/null; then
        clang++ "${flags[@]}" -ffunction-sections -fuse-ld=lld -Wl,--gc-sections \
            '-Wl,-z,dead-reloc-in-nonalloc=.debug_*=0xffffffffffffffff' \
            -o "$folder/program.dead" "$folder/program.cpp" "$folder/library.cpp"
        clang++ "${flags[@]}" -flto -fuse-ld=lld \
            -o "$folder/program.clang.lto" "$folder/program.cpp" "$folder/library.cpp"
    fi
fi

"$tools/make_large.sh" "$folder/large" 60
