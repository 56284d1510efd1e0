#!/usr/bin/env bash
# Compares the rows, the scopes and the frames of ten thousand addresses of each object of
# tools/make_objects.sh with the output of other readers. Compares the frames also with a scan of
# all rows and scopes for each address, and the program's replies with the output of addr2line and
# llvm-symbolizer. Fails if anything differs.
set -euo pipefail
cd "$(dirname "$0")/.."
tools/build.sh measure measure.log
tools/build.sh addr2line_live
measure=${MEASURE:-crates/measure/out/measure}
program=${ADDR2LINE_LIVE:-crates/addr2line_live/out/addr2line_live}
[ -f out/objects/large ] || tools/make_objects.sh out/objects
objects=(small small.clang small.dwarf64 library.so program program.types program.dwz program.clang
    program.dwarf64 program.dead program.lto program.clang.lto large)
gcc -O2 -o out/plain_scan tools/plain_scan.c
differ=0
for object in "${objects[@]}"; do
    if [ ! -f out/objects/$object ]; then
        echo "$object: not made, for want of a compiler or tool that tools/make_objects.sh names"
        continue
    fi
    tools/compare_rows.py "$measure" out/objects/$object || differ=1
    "$measure" scope-table out/objects/$object > out/scopes.table
    tools/compare_scopes.py out/objects/$object out/scopes.table || differ=1
    tools/compare_frames.py "$measure" out/objects/$object || differ=1
    tools/compare_plain_scan.sh "$measure" out/objects/$object || differ=1
    tools/compare_replies.py "$program" 10000 out/objects/$object || differ=1
done
exit $differ
