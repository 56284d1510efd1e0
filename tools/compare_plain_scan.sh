#!/usr/bin/env bash
# compare_plain_scan.sh MEASURE OBJECT: compares the frames that `measure frames` prints for ten
# thousand addresses with the output of tools/plain_scan.c, built as out/plain_scan, which scans all
# rows and scopes for each address.
set -euo pipefail
measure=$1
object=$2
folder=$(mktemp -d)
trap 'rm -rf "$folder"' EXIT
"$measure" rows "$object" > "$folder/rows"
"$measure" scope-table "$object" > "$folder/scopes"
"$measure" files "$object" | sort -u > "$folder/files"
"$measure" frames "$object" > "$folder/asked"
plain_scan=$(dirname "$0")/../out/plain_scan
"$plain_scan" "$folder"/{rows,scopes,files,asked} > "$folder/answers"
name=$(basename "$object") lines=$(wc -l < "$folder/asked")
if cmp -s "$folder/asked" "$folder/answers"; then
    echo "$name: $lines lines of frames beside a plain scan, 0 differ"
else
    echo "$name: $lines lines of frames beside a plain scan, which differ:"
    diff -a "$folder/asked" "$folder/answers" | head -20
    exit 1
fi
