#!/bin/sh
# needs.sh TARGET TOOL..: fails if tools that a target needs are missing, and prints their names
# in one line.
target=$1
shift
missing=
for tool in "$@"; do
    command -v "$tool" > /dev/null || missing="$missing${missing:+, }$tool"
done
[ -z "$missing" ] && exit 0
echo "make $target needs $(echo "$*" | sed 's/ /, /g'); not found: $missing" >&2
exit 1
