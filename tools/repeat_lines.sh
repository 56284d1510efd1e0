#!/usr/bin/env bash
# repeat_lines.sh OBJECT COPY writes a copy of an object without its entries, in which the line
# programs are repeated up to 100 MB.
set -euo pipefail
object=$1 copy=$2
only_lines=(--only-section=.debug_line --set-section-flags .debug_line=alloc)
objcopy -O binary "${only_lines[@]}" "$object" "$copy.once"
size=$(stat -c %s "$copy.once")
for ((written = 0; written < 100000000; written += size)); do cat "$copy.once"; done > "$copy.lines"
left_out=(-R .debug_info -R .debug_abbrev -R .debug_loclists -R .debug_rnglists -R .debug_aranges)
objcopy --update-section .debug_line="$copy.lines" "${left_out[@]}" "$object" "$copy"
rm -f "$copy.once" "$copy.lines"
