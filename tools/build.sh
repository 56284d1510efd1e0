#!/usr/bin/env bash
# build.sh CRATE [LOG]: proves and builds a program of crates/, and prints the name of each crate
# when its proof starts. On a terminal it also prints the number of proved functions. If nothing
# changed, it only runs the program once. The tests of a crate whose name ends in _tests run too.
#
# ADDR2LINE_LIVE, MEASURE and TESTS are paths of built programs: of addr2line_live, of measure and
# of the tests of command_loop. If the variable of a crate is set, nothing is proved or built.
set -euo pipefail
cd "$(dirname "$0")/.."
mkdir -p out
crate=$1 log=$PWD/out/${2:-build.log} command=run variable=

case $crate in
    addr2line_live) variable=ADDR2LINE_LIVE ;;
    measure) variable=MEASURE ;;
    command_loop_tests) variable=TESTS command=test ;;
esac
built=${variable:+${!variable:-}}
if [ -n "$built" ]; then
    [ -f "$built" ] && [ -x "$built" ] && exit 0
    echo "$variable=$built is not an executable file" >&2
    exit 1
fi

# Copies the output of rt into the log and prints the progress.
progress() {
    local line proving='' counted=
    while IFS= read -r line; do
        echo "$line" >> "$log"
        if [[ $line =~ ^rt:\ chose\ --jobs\ [0-9]+\ for\ ([a-z0-9_]+)$ ||
            $line =~ ^checked\ ([a-z0-9_]+):: ]] && [ "${BASH_REMATCH[1]}" != "$proving" ]; then
            [ -z "$counted" ] || echo
            proving=${BASH_REMATCH[1]} counted=
            echo "  proving $proving"
        fi
        [ -t 1 ] && [[ $line =~ ^checked\ .*,\ ([0-9]+\ of\ [0-9]+)$ ]] || continue
        counted=1
        printf '\r    %s functions' "${BASH_REMATCH[1]}"
    done
    [ -z "$counted" ] || echo
}

: > "$log"
(cd "crates/$crate" && rt "$command" < /dev/null 2>&1) | progress || {
    tail -5 "$log"
    echo "crates/$crate was not built; all that was said stands in $log"
    exit 1
}
