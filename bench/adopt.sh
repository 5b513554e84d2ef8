#!/usr/bin/env bash
# Times 10,000 adoptions of a table with 512 expressions, through the console: the same lines once as they are, and once with a first byte that is refused at
# once, so that what is left is the adoption without the reading of the script. Run it after `rt run` in crates/console, which builds the program.
set -eu
cd "$(dirname "$0")/.."
lines=${1:-10000}
work=$(mktemp -d)
trap 'rm -rf "$work"' EXIT

# 254 sums inside a guard: 512 expressions in 1,028 bytes
body=" 4 2 0 2 0$(printf ' 3 0 2 0%.0s' $(seq 254)) 2 0"
yes "adopt 1 0 1 0 0$body" | head -n "$lines" > "$work/whole"
yes "adopt 0 0 1 0 0$body" | head -n "$lines" > "$work/refused"

# seconds for the console on a script, the least of five runs
least() {
    for _ in 1 2 3 4 5; do
        local from to
        from=$(date +%s%N)
        crates/console/out/console < "$1" > "$work/out"
        to=$(date +%s%N)
        echo $((to - from))
    done | sort -n | head -n 1
}

whole=$(least "$work/whole")
grep -c -x adopted "$work/out" | xargs printf '%s tables adopted\n'
refused=$(least "$work/refused")
awk -v w="$whole" -v r="$refused" -v n="$lines" 'BEGIN {
    printf "%.1f microseconds a line, of which %.1f are the adoption\n", w / n / 1000, (w - r) / n / 1000
}'
