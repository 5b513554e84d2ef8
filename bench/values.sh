#!/usr/bin/env bash
# Times put, show and empty of lists of N through the console, for lists of 128, 256 and 512 entries over a block of 512 cells: processor time for each round of the
# three calls, and for each entry. Run it after `rt run` in crates/console, which builds the program.
set -eu
cd "$(dirname "$0")/.."
rounds=${1:-2000}
work=$(mktemp -d)
trap 'rm -rf "$work"' EXIT
TIMEFORMAT=%U
for entries in 128 256 512; do
    {
        echo "pool block 8704"
        echo "adopt 2 0 2 0 1 1 1 1 0 0"
        round="put 0 1$(printf ' 1 14%.0s' $(seq "$entries")) 0
show 0 65536
empty 0"
        for _ in $(seq "$rounds"); do echo "$round"; done
    } > "$work/script"
    seconds=$( { time crates/console/out/console < "$work/script" > "$work/out"; } 2>&1 )
    awk -v s="$seconds" -v r="$rounds" -v n="$entries" 'BEGIN {
        printf "%d entries: %.1f microseconds a round, %.3f an entry\n", n, s / r * 1e6, s / r / n * 1e6
    }'
done
grep -c "^shown" "$work/out" | xargs printf '%s values shown in the last run\n'
