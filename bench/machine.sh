#!/usr/bin/env bash
# Compares the machine with other ways to run the same routines: C by the translation that LFPL was made for, and Lua, OCaml byte code and CPython in each one's own
# idiom. Every program makes the same inputs of 500 entries and prints a checksum of what it gives, which must be that of bench/evaluate.py, an evaluator written
# apart; the steps are that evaluator's too. Times are nanoseconds, the least mean of five rounds. Run it after `rt run` in
# crates/machine_bench, which builds the program.
#
#   bench/machine.sh [RUNS]       RUNS: how often the machine runs each routine in a round (200)
set -eu
cd "$(dirname "$0")/.."
runs=${1:-200}

missing=0
need() {
    if ! command -v "$1" > /dev/null; then
        echo "missing: $1 ($2)" >&2
        missing=1
    fi
}
need gcc "apt-get install gcc"
need lua5.4 "apt-get install lua5.4"
need ocamlc "apt-get install ocaml-nox"
need ocamlrun "apt-get install ocaml-nox"
need python3 "apt-get install python3"
if [ ! -x crates/machine_bench/out/machine_bench ]; then
    echo "missing: crates/machine_bench/out/machine_bench (rt run in crates/machine_bench)" >&2
    missing=1
fi
[ "$missing" = 0 ] || exit 1

work=$(mktemp -d)
trap 'rm -rf "$work"' EXIT
gcc -O2 -o "$work/c" bench/baselines/routines.c
cp bench/baselines/routines.ml "$work"
(cd "$work" && ocamlc -o bytecode routines.ml)

# each file: a line for each routine, with its name, nanoseconds for a run, and the checksum
"$work/c" > "$work/c.out"
lua5.4 bench/baselines/routines.lua > "$work/lua.out"
ocamlrun "$work/bytecode" > "$work/ocaml.out"
python3 bench/baselines/routines.py > "$work/python.out"
# the machine's: name, steps, nanoseconds of its steps and of a whole run, checksum of the result's bytes
crates/machine_bench/out/machine_bench "$runs" > "$work/machine.out"
# the evaluator's: name, steps, height, words, checksum of the entries, checksum of the bytes
PYTHONDONTWRITEBYTECODE=1 python3 bench/evaluate.py all > "$work/wanted.out"

awk -v work="$work" '
    FILENAME ~ /wanted.out$/ { order[++count] = $1; steps[$1] = $2; entries[$1] = $5; bytes[$1] = $6; next }
    FILENAME ~ /machine.out$/ {
        if ($2 != steps[$1] || $5 != bytes[$1]) { print "machine: " $1 ": steps or result differ from the evaluator" > "/dev/stderr"; wrong = 1 }
        carried[$1] = $3
        ours[$1] = $4
        next
    }
    {
        if ($3 != entries[$1]) { print FILENAME ": " $1 ": the result differs from the evaluator" > "/dev/stderr"; wrong = 1 }
        other[FILENAME, $1] = $2
    }
    END {
        names = split("c lua ocaml python", name, " ")
        printf "%-15s %8s %8s %12s", "routine", "steps", "ns/step", "ns/run"
        for (k = 1; k <= names; k++) printf " %12s %7s", name[k], "ours/it"
        printf "\n"
        for (i = 1; i <= count; i++) {
            r = order[i]
            printf "%-15s %8d %8.2f %12.0f", r, steps[r], carried[r] / steps[r], ours[r]
            for (k = 1; k <= names; k++) {
                t = other[work "/" name[k] ".out", r]
                printf " %12.0f %7.2f", t, ours[r] / t
            }
            printf "\n"
        }
        exit wrong
    }
' "$work/wanted.out" "$work/machine.out" "$work/c.out" "$work/lua.out" "$work/ocaml.out" "$work/python.out"
