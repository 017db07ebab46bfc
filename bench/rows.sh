#!/bin/bash
# How long one cell of a row takes in the program field, over a plane of 4,096 cells: in a row without cells and in one full of them.
#
#   bench/rows.sh
#
# FIELD names another program in place of crates/field/out/field; REPEAT is how often each is run (3), of which the fastest
# counts. Times are CPU seconds, and that of putting the cells is taken off. No contract says where a row is searched for a
# cell: a search for each one took 27 to 72 ns, a look beside the last one takes 5 to 9.
# Exit status: 0 if both take less than 15 ns a cell, 1 if not, 2 if something is missing.
set -u
cd "$(dirname "$0")/.." || exit 2
repeat=${REPEAT:-3}
field=${FIELD:-crates/field/out/field}
[[ -x $field ]] || { echo "bench: there is no $field; rt run in crates/field makes it" >&2; exit 2; }
work=$(mktemp -d) || exit 2
trap 'rm -rf "$work"' EXIT

for ((x = 0; x < 4096; x++)); do echo "put $x 0 1"; done >"$work/put"
{ cat "$work/put"; for ((k = 0; k < 20; k++)); do echo 'row 0 5 1048576'; done; } >"$work/empty"
{ cat "$work/put"; for ((k = 0; k < 5000; k++)); do echo 'row 0 0 4096'; done; } >"$work/full"

# cpu JOB: the least CPU seconds of $repeat runs
TIMEFORMAT='%U %S'
cpu() {
    local k
    for ((k = 0; k < repeat; k++)); do
        { time "$field" <"$work/$1" >"$work/out" || echo failed >"$work/failed"; } 2>"$work/time"
        awk 'END { print $1 + $2 }' "$work/time"
    done | sort -n | head -n 1
    [[ ! -e $work/failed ]] || { echo "bench: failed: $1" >&2; return 2; }
}

put=$(cpu put) && empty=$(cpu empty) && full=$(cpu full) || exit 2
awk -v put="$put" -v empty="$empty" -v full="$full" 'BEGIN {
    e = (empty - put) / (20 * 1048576) * 1e9; f = (full - put) / (5000 * 4096) * 1e9
    printf "a cell of a row without cells %.1f ns, of a row full of cells %.1f ns\n", e, f
    exit !(e < 15 && f < 15)
}'
