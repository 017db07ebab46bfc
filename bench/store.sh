#!/bin/bash
# How fast the store of squares interns and collects, in 2^18 and in 2^24 words, by the program storebench.
#
#   bench/store.sh
#
# STOREBENCH names another program in place of crates/storebench/out/storebench; REPEAT is how often each is run (3), of
# which the fastest counts. Times are elapsed time. Interns of new squares are timed with the collections that they ask for.
# Exit status: 0 if in 2^18 words 8 million nodes a second are found and 4 million made, 1 if not, 2 if something is missing.
set -u
cd "$(dirname "$0")/.." || exit 2
repeat=${REPEAT:-3}
program=${STOREBENCH:-crates/storebench/out/storebench}
[[ -x $program ]] || { echo "bench: there is no $program; rt run in crates/storebench makes it" >&2; exit 2; }
work=$(mktemp -d) || exit 2
trap 'rm -rf "$work"' EXIT

# best WHAT LOG TURNS: the least nanoseconds for one
best() {
    local k
    for ((k = 0; k < repeat; k++)); do
        "$program" <<<"$*" >"$work/out" 2>"$work/ns" || { echo "bench: failed: $*" >&2; return 2; }
        awk '{ print $1 }' "$work/ns"
    done | sort -n | head -n 1
    cp "$work/out" "$work/$1.$2"
}

speed() { awk -v ns="$1" 'BEGIN { printf "%.1f million/s (%d ns)", 1000 / ns, ns }'; }
collections() { sed 's/.* //' "$work/$1.$2"; }

for log in 18 24; do
    found=$(best found $log 5000000) && made=$(best made $log 5000000) && leaves=$(best leaves $log 5000000) && collect=$(best collect $log 20) || exit 2
    echo "2^$log words: nodes found $(speed "$found"), nodes made $(speed "$made"), $(collections made $log) collections," \
        "leaves made $(speed "$leaves"), $(collections leaves $log) collections," \
        "a collection $(awk -v ns="$collect" -v log2="$log" 'BEGIN { printf "%.2f ms (%.1f ns a word)", ns / 1e6, ns / 2 ^ log2 }')"
    [[ $log == 18 ]] && { ((found <= 125 && made <= 250)); wanted=$?; }
done
exit $wanted
