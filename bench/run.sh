#!/bin/bash
# How fast a plane of 4,000 living cells runs: the program field beside bgolly and bench/plain.c, on the same pattern.
#
#   bench/run.sh [GENERATIONS]      (5000 if left out)
#
# FIELD names another program in place of crates/field/out/field; REPEAT is how often each is run (3), of which the
# fastest counts. Times are CPU seconds. Of field's time that of putting the cells is taken off: it is run once more without the run.
# Exit status: 0 if all agree on the final count (field and plain on the box too), 1 if not, 2 if something is missing.
set -u
cd "$(dirname "$0")/.." || exit 2
generations=${1:-5000}
repeat=${REPEAT:-3}
field=${FIELD:-crates/field/out/field}
work=$(mktemp -d) || exit 2
trap 'rm -rf "$work"' EXIT

missing() { echo "bench: $1" >&2; exit 2; }
[[ $generations =~ ^[1-9][0-9]*$ ]] || missing "no number of generations: $generations"
for tool in python3 cc bgolly; do
    command -v "$tool" >/dev/null || missing "there is no $tool"
done
python3 bench/pattern.py "$work" || missing "the pattern could not be made"
cc -O2 -std=c11 -o "$work/plain" bench/plain.c || missing "bench/plain.c could not be compiled"

# cpu OUT IN COMMAND..: the least CPU seconds of $repeat runs
TIMEFORMAT='%U %S'
cpu() {
    local out=$1 in=$2 k best='' one
    shift 2
    for ((k = 0; k < repeat; k++)); do
        { time "$@" <"$in" >"$out" 2>"$work/errors" || echo failed >"$work/failed"; } 2>"$work/time"
        [[ -e $work/failed ]] && { cat "$work/errors" >&2; missing "failed: $*"; }
        one=$(tail -n 1 "$work/time" | awk '{ print $1 + $2 }')
        best=$(awk -v a="$one" -v b="$best" 'BEGIN { print ((b == "" || a < b) ? a : b) }')
    done
    echo "$best"
}

ours=''
if [[ -x $field ]]; then
    { cat "$work/field.txt"; printf 'count\n'; } >"$work/put.in"
    { cat "$work/field.txt"; printf 'run %s\ncount\nbox\n' "$generations"; } >"$work/run.in"
    put_time=$(cpu "$work/put.out" "$work/put.in" "$field") || exit 2
    all_time=$(cpu "$work/run.out" "$work/run.in" "$field") || exit 2
    ours=$(awk -v a="$all_time" -v b="$put_time" 'BEGIN { t = a - b; print (t > 0.001 ? t : 0.001) }')
    ran=$(tail -n 3 "$work/run.out" | head -n 1)
    ours_count=$(tail -n 2 "$work/run.out" | head -n 1)
    ours_box=$(tail -n 1 "$work/run.out")
    refused=$(grep -c '^no ' "$work/run.out")
    if [[ $ran != done || $refused != 0 || $(tail -n 1 "$work/put.out") != 4000 ]]; then
        echo "bench: field did not do as told: run gave '$ran', $refused lines were refused, $(tail -n 1 "$work/put.out") cells were put" >&2
        exit 1
    fi
fi
quick=$(cpu "$work/quick.out" /dev/null bgolly -a QuickLife -m "$generations" -i "$generations" "$work/bgolly.rle") || exit 2
hash=$(cpu "$work/hash.out" /dev/null bgolly -a HashLife -m "$generations" -i "$generations" "$work/bgolly.rle") || exit 2
plain=$(cpu "$work/plain.out" "$work/plain.txt" "$work/plain" "$generations") || exit 2

# bgolly's last line is `5000: 4,000`
last() { tail -n 1 "$1" | awk -F': ' '{ gsub(",", "", $1); gsub(",", "", $2); print $1, $2 }'; }
read -r quick_at quick_count < <(last "$work/quick.out")
read -r hash_at hash_count < <(last "$work/hash.out")
plain_count=$(awk '$1 == "count" { print $2 }' "$work/plain.out")
plain_box=$(grep '^box' "$work/plain.out")

echo "4000 living cells, b3s23, $generations generations"
show() { awk -v name="$1" -v count="$2" -v t="$3" -v g="$generations" 'BEGIN { printf "%-18s count %s  %9.3f s  %8.2f million living cells a second\n", name, count, t, (t > 0) ? 4000 * g / t / 1e6 : 0 }'; }
[[ -n $ours ]] && show field "$ours_count" "$ours" && echo "                   (and $put_time s for putting the cells)"
show "bgolly QuickLife" "$quick_count" "$quick"
show "bgolly HashLife" "$hash_count" "$hash"
show plain "$plain_count" "$plain"

bad=0
differ() { echo "bench: $1" >&2; bad=1; }
[[ $quick_at == "$generations" && $hash_at == "$generations" ]] || differ "bgolly stopped at $quick_at, $hash_at"
[[ $quick_count == "$plain_count" ]] || differ "the counts differ: QuickLife $quick_count, plain $plain_count"
[[ $hash_count == "$plain_count" ]] || differ "the counts differ: HashLife $hash_count, plain $plain_count"
if [[ -n $ours ]]; then
    [[ $ours_count == "$plain_count" ]] || differ "the counts differ: field $ours_count, plain $plain_count"
    [[ $ours_box == "$plain_box" ]] || differ "the boxes differ: field '$ours_box', plain '$plain_box'"
    ratio() { awk -v n="$1" -v a="$ours" -v b="$2" 'BEGIN { printf "time of ours / %s: %.2f\n", n, a / (b > 0.001 ? b : 0.001) }'; }
    ratio "bgolly QuickLife" "$quick"
    ratio "bgolly HashLife" "$hash"
    ratio plain "$plain"
fi
[[ $bad == 0 ]] || exit 1
[[ -n $ours ]] || missing "there is no $field (rt run in crates/field makes it): only the others were run"
