#!/bin/sh
# Compares the reduction with one written by hand: for each hall, field and store a line with the instructions of one solving
# and its time in microseconds, each as ours, by hand, and the factor. The counts are the same on every run of the same build.
set -eu
cd "$(dirname "$0")/.."
halls=${HALLS:-"hub plain20 hole64 plain64 all19 add37089"}
runs=${RUNS:-9}
ours=crates/reducebench/out/reducebench
hand=target/bench/baseline
[ -x $ours ] || (cd crates/reducebench && rt run > /dev/null)
mkdir -p target/bench
rustc -C opt-level=3 -o $hand bench/baseline.rs

# The instructions of a program that solves a system so many times: count PROGRAM HALL ORDER STORE TIMES.
count() {
    valgrind --tool=callgrind --callgrind-out-file=/dev/null "$1" "halls/$2.txt" "$3" "$4" "$5" 2>&1 | sed -n 's/.*Collected : //p'
}

# Those of one solving alone.
one() { echo $(($(count "$@" 2) - $(count "$@" 1))); }

# The nanoseconds of a run.
timed() {
    begin=$(date +%s%N)
    "$1" "halls/$2.txt" "$3" "$4" "$5" > /dev/null
    echo $(($(date +%s%N) - begin))
}

median() { sort -n | awk '{ a[NR] = $1 } END { print a[int((NR + 1) / 2)] }'; }

# A line of the table. The two programs take turns, `times` solvings a run, and runs of one solving are taken off.
compare() { # HALL ORDER STORE STORE-BY-HAND
    [ "$($ours "halls/$1.txt" "$2" "$3" 1)" = "$($hand "halls/$1.txt" "$2" "$4" 1)" ] || { echo "$1 $2 $3: the answers differ"; exit 1; }
    a=$(one $ours "$1" "$2" "$3")
    b=$(one $hand "$1" "$2" "$4")
    times=$((2 + 300000000 / a))
    for i in ours-many ours-one hand-many hand-one; do : > "target/bench/$i"; done
    for i in $(seq "$runs"); do
        timed $ours "$1" "$2" "$3" $times >> target/bench/ours-many
        timed $hand "$1" "$2" "$4" $times >> target/bench/hand-many
        timed $ours "$1" "$2" "$3" 1 >> target/bench/ours-one
        timed $hand "$1" "$2" "$4" 1 >> target/bench/hand-one
    done
    s=$(median < target/bench/ours-many) t=$(median < target/bench/ours-one)
    u=$(median < target/bench/hand-many) v=$(median < target/bench/hand-one)
    awk -v h="$1" -v q="$2" -v w="$3" -v a="$a" -v b="$b" -v n=$((times - 1)) -v s=$((s - t)) -v u=$((u - v)) 'BEGIN {
        store = w == "sparse" ? w : "dense, " w (w == 1 ? " bit" : " bits")
        printf "| %s | GF(%s) | %s | %d | %d | %.2f | %.1f | %.1f | %.2f |\n", h, q, store, a, b, a / b, s / n / 1000, u / n / 1000, s / u
    }'
}

echo "| hall | field | store | instructions | by hand | factor | microseconds | by hand | factor |"
echo "|---|---|---|---|---|---|---|---|---|"
for hall in $halls; do
    for order in 2 3 251; do
        compare "$hall" $order sparse sparse
        compare "$hall" $order 8 8
    done
    compare "$hall" 2 1 8
    compare "$hall" 3 2 8
done
