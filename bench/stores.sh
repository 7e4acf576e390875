#!/bin/sh
# Counts the instructions of store operations at growing sizes: each line is an operation, a size, and its instructions
# without those of the same run that stops before the operation.
set -eu
cd "$(dirname "$0")/.."
ours=crates/storebench/out/storebench
[ -x $ours ] || (cd crates/storebench && rt run > /dev/null)
count() {
    valgrind --tool=callgrind --callgrind-out-file=/dev/null $ours "$1" "$2" 2>&1 | sed -n 's/.*Collected : //p'
}
for size in 500 1000 2000 4000; do
    base=$(count fill "$size")
    echo "add $size $(($(count add "$size") - base))"
    echo "low $size $(($(count low "$size") - base))"
done
for size in 1000000 2000000 4000000; do
    echo "next $size $(($(count next "$size") - $(count dense "$size")))"
done
empty=$(count begin 0)
for size in 1000 2000 4000; do
    echo "begin $size $(($(count begin "$size") - empty))"
done
