#!/usr/bin/env bash
# Times exact routing on drawn tasks, of 2 to 6 riders and 0 to 8 passengers, beside a native program of the same method
# (bench/routing.cpp). Run it at the top of the repository, with how many tasks (20000). For each of three seeds it prints
# the least microseconds of three runs of each program, their ratio, and the labels a second; it stops where the two
# programs' answers differ.
set -euo pipefail
tasks=${1:-20000}
work=$(mktemp -d)
trap 'rm -rf "$work"' EXIT
g++ -O2 -march=x86-64-v2 -o "$work/native" bench/routing.cpp
(cd crates/calls_bench && rt run > /dev/null) || [ $? = 2 ]
least() { awk '$2 ~ /^microseconds/ { if (!least || $1 < least) least = $1 } END { print least }' "$1"; }
for seed in 1 2 3; do
    : > "$work/ours"
    : > "$work/theirs"
    for _ in 1 2 3; do
        crates/calls_bench/out/calls_bench routing "$seed" "$tasks" >> "$work/ours" 2>&1
        "$work/native" "$seed" "$tasks" >> "$work/theirs"
    done
    if [ "$(grep served "$work/ours")" != "$(grep served "$work/theirs")" ]; then
        echo "seed $seed: the answers differ" >&2
        exit 1
    fi
    labels=$(awk '$3 == "labels" { print $4; exit }' "$work/theirs")
    awk -v seed="$seed" -v tasks="$tasks" -v labels="$labels" -v ours="$(least "$work/ours")" -v theirs="$(least "$work/theirs")" 'BEGIN {
        printf "seed %d, %d tasks, %d labels: rattle %d us, native %d us, ratio %.2f; rattle %.1f million labels a second\n",
            seed, tasks, labels, ours, theirs, ours / theirs, labels / ours
    }'
done
