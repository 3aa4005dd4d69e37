#!/usr/bin/env bash
# Times tables of shortest times beside a native program with the same kind of queue (bench/times_peer.cpp), on
# square grids of the made network. Run it at the top of the repository. For each grid, number of points and number of
# threads it prints the least microseconds of three tables by each program and their ratio, and the ratio of the
# processor seconds of all three, which tells more on a machine that does much else. It stops where the two programs'
# tables differ. How many threads there are is what taskset leaves.
set -euo pipefail
work=$(mktemp -d)
trap 'rm -rf "$work"' EXIT
g++ -O2 -march=x86-64-v2 -pthread -o "$work/native" bench/times_peer.cpp
(cd crates/calls_bench && rt run > /dev/null) || [ $? = 2 ]
TIMEFORMAT=%U
ours() { crates/calls_bench/out/calls_bench tables "$1" "$2" "$3" rows; }
export -f ours
# The processor seconds of a program on the network, with so many points and repeats; it writes to a file.
seconds_of() { { time taskset -c "$1" bash -c '"$@"' _ "$2" "$work/network" "$points" "$3" > "$4"; } 2>&1; }
least_and_cells() { awk '$2 == "microseconds," { if (!least || $1 < least) least = $1; cells = $4 } END { print least, cells }' "$1"; }
for side in 20 100 300; do
    python3 tests/made_texts.py 1 "$side" 1 0 0 network > "$work/network"
    for points in 50 500 2000; do
        for processors in 0 0-3; do
            ours_all=$(seconds_of "$processors" ours 3 "$work/ours")
            theirs_all=$(seconds_of "$processors" "$work/native" 3 "$work/theirs")
            ours_reading=$(seconds_of "$processors" ours 0 "$work/threads")
            theirs_reading=$(seconds_of "$processors" "$work/native" 0 "$work/threads")
            read -r ours ours_cells < <(least_and_cells "$work/ours")
            read -r theirs theirs_cells < <(least_and_cells "$work/theirs")
            [ "$ours_cells" = "$theirs_cells" ] || { echo "side $side, $points points: the tables differ" >&2; exit 1; }
            awk -v side="$side" -v points="$points" -v threads="$(sed -n 's/^threads //p' "$work/threads")" \
                -v ours="$ours" -v theirs="$theirs" \
                -v cost="$ours_all $ours_reading $theirs_all $theirs_reading" 'BEGIN {
                    split(cost, c)
                    native = c[3] - c[4]
                    shown = native > 0.05 ? sprintf("%.2f", (c[1] - c[2]) / native) : "-"
                    printf "side %3d, %4d points, %d threads: rattle %9d us, native %9d us, ratio %.2f, processor ratio %s\n",
                        side, points, threads, ours, theirs, ours / theirs, shown
                }'
        done
    done
done
