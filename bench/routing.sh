#!/usr/bin/env bash
# Times exact routing beside a native program of the same method (bench/routing.cpp), on the widest task
# that there is: six riders, ten passengers, no limit that matters. Run it at the top of the repository.
# It prints the processor seconds of five runs of each, and their ratio. The Rattle program is a test of
# crates/single_calls, which also checks its table of travel times.
set -euo pipefail
native=$(mktemp)
trap 'rm -f "$native"' EXIT
g++ -O2 -march=x86-64-v2 -o "$native" bench/routing.cpp
(cd crates/single_calls && rt test > /dev/null)
"$native"
TIMEFORMAT='%U'
seconds_of() { { time (for _ in 1 2 3 4 5; do "$@" > /dev/null; done); } 2>&1; }
ours=$(seconds_of crates/single_calls/out/single_calls_tests orders::widest_task)
theirs=$(seconds_of "$native")
awk -v ours="$ours" -v theirs="$theirs" 'BEGIN { printf "rattle %s s, native %s s, ratio %.2f\n", ours, theirs, ours / theirs }'
