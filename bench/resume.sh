#!/usr/bin/env bash
# bench/resume.sh PROGRAM [BATCHES]: how long `resume` takes on a large day, and how much memory, with judge=0 and one worker.
#
# A made day of so many batches (2,880: some 230 MB) is printed once by `live`, which takes some minutes. The riders of a batch
# are over before the next. Then the last byte is cut off, and the rest is resumed without a row. GNU time prints seconds and
# kilobytes.
set -eu -o pipefail
program=$(readlink -f "$1") batches=${2:-2880}
folder=$(mktemp -d)
trap 'rm -rf "$folder"' EXIT
cd "$folder"

python3 - "$batches" <<'PYTHON'
import random
import sys

batches, side, rng = int(sys.argv[1]), 40, random.Random(1)
nodes = side * side
with open("network.csv", "w") as out:
    print("from,to,seconds", file=out)
    for node in range(nodes):
        for there in ([node + 1] if node % side + 1 < side else []) + ([node + side] if node + side < nodes else []):
            seconds = rng.randint(20, 60)
            print(f"{node + 1},{there + 1},{seconds}\n{there + 1},{node + 1},{seconds}", file=out)
with open("fleet.csv", "w") as out:
    print("vehicle,seats,node,second", file=out)
    for number in range(1, 501):
        print(f"{number},4,{rng.randint(1, nodes)},0", file=out)
with open("rows.csv", "w") as out:
    print("round,lane,command,a,b,c,d", file=out)
    rider = 0
    for batch in range(batches):
        now = 330 * batch
        for number in range(1, 501):
            print(f"{batch},0,report,{number},{rng.randint(1, nodes)},{now},", file=out)
        for _ in range(40):
            rider += 1
            print(f"{batch},0,submit,{rider},{rng.randint(1, nodes)},{rng.randint(1, nodes)},{now}", file=out)
        print(f"{batch},0,seal,{now + 20},,,", file=out)
PYTHON
"$program" live network=network.csv fleet=fleet.csv wait=300 delay=600 proof=1 <rows.csv >whole.report
head -c -1 whole.report >torn.report
printf '%s lines, %s bytes\n' "$(wc -l <torn.report)" "$(wc -c <torn.report)"
echo round,lane,command,a,b,c,d |
  /usr/bin/time -f '%e s, %M kB' "$program" resume network=network.csv fleet=fleet.csv report=torn.report workers=1 >again.report
cmp whole.report again.report && echo "the same report"
