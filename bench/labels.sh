#!/usr/bin/env bash
# Times hub labels on square grids of the made network and on drawn networks of uneven streets (uneven_network.py). Run it
# at the top of the repository, with networks and their sides as words: square:20 uneven:20 square:50 uneven:50 uneven:100
# where there are none. For each network it prints the seconds and the memory that labels take, the hubs of a node's two
# labels together, the least milliseconds of three tables of 500 points by searches and by labels, on one thread, and how
# many such tables a day make labels pay. It stops where the two tables differ.
set -euo pipefail
work=$(mktemp -d)
trap 'rm -rf "$work"' EXIT
[ $# -gt 0 ] || set -- square:20 uneven:20 square:50 uneven:50 uneven:100
(cd crates/calls_bench && rt run > /dev/null) || [ $? = 2 ]
# What the program prints for the network, and the greatest memory that it had, in kilobytes.
timed() { /usr/bin/time -f '%M kilobytes' taskset -c 0 crates/calls_bench/out/calls_bench tables "$work/network" "$@" 2>&1; }
least_and_cells() { awk '$2 == "microseconds," { if (!least || $1 < least) least = $1; cells = $4 } END { print least, cells }' "$1"; }
kilobytes() { sed -n 's/ kilobytes$//p' "$1"; }
measure() {
    timed 500 3 rows > "$work/rows"
    timed 500 3 labels > "$work/labels"
    timed 0 0 rows > "$work/bare"
    timed 0 0 labels > "$work/labelled"
    read -r rows rows_cells < <(least_and_cells "$work/rows")
    read -r labels labels_cells < <(least_and_cells "$work/labels")
    [ "$rows_cells" = "$labels_cells" ] || { echo "$1: the tables differ" >&2; exit 1; }
    read -r _ build _ _ nodes _ hubs < <(grep '^labels' "$work/labels" | tr -d ,)
    awk -v name="$1" -v build="$build" -v nodes="$nodes" -v hubs="$hubs" -v rows="$rows" -v labels="$labels" \
        -v kilobytes="$(($(kilobytes "$work/labelled") - $(kilobytes "$work/bare")))" 'BEGIN {
            pays = rows > labels ? sprintf("from %d tables on", int(build / (rows - labels)) + 1) : "never"
            printf "%s: %d nodes, labels %.2f s, %.1f MB, %.1f hubs a node; table by rows %.1f ms, by labels %.1f ms; pays %s\n",
                name, nodes, build / 1e6, kilobytes / 1e3, hubs / nodes, rows / 1e3, labels / 1e3, pays
        }'
}
for word in "$@"; do
    case $word in
        square:*) python3 tests/made_texts.py 1 "${word#*:}" 1 0 0 network > "$work/network" ;;
        uneven:*) python3 bench/uneven_network.py 1 "${word#*:}" > "$work/network" ;;
        *) echo "no network: $word" >&2; exit 2 ;;
    esac
    measure "$word"
done
