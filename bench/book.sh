#!/usr/bin/env bash
# Times 200,000 commands without a seal beside a plain native program that keeps hash maps (bench/book.cpp):
# the program from files to report, and the book alone, which is the crate's test that fills a book. Run it
# at the top of the repository. The two reports must be equal byte for byte. It prints the processor seconds
# of five runs of each, in user mode and in the system, and their ratio.
set -euo pipefail
work=$(mktemp -d)
trap 'rm -rf "$work"' EXIT
g++ -O2 -march=x86-64-v2 -o "$work/native" bench/book.cpp
python3 bench/book.py 200000 "$work"
program=$(release/find)
(cd crates/request_book && rt test > /dev/null)
words=(run network="$work/network.csv" fleet="$work/fleet.csv" script="$work/script.csv")
"$program" "${words[@]}" > "$work/ours"
"$work/native" "$work" > "$work/theirs"
cmp "$work/ours" "$work/theirs"
TIMEFORMAT='%U %S'
seconds_of() { { time (for _ in 1 2 3 4 5; do "$@" > /dev/null; done); } 2>&1 | awk '{ print $1 + $2 }'; }
compare() {
  awk -v what="$1" -v ours="$2" -v theirs="$3" \
    'BEGIN { printf "%s: rattle %s s, native %s s, ratio %.2f\n", what, ours, theirs, ours / theirs }'
}
compare "files to report" "$(seconds_of "$program" "${words[@]}")" "$(seconds_of "$work/native" "$work")"
tests=crates/request_book/out/request_book_tests
compare "book alone" "$(seconds_of "$tests" tests::a_full_book_takes_nobody)" "$(seconds_of "$work/native" fill)"
