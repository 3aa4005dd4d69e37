#!/usr/bin/env bash
# Drives made days (tests/make_day.py) and prints what each takes and how its riders are served; then judges each report but for
# its plans (tests/walked.py), and runs the driven script in one lane, whose report has to be the same but for lanes.
# Use: bench/day.sh [PROGRAM], from the top of the repository.
set -u -o pipefail
program=$(readlink -f "${1:-./ridepool}")
here=$(dirname "$(readlink -f "$0")")

in_one_lane() { sed -E '/^day /d; s/^([0-9]+) [0-9]+ /\1 0 /' "$1"; }

drive() { # SEED SIDE VEHICLES RIDERS BATCHES KEY=VALUE ..
  local folder
  folder=$(mktemp -d) || exit 1
  python3 "$here/../tests/make_day.py" "$folder" "$@" || exit 1
  (
    cd "$folder" || exit 1
    echo "== $*"
    # shellcheck disable=SC2046
    /usr/bin/time -f '%U user seconds, %e s, %M kB' "$program" $(cat words) >report || exit 1
    python3 "$here/../tests/walked.py" . report || exit 1
    "$here/../tools/script_of.py" report lanes=1 >driven.csv
    # shellcheck disable=SC2046
    /usr/bin/time -f 'its driven script: %U user seconds, %e s, %M kB' "$program" run $(sed '1d; s/script.csv/driven.csv/' words) >run || exit 1
    diff <(in_one_lane report) run >/dev/null && echo "the same report" || exit 1
  ) || { echo "failed: $folder"; exit 1; }
  rm -r "$folder"
}

drive 7 40 200 25 200 wait=240 delay=360
drive 7 40 500 250 20
drive 7 40 500 250 20 wait=300 delay=600
drive 7 40 500 250 20 dwell=30
drive 7 40 500 1000 60
drive 7 100 500 250 20
