#!/usr/bin/env bash
# Runs made workloads from their texts (tests/made_texts.py) with proof=1, audits each report, and prints what both take and how
# long the report is. The town's day, which vehicles were driven through, is audited as well, from its script and its report.
# Use: bench/audit.sh [PROGRAM], from the top of the repository.
set -u -o pipefail
program=$(readlink -f "${1:-./ridepool}")
here=$(dirname "$(readlink -f "$0")")

judged() { # KEY=VALUE .., in a folder with the three files
  local files="network=network.csv fleet=fleet.csv script=script.csv"
  # shellcheck disable=SC2086
  /usr/bin/time -f 'run:   %U user seconds, %e s, %M kB' "$program" run $files proof=1 "$@" >report || exit 1
  echo "$(wc -c <report) bytes, $(wc -l <report) lines"
  # shellcheck disable=SC2086
  /usr/bin/time -f 'audit: %U user seconds, %e s, %M kB' "$program" audit $files report=report || exit 1
}

audit() { # SEED SIDE VEHICLES RIDERS ROUNDS KEY=VALUE ..
  local folder
  folder=$(mktemp -d) || exit 1
  for name in network fleet script; do
    python3 "$here/../tests/made_texts.py" "${@:1:5}" "$name" >"$folder/$name.csv" || exit 1
  done
  echo "== $*"
  (cd "$folder" && judged "${@:6}") || { echo "failed: $folder"; exit 1; }
  rm -r "$folder"
}

town() {
  local folder
  folder=$(mktemp -d) || exit 1
  cp "$here"/../examples/town/{network,fleet,script}.csv "$folder" || exit 1
  echo "== the town"
  (cd "$folder" && judged) || { echo "failed: $folder"; exit 1; }
  rm -r "$folder"
}

town
audit 1 20 100 150 4
audit 1 20 500 250 10 trip=6 wait=150 delay=200 pairs=2000000
audit 1 20 500 250 20 trip=6 wait=300 delay=300 pairs=2000000
