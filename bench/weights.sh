#!/usr/bin/env bash
# The weight bodies on a configuration of 200 weight rules and on a ladder of 100 cardinalities: which clauses they give on
# a walk, and how long an assignment takes. `weights.sh PROGRAM` takes the program bench_weights that was built; without
# it, it is proved and built by `rt run`, which takes its time.
set -eu
cd "$(dirname "$0")/.."
program=${1:-}
if [ -z "$program" ]; then
  ( cd crates/bench_weights && rt run < stdin > /dev/null 2>&1 )
  program=crates/bench_weights/out/bench_weights
fi
folder=$(mktemp -d)
trap 'rm -rf "$folder"' EXIT
python3 bench/make_input.py weights 200 > "$folder/weights"
python3 bench/make_input.py ladder 100 > "$folder/ladder"

walk() { # INPUT TURNS: the program's milliseconds of user time
  local TIMEFORMAT=%3U spent
  spent=$( { time "$program" "$2" < "$folder/$1" > "$folder/out"; } 2>&1 )
  echo $(( 10#${spent/./} ))
}

while read -r name turns; do
  opened=$(walk "$name" 0)
  for _ in 1 2 3; do
    spent=$(( $(walk "$name" "$turns") - opened ))
    assigned=$(cut -d ' ' -f 6 "$folder/out")
    echo "$name: $(cat "$folder/out"), $(( spent * 1000000 / assigned )) ns each"
  done
done <<'WALKS'
weights 300000
ladder 20000
WALKS
