#!/usr/bin/env bash
# A board of 1,000 and of 100,000 candidates: how many reads a second a client makes, alone and beside a second thread that
# reports one candidate after another, and how long reports take. `board.sh PROGRAM` takes the program bench_board that was
# built; without it, it is proved and built by `rt run`, which takes its time.
set -eu
cd "$(dirname "$0")/.."
program=${1:-}
if [ -z "$program" ]; then
  ( cd crates/bench_board && rt run < stdin > /dev/null 2>&1 )
  program=crates/bench_board/out/bench_board
fi
folder=$(mktemp -d)
trap 'rm -rf "$folder"' EXIT

while read -r candidates reads rounds; do
  python3 bench/make_input.py choices "$candidates" > "$folder/input"
  for _ in 1 2 3; do
    "$program" "$reads" "$rounds" < "$folder/input" 2> "$folder/times"
    awk -F ': | in | ns' '{ printf "  %-21s %12.1f ns each %12.0f a second\n", $1, $3 / $2, $2 * 1e9 / $3 }' "$folder/times"
  done
done <<'BOARDS'
1000 20000000 20000
100000 200000 200
BOARDS
