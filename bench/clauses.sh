#!/usr/bin/env bash
# The search on clause sets: how many clauses it counts a second. `clauses.sh PROGRAM` takes the program bench_clauses
# that was built; without it, it is proved and built by `rt run`, which takes its time. Each set has a minute.
set -eu
cd "$(dirname "$0")/.."
program=${1:-}
if [ -z "$program" ]; then
  ( cd crates/bench_clauses && rt run > /dev/null 2>&1 )
  program=crates/bench_clauses/out/bench_clauses
fi
folder=$(mktemp -d)
trap 'rm -rf "$folder"' EXIT

while read -r task; do
  start=$(date +%s%N)
  # shellcheck disable=SC2086 # the task is several words
  timeout 60 "$program" $task > "$folder/end" 2> "$folder/counted" || echo 'no answer' > "$folder/end"
  spent=$(( ($(date +%s%N) - start) / 1000000 ))
  counted=$(cut -d ' ' -f 1 "$folder/counted")
  echo "$task: $(cat "$folder/end"), ${counted:-0} counted in $spent ms, $(( ${counted:-0} * 1000 / (spent + 1) )) a second"
done <<'TASKS'
pigeons 7
pigeons 8
random 100 426 1
random 150 426 2
random 200 426 3
random 2000 300 1
random 50000 200 1
chains 100 1000
TASKS
