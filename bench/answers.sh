#!/usr/bin/env bash
# Answer sets of quantified formulas, of diagnoses and of facts, until each named atom is settled: how many answers
# there were of each kind, how many clauses were counted, and the milliseconds of user time, in all and for opening the
# tester alone. `answers.sh PROGRAM` takes the program bench_answers that was built; without it, it is proved and built
# by `rt run`, which takes its time. Each input has a minute.
set -eu
cd "$(dirname "$0")/.."
program=${1:-}
if [ -z "$program" ]; then
  ( cd crates/bench_answers && rt run < stdin > /dev/null 2>&1 )
  program=crates/bench_answers/out/bench_answers
fi
folder=$(mktemp -d)
trap 'rm -rf "$folder"' EXIT

answer() { # LIMIT: the program's milliseconds of user time, or nothing where it took more than a minute
  local TIMEFORMAT=%3U spent
  spent=$( { time timeout 60 "$program" "$1" < "$folder/input" > "$folder/out" || echo late > "$folder/out"; } 2>&1 )
  echo $(( 10#${spent/./} ))
}

row='%-22s %10s %7s %9s %6s %6s %8s %8s\n'
# shellcheck disable=SC2059 # the layout is a constant
printf "$row" input found cores counted spent inside ms opening
while read -r input; do
  # shellcheck disable=SC2086 # the input is several words
  python3 bench/make_input.py $input > "$folder/input"
  opened=$(answer 0)
  spent=$(answer 10000000)
  read -r found _ cores _ counted _ stopped _ inside _ < "$folder/out"
  # shellcheck disable=SC2059 # the layout is a constant
  printf "$row" "$input" "$found" "${cores:-}" "${counted:-}" "${stopped:-}" "${inside:-}" "$spent" "$opened"
done <<'INPUTS'
formula 8 24 2
formula 10 20 2
formula 12 24 2
formula 12 24 3
formula 16 40 1
diagnosis 1 3
diagnosis 2 3
diagnosis 3 4
diagnosis 4 1
facts 12500
facts 25000
facts 50000
facts 100000
INPUTS
