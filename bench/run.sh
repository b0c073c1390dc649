#!/usr/bin/env bash
# Times the built program (crates/wasp2/out/wasp2, made by `rt run` there): 65,535 facts, and 64 MB of mixed rules,
# which are read whole and then refused with TooManyVariables.
set -eu
cd "$(dirname "$0")/.."
program=crates/wasp2/out/wasp2
folder=$(mktemp -d)
trap 'rm -rf "$folder"' EXIT
python3 bench/make_input.py facts 65535 > "$folder/facts"
python3 bench/make_input.py mixed 67000000 > "$folder/mixed"
for name in facts mixed; do
  echo "$name: $(stat -c %s "$folder/$name") bytes"
  for _ in 1 2 3; do
    ( TIMEFORMAT='  %R s wall, %U s user'; time "$program" cautious < "$folder/$name" > "$folder/out" || true )
  done
  tail -n 1 "$folder/out"
done
