#!/usr/bin/env bash
# Reading, normalising and completing before and after, in one run: compare.sh OLD [NEW] builds the program
# bench_completion of two revisions and times both on the same inputs. BUILD names a command that is given a repository,
# a crate and an output path; without one the programs are proved and built by `rt run`, which takes its time.
set -eu
cd "$(dirname "$0")/.."
old=$1
new=${2:-HEAD}
folder=$(mktemp -d)
trap 'git worktree prune; rm -rf "$folder"' EXIT

build() { # REVISION NAME
  git worktree add -q --detach "$folder/$2" "$1"
  if [ ! -d "$folder/$2/crates/bench_completion" ]; then
    cp -r crates/bench_completion "$folder/$2/crates/"
    echo "bench_completion: ground_program byte_edges lparse_reader clause_store rule_normaliser completion" \
      >> "$folder/$2/crates.txt"
  fi
  if [ -n "${BUILD:-}" ]; then
    "$BUILD" "$folder/$2" bench_completion "$folder/$2.program"
  else
    ( cd "$folder/$2/crates/bench_completion" && rt run > /dev/null )
    cp "$folder/$2/crates/bench_completion/out/bench_completion" "$folder/$2.program"
  fi
}

build "$old" old
build "$new" new
python3 bench/make_input.py mixed 30000000 > "$folder/mixed"
python3 bench/make_input.py basic 2400000 > "$folder/basic"
measure() { # INPUT PHASE
  for side in old new old new; do
    TIMEFORMAT="$1 $2 $side: %U s user"
    time "$folder/$side.program" "$2" < "$folder/$1" > "$folder/out"
  done
}

for phase in read normalise complete; do
  measure mixed "$phase"
done
measure basic read # they have more bodies than a normal form may
