#!/bin/sh
# The port's speed, memory and stack against the Rust's: bench.sh PROGRAMS REFERENCE [RUNS]. PROGRAMS has callrun, dumplists
# and deepest, REFERENCE is the OUT of ../reference/build.sh (release mode). Writes the tables of docs/SPEED.md.
set -eu

here=$(cd "$(dirname "$0")" && pwd)
programs=$(cd "${1:?usage: bench.sh PROGRAMS REFERENCE [RUNS]}" && pwd)
release=$(cd "${2:?usage: bench.sh PROGRAMS REFERENCE [RUNS]}/target/release" && pwd)
runs=${3:-5}
work=$(mktemp -d)
trap 'rm -rf "$work"' EXIT
export PYTHONDONTWRITEBYTECODE=1

# A million calls of each kind, and a tenth of that for counting instructions.
for profile in mixed refusals information kills exceptions; do
    "$release/generate" one --seed 1 --calls 1000000 --profile $profile >"$work/$profile"
    "$release/generate" one --seed 1 --calls 100000 --profile $profile >"$work/$profile.tenth"
done

# Growth: 10^4 to 10^7 calls; the last is the million ten times over, as one list.
"$release/generate" one --seed 1 --calls 10000 >"$work/4"
cp "$work/mixed.tenth" "$work/5"
cp "$work/mixed" "$work/6"
for _ in 1 2 3 4 5 6 7 8 9 10; do cat "$work/mixed"; done >"$work/7"

# Many short lists, where jobs are made and killed for good: lines and records.
"$release/generate" random --seed 1 --lists 12000 --calls 60..160 --profile trees >"$work/short"

python3 "$here/measure.py" "$programs" "$release" "$work" "$runs"
