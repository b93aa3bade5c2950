#!/bin/sh
# Fuzzes callrun: fuzz.sh PROGRAM MINUTES [CALLRUN REFERENCE [OUT]]. PROGRAM from instrument.sh is fuzzed by coverage, any other
# without. With CALLRUN and REFERENCE (the OUT of ../reference/build.sh) also: each input found on both, and memcheck.
set -eu

here=$(cd "$(dirname "$0")" && pwd)
usage='usage: fuzz.sh PROGRAM MINUTES [CALLRUN REFERENCE [OUT]]'
program=$(realpath "${1:?$usage}")
minutes=${2:?$usage}
out=${5:-$(mktemp -d)}
mkdir -p "$out"
export AFL_SKIP_CPUFREQ=1 AFL_I_DONT_CARE_ABOUT_MISSING_CRASHES=1 AFL_NO_AFFINITY=1 AFL_NO_UI=1 PYTHONDONTWRITEBYTECODE=1
status=0

# -- AFL++ --------------------------------------------------------------------------------------
# The seeds are one named list in eight, and an input that stops. A run of more than a second is a hang.
mode=
grep -q __AFL_SHM_ID "$program" || mode=-n
python3 "$here/lists.py" seeds "$here/../crates/replay/data/named.pack" "$out/seeds" 8
nice -n 10 afl-fuzz $mode -i "$out/seeds" -o "$out/found" -t 1000 -m none -G 4096 -V $((minutes * 60)) \
    -- "$program" >"$out/log" 2>&1 || { tail -n 20 "$out/log" >&2; exit 1; }
found=$out/found/default
if [ -n "$mode" ]; then
    found=$out/found
    echo "afl-fuzz without coverage"
    sed -n 's/.*Statistics: \([^[:cntrl:]]*\).*/\1/p' "$out/log"
else
    echo "afl-fuzz by coverage"
    grep -E '^(run_time|execs_done|corpus_count|edges_found|total_edges|saved_crashes|saved_hangs)' "$found/fuzzer_stats"
fi
for bad in crashes hangs; do
    if [ -n "$(ls "$found/$bad")" ]; then
        echo "fuzz.sh: $bad in $found/$bad" >&2
        status=1
    fi
done
[ $# -ge 4 ] || exit $status

# -- Both programs on each input that was kept --------------------------------------------------
callrun=$(realpath "$3")
release=$(cd "$4/target/release" && pwd)
python3 "$here/lists.py" folder "$found/queue" >"$out/batch"
python3 "$here/lists.py" single "$callrun" "$release/reference" "$out/batch" || status=1

# -- Generated and damaged lists, by the fuzzed program and under memcheck -----------------------
"$release/generate" random --seed 21 --lists 150 --calls 20..200 >"$out/batch"
"$release/generate" damage --seed 22 --lists 150 >>"$out/batch"
python3 "$here/lists.py" single "$program" "$release/reference" "$out/batch" || status=1
python3 "$here/lists.py" memcheck "$callrun" "$out/batch" || status=1
exit $status
