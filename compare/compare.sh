#!/bin/sh
# The port against the Rust at scale: compare.sh PROGRAMS REFERENCE [SCALE]. PROGRAMS has callrun and dumplists, REFERENCE is
# the OUT of ../reference/build.sh. Lines and records must be equal; the first difference is shown, and fails.
set -eu

here=$(cd "$(dirname "$0")" && pwd)
programs=$(cd "${1:?usage: compare.sh PROGRAMS REFERENCE [SCALE]}" && pwd)
release=$(cd "${2:?usage: compare.sh PROGRAMS REFERENCE [SCALE]}/target/release" && pwd)
scale=${3:-1}
generate=$release/generate
work=$(mktemp -d)
trap 'rm -rf "$work"' EXIT
export LC_ALL=C PYTHONDONTWRITEBYTECODE=1
all_lists=0
all_calls=0
all_refused=0

# A thread killed in a plain wait: the harness remembers the wait's state, the port's record has only the stored one, Dying.
dying() { sed -E '/^thread .* stored 4 /s/ wait [0-9]+$/ wait 4/'; }

# Runs the batch on both sides; WHAT says how it was made.
both() { # WHAT
    "$programs/dumplists" <"$work/batch" >"$work/ours" || echo "dumplists ended with $?"
    "$release/reference" --dump --lists "$work/batch" | dying >"$work/theirs"
    lists=$(grep -c '^end$' "$work/theirs")
    calls=$(grep -c '^[0-9]* -\{0,1\}[0-9]' "$work/theirs")
    refused=$(grep -c '^[0-9]* 10[1-7]$' "$work/theirs") || true
    all_lists=$((all_lists + lists))
    all_calls=$((all_calls + calls))
    all_refused=$((all_refused + refused))
    if ! cmp -s "$work/ours" "$work/theirs"; then
        echo "DIFFERENCE: $1"
        python3 "$here/lists.py" first "$work/batch" "$work/ours" "$work/theirs"
        exit 1
    fi
    echo "$1: $lists lists, $calls calls ($refused refused above 100), the same lines and records"
}

# -- Lines and records --------------------------------------------------------------------------
# Every profile; a difference is made again by the same words with --first LIST --lists 1.
for profile in mixed trees exceptions waits suspends policies refusals; do
    for turn in $(seq "$scale"); do
        words="random --seed $((100 + turn)) --lists 20000 --calls 60..160 --profile $profile"
        "$generate" $words >"$work/batch"
        both "$words"
    done
done
for profile in mixed trees exceptions waits suspends policies refusals; do
    words="random --seed 7 --lists $((20 * scale)) --calls 5000..6000 --profile $profile"
    "$generate" $words >"$work/batch"
    both "$words"
done

# Every list of up to 4 letters over small alphabets.
for alphabet in trees lives waits exceptions tokens policies; do
    words="exhaustive --alphabet $alphabet --depth 4"
    "$generate" $words >"$work/batch"
    both "$words"
done

# Damaged files, and lists cut at every byte.
words="damage --seed 5 --lists $((20000 * scale))"
"$generate" $words >"$work/batch"
both "$words"
words="random --seed 6 --lists $((100 * scale)) --calls 20..80"
"$generate" $words >"$work/lists"
python3 "$here/lists.py" cuts "$work/lists" >"$work/batch"
both "every cut of $words"
echo "in all: $all_lists lists, $all_calls calls, of these $((all_calls - all_refused)) answered by the Rust"

# -- The program itself -------------------------------------------------------------------------
# Lists by themselves, damaged ones too.
"$generate" random --seed 8 --lists 500 --calls 20..80 >"$work/batch"
"$generate" damage --seed 9 --lists 500 >>"$work/batch"
python3 "$here/lists.py" single "$programs/callrun" "$release/reference" "$work/batch"

# Long lists.
for profile in mixed trees exceptions waits suspends policies refusals information kills; do
    words="one --seed 3 --calls $((100000 * scale)) --profile $profile"
    "$generate" $words >"$work/long"
    "$programs/callrun" <"$work/long" >"$work/ours"
    "$release/reference" <"$work/long" >"$work/theirs"
    if ! cmp "$work/ours" "$work/theirs"; then
        echo "DIFFERENCE: $words"
        exit 1
    fi
    echo "$words: $(wc -l <"$work/theirs") lines, the same"
done

# The same bytes in parts, and ends of every kind.
"$generate" random --seed 10 --lists 40 --calls 20..200 >"$work/batch"
"$generate" damage --seed 11 --lists 40 >>"$work/batch"
python3 "$here/lists.py" parted "$programs/callrun" "$work/batch"
python3 "$here/lists.py" ends "$programs/callrun" "$work/long"
echo "compare.sh: no difference"
