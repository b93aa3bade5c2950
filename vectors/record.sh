#!/bin/sh
# Records everything here and the packs of the program `replay` anew: record.sh FOLDER. FOLDER is a built reference (the
# OUT of ../reference/build.sh) or the folder of the Rust sources, which is then built first. The same sources give the
# same bytes.
set -eu

here=$(cd "$(dirname "$0")" && pwd)
folder=$(cd "${1:?usage: record.sh BUILT|SOURCES}" && pwd)
packs=$here/../crates/replay/data
work=$(mktemp -d)
trap 'rm -rf "$work"' EXIT
export PYTHONDONTWRITEBYTECODE=1

if [ ! -x "$folder/target/release/generate" ]; then
    "$here/../reference/build.sh" "$folder" "$work/built" >&2
    folder=$work/built
fi
generate=$folder/target/release/generate

# The named lists; the long one about counts has a pack of its own.
rm -rf "$here/named"
mkdir "$here/named"
python3 "$here/named.py" batch "$here/named.txt" short | "$generate" pack >"$packs/named.pack"
python3 "$here/named.py" batch "$here/named.txt" long | "$generate" pack >"$packs/counts.pack"
python3 "$here/named.py" texts "$here/named.txt" "$packs/named.pack" "$packs/counts.pack" "$here/named"

# The random lists: every profile, a few long ones and damaged files.
{
    for profile in trees exceptions waits suspends policies refusals; do
        "$generate" random --seed 1 --lists 36 --calls 20..60 --profile $profile
        "$generate" random --seed 2 --lists 1 --calls 400 --profile $profile
    done
    "$generate" random --seed 3 --lists 24 --calls 20..60
    "$generate" damage --seed 4 --lists 48
} >"$work/random"
"$generate" pack <"$work/random" >"$packs/random.pack"

python3 "$here/coverage.py" "$here/named.txt" "$packs/named.pack" "$packs/counts.pack" "$packs/random.pack" \
    >"$here/COVERAGE.md"

# The examples of the manual, each held to the Rust.
python3 "$here/manual.py" "$folder/target/release/reference" "$here/../docs/MANUAL.md" "$packs/manual.pack"
