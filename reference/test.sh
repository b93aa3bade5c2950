#!/bin/sh
# Runs the reference on document 01's listing, on one named list for each of M2 to M12 and on the
# orders of refusal: test.sh [OUT], after build.sh. Expected lines are written from document 01. M1
# is in tests/library.rs.
set -eu

here=$(cd "$(dirname "$0")" && pwd)
out=$(cd "${1:-$here/build}" && pwd)
scratch=$(mktemp -d)
trap 'rm -rf "$scratch"' EXIT
failed=0

# list NAME BYTES: runs the bytes, hexadecimal and grouped at will; the expected lines come on
# standard input.
list() {
    cat >"$scratch/expected"
    printf '%s' "$2" | perl -0ne 's/\s//g; print pack "H*", $_' |
        "$out/target/release/reference" >"$scratch/written" || failed=1
    if diff "$scratch/expected" "$scratch/written" >"$scratch/difference"; then
        echo "ok      $1"
    else
        failed=1
        echo "FAILED  $1"
        cat "$scratch/difference"
    fi
}

# Like list, for a run of answers without fields: numbers from 1 are put before them.
answers() {
    awk '{ for (i = 1; i <= NF; i++) print ++n, $i }' | list "$1" "$2"
}

. "$here/tests/lists.sh"

cd "$out/tree"
export CARGO_TARGET_DIR="$out/target"
cargo test --quiet --release --offline --test library || failed=1
exit $failed
