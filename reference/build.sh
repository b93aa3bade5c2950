#!/bin/sh
# Builds the reference: build.sh SOURCES [OUT]. SOURCES is the folder that holds zircon-object/.
# All that is made (packages, copied and patched sources, programs) goes below OUT, by default the
# folder build/ next to this script.
set -eu

here=$(cd "$(dirname "$0")" && pwd)
sources=${1:?usage: build.sh SOURCES [OUT]}
sources=$(cd "$sources" && pwd)/zircon-object/src
out=${2:-$here/build}
mkdir -p "$out"
out=$(cd "$out" && pwd)
tree=$out/tree

copied="error.rs ipc/channel.rs object/mod.rs object/handle.rs signal/timer.rs task/mod.rs
    task/exception.rs task/job.rs task/job_policy.rs task/process.rs task/suspend_token.rs
    task/thread.rs"
libraries="librust-futures-dev librust-bitflags-dev librust-cfg-if-dev librust-downcast-rs-dev"

# The compiler, if the machine has none: Debian's own. The sources need Rust 1.65 or later, which
# Debian 12 has under the names for its browsers and later Debians under the plain ones.
need_compiler() {
    command -v cargo >/dev/null && command -v rustc >/dev/null && return
    apt-get update -qq
    apt-get install -y -qq --no-install-recommends cargo-web rustc-web libc6-dev ||
        apt-get install -y -qq --no-install-recommends cargo rustc libc6-dev
}

# The libraries with all they depend on, unpacked and not installed.
fetch_libraries() {
    [ -e "$out/packages/complete" ] && return
    mkdir -p "$out/packages"
    apt-cache show $libraries >/dev/null 2>&1 || apt-get update -qq
    names=$(apt-cache depends --recurse --no-recommends --no-suggests --no-conflicts --no-breaks \
        --no-replaces --no-enhances $libraries | grep '^librust-.*-dev$' | sort -u)
    (cd "$out/packages" && apt-get download -qq -o APT::Sandbox::User=root $names)
    for package in "$out"/packages/*.deb; do
        dpkg-deb -x "$package" "$out/libraries"
    done
    touch "$out/packages/complete"
}

# The copied sources, patched and with what is appended, between the stand-ins.
lay_sources() {
    fresh=$out/zircon-object.fresh
    rm -rf "$fresh"
    cp -R "$here/stand-ins/zircon-object" "$fresh"
    for file in $copied; do
        cp "$sources/$file" "$fresh/src/$file"
    done
    perl "$here/patches.pl" "$fresh/src"
    for file in $copied; do
        [ ! -e "$here/shown/$file" ] || cat "$here/shown/$file" >>"$fresh/src/$file"
    done
    # An unchanged tree keeps its times, so that cargo has nothing to do.
    if diff -r "$fresh" "$tree/zircon-object" >/dev/null 2>&1; then
        rm -rf "$fresh"
    else
        rm -rf "$tree/zircon-object"
        mv "$fresh" "$tree/zircon-object"
    fi
}

lay_tree() {
    mkdir -p "$tree/.cargo"
    lay_sources
    cp "$here/Cargo.toml" "$tree/Cargo.toml"
    for folder in src stand-ins tests; do
        ln -sfn "$here/$folder" "$tree/$folder"
    done
    printf '[source.crates-io]\nreplace-with = "debian"\n[source.debian]\ndirectory = "%s"\n' \
        "$out/libraries/usr/share/cargo/registry" >"$tree/.cargo/config.toml"
}

need_compiler
fetch_libraries
lay_tree
(cd "$tree" && CARGO_TARGET_DIR=$out/target cargo build --release --offline)
ls "$out/target/release/reference"
