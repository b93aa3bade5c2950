#!/bin/sh
# Builds callrun once more for fuzzing: instrument.sh OUT. The compiler's module with its assumptions checked (the one
# that `rt try` runs) is taken on its way to clang and compiled with AFL++'s coverage: a broken assumption traps.
set -eu

here=$(cd "$(dirname "$0")/.." && pwd)
out=$(realpath -m "${1:?usage: instrument.sh OUT}")
kit=$(dirname "$(rt doc)")
work=$(mktemp -d)
trap 'rm -rf "$work"' EXIT

# The kit as it is, but for a clang that keeps each module it is handed.
mkdir -p "$work/kit/bin" "$work/kit/toolchain/bin"
for it in "$kit"/*; do
    case ${it##*/} in bin | toolchain) ;; *) ln -s "$it" "$work/kit/" ;; esac
done
for it in "$kit"/bin/*; do
    case ${it##*/} in rt | rtlib.py) cp "$it" "$work/kit/bin/" ;; *) ln -s "$it" "$work/kit/bin/" ;; esac
done
ln -s "$kit/toolchain/lib" "$work/kit/toolchain/lib"
for it in "$kit"/toolchain/bin/*; do ln -s "$it" "$work/kit/toolchain/bin/"; done
rm "$work/kit/toolchain/bin/clang"
cat >"$work/kit/toolchain/bin/clang" <<END
#!/bin/sh
for word in "\$@"; do case \$word in *.bc) cp "\$word" "$work/module.bc" ;; esac; done
exec "$kit/toolchain/bin/clang" "\$@"
END
chmod +x "$work/kit/toolchain/bin/clang"

# The module with the assumptions checked comes last.
(cd "$here/crates/callrun" && "$work/kit/bin/rt" try <stdin) | cmp - "$here/crates/callrun/stdout"

"$kit/toolchain/bin/clang" --target=x86_64-unknown-linux-gnu -mllvm -trap-unreachable --no-default-config -fPIE -O1 \
    -fsanitize-coverage=trace-pc-guard -c -x ir "$work/module.bc" -o "$work/module.o"
cc -pie "$work/module.o" "$kit/c/libos_c.a" "$kit/c/liblibc_c.a" /usr/lib/afl/afl-compiler-rt.o -o "$out"
