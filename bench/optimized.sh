#!/bin/sh
# Builds the program as the compiler optimizes it, without proving it, to measure one commit beside another: proving takes an hour or
# more of each, and the build that `./wafl` makes at first isn't optimized, and tests each access to memory.
#
#   sh bench/optimized.sh PROGRAM       builds the sources that this script stands beside, into the file PROGRAM; some seven minutes and
#                                       2 GB, most of them clang's
#
# Tests of each index and sum stay in it, which a proved build doesn't have: so figures of two such builds are compared with each other,
# and no figure of one is the program's own. It takes apart what `rt try` does: its clang is one that keeps the module that it is given.
set -eu
root=$(cd "$(dirname "$0")/.." && pwd)
program=$(realpath -m "${1:?a file to build into has to be named}")
own=$(readlink -f "$(command -v rt)") || { echo 'optimized.sh: rt does not run here' >&2; exit 70; }
kit=${own%/bin/*}
room=$(mktemp -d)
trap 'rm -rf "$room"' EXIT

mkdir -p "$room/kit/bin" "$room/kit/toolchain/bin" "$room/try"
# These two look for the kit from where they themselves are.
cp "$own" "$kit/bin/rtlib.py" "$room/kit/bin"
{
    ln -s "$kit"/* "$room/kit"
    ln -s "$kit"/bin/* "$room/kit/bin"
    ln -s "$kit"/toolchain/* "$room/kit/toolchain"
    ln -s "$kit"/toolchain/bin/* "$room/kit/toolchain/bin"
} 2> /dev/null || true

# replace FILE TEXT : puts this script in the place of a file of the kit.
replace() { rm -f "$room/kit/$1" && printf '#!/bin/sh\n%s\n' "$2" > "$room/kit/$1" && chmod 755 "$room/kit/$1"; }

replace bin/rattle 'exit 0'
# Small modules are those by which the compiler is tried first.
replace toolchain/bin/clang 'case "$*" in
*module.bc*) [ "$(wc -c < module.bc)" -lt 100000 ] || { cp module.bc "'"$room"'/module.bc"; exit 1; } ;;
esac
exec "'"$kit"'/toolchain/bin/clang" "$@"'
cd "$root/crates/wafl"
TMPDIR=$room/try "$room/kit/bin/${own##*/}" try -- --help > "$room/log" 2>&1 || true
[ -s "$room/module.bc" ] || { echo 'optimized.sh: no module was made; rt try said:' >&2; tail -n 20 "$room/log" >&2; exit 70; }
"$kit/toolchain/bin/clang" --target=x86_64-unknown-linux-gnu --sysroot="$kit/toolchain" -march=x86-64 -mllvm -trap-unreachable \
    -ffunction-sections -fdata-sections --no-default-config -c -x ir "$room/module.bc" -o "$room/module.o" -fPIE -O3
"$kit/bin/rattle-link" --target x86_64-unknown-linux-gnu --toolchain "$kit/toolchain" -o "$program" "$room/module.o" \
    "$kit/c/liblibc_c.a" "$kit/c/libos_c.a"
