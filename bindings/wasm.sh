#!/bin/sh
# Makes bindings/out/wasm/kombilad.wasm from the C file: the library for WebAssembly with 32-bit memory. From it makes the package for
# JavaScript, bindings/out/kombilad-VERSION.tgz, and the inspector, bindings/out/inspector. It needs clang and LLVM's linker, wasm-ld.
#
#     bindings/wasm.sh [--unproved] [--heap MIB]      MIB is the most memory that it may have, from 5 to 4095 (4095 if left out)
#
# DIST is the absolute path of the folder with kombilad.c and kombilad.h. If it isn't set, it is dist/ of the repository. With --unproved the
# package is bindings/out/unproved/kombilad-VERSION-unproved.tgz, and the other files are in bindings/out/unproved too. If DIST isn't set then,
# the C file is first made without proofs. docs/BINDINGS.md describes each step, and which properties of the result are proved.
set -eu
cd "$(dirname "$0")"
# shellcheck disable=SC2034
NEEDS_RT=no
. ../.ci/start.sh
out=$PWD/out
heap=4095
mark=
if [ "${1:-}" = --unproved ]; then
    mark=-unproved out=$out/unproved
    shift
fi
dist=${DIST:-$(cd .. && pwd)/dist}
made=$out/wasm
case ${1:-} in
    "") ;;
    --heap) heap=${2:-0} ;;
    *) sed -n '5s/^# *//p' "$(basename "$0")" >&2; exit 2 ;;
esac
[ "$heap" -ge 5 ] && [ "$heap" -le 4095 ] || { echo "wasm.sh: --heap takes a number from 5 to 4095" >&2; exit 2; }
../.ci/needs --tools clang wasm-ld
if [ -n "$mark" ] && [ -z "${DIST:-}" ]; then
    dist=$out/module
    portable/make.py --unproved "$dist" > /dev/null
fi
[ -e "$dist/kombilad.c" ] || { echo "wasm.sh: there is no $dist/kombilad.c: make it by bindings/portable/make.py $dist" >&2; exit 1; }
if [ -z "$mark" ] && grep -qF "NOTHING OF THIS FILE IS PROVED" "$dist/kombilad.c"; then
    echo "wasm.sh: $dist/kombilad.c is made without proofs: run wasm.sh --unproved, or make the file by bindings/portable/make.py $dist" >&2
    exit 1
fi
mkdir -p "$made"

# 1. Compile, with the instructions that Node 18, Chrome 91, Firefox 89 and Safari 16.4 support. Vectorized loops, unrolled loops and more
# inlined functions would make the module larger, but not faster. Without __int128 a product of 128 bits isn't a call of a library.
target="--target=wasm32-unknown-unknown -mbulk-memory -msign-ext -msimd128 -ffreestanding -U__SIZEOF_INT128__"
size="-O2 -mllvm -inline-threshold=60 -fno-vectorize -fno-slp-vectorize -fno-unroll-loops -ffunction-sections -fdata-sections"
for source in "$dist/kombilad.c" wasm/heap.c; do
    # shellcheck disable=SC2086
    clang $target $size -std=c99 -Wall -Wextra -Werror -fstack-usage -Iwasm/include -DHEAP_BOUND=$((heap * 1048576))u \
        -c "$source" -o "$made/$(basename "$source" .c).o"
done

# 2. Link. The stack is below all other memory, so an overflow of the stack leaves the memory and traps. The library recurses for at most
# 32 levels of its input, so no call needs more stack than 33 times the sum of all frames.
stack=4194304
frames=$(awk -F '\t' '$3 != "static" { exit 1 } { sum += $2 } END { print sum }' "$made/kombilad.su" "$made/heap.su")
[ "$frames" -gt 0 ] && [ $((33 * frames)) -le $stack ] || { echo "wasm.sh: the frames of all functions take $frames bytes, too many" >&2; exit 1; }
link="wasm-ld --no-entry --stack-first --gc-sections --strip-all -O2 --compress-relocations --fatal-warnings --threads=1"
# The functions that JavaScript calls.
exports="$(cat js/src/*.js | sed -n 's/.*calls\.\(kombilad_[a-z0-9_]*\)(.*/--export=\1/p' | sort -u) --export=kombilad_wasm_live"
# shellcheck disable=SC2086
$link -z stack-size=$stack --max-memory=$((heap * 1048576)) $exports "$made/kombilad.o" "$made/heap.o" -o "$made/kombilad.wasm"
# The heap for its own test. Its memory ends before its bound.
$link -z stack-size=65536 --max-memory=16777216 --export-all "$made/heap.o" -o "$made/heap.wasm"

# 3. Make the package and the inspector.
package=$out/js/package
rm -rf "$out/js" "$out/inspector"
mkdir -p "$package" "$out/inspector"
cp -r js/package.json js/README.md js/src ../LICENSE-APACHE ../LICENSE-MIT "$package"
# The package contains the module as text, so every bundler includes it, and no server has to know its type.
printf "export const base64 =\n  '%s'\n" "$(base64 -w 0 "$made/kombilad.wasm")" > "$package/src/module.js"
# The comments are removed, since the declarations document the package.
sed -i -E '/^ *\/\*\*.*\*\/$/d; /^ *\/\*\*/,/\*\/$/d; /^ *\/\//d' "$package"/src/*.js
version=$(cat ../VERSION)$mark
[ -z "$mark" ] || sed -i "s/^  \"version\": \".*\"/  \"version\": \"$version\"/; s/^  \"description\": \"/&UNPROVED: /" "$package/package.json"
tar -C "$out/js" --sort=name --owner=0 --group=0 --numeric-owner --mode='u=rwX,go=rX' --mtime='1980-01-01 00:00Z' -cf - package | gzip -9n > "$out/kombilad-$version.tgz"
cp js/inspector/* js/src/*.js "$package/src/module.js" "$out/inspector"
echo "$made/kombilad.wasm"
echo "$out/kombilad-$version.tgz"
echo "$out/inspector"
