#!/bin/sh
# Makes bindings/out/libkombilad.a and libkombilad.so.0 from the proved library for x86-64. Tests compare the C file and the module for
# WebAssembly with it. In a fresh clone it first proves and builds the library, which takes minutes. It needs rt, a C compiler and
# binutils. It writes only into bindings/out and the crates' out.
#
#     bindings/build.sh [--unproved]
#
# With --unproved it doesn't prove anything, and makes libkombilad-unproved.a and libkombilad-unproved.so.0 in bindings/out/unproved. They
# have the same code, but it stops at an overflow or an index out of bounds.
set -eu
cd "$(dirname "$0")"
. ../.ci/start.sh
out=$PWD/out
mark=
case ${1:-} in
    "") ;;
    --unproved) mark=-unproved out=$out/unproved ;;
    *) sed -n '6s/^# *//p' "$(basename "$0")" >&2; exit 2 ;;
esac
name=libkombilad$mark
cc=${CC:-cc}
../.ci/needs --tools rt header:stdlib.h ar ld objcopy
command -v "$cc" > /dev/null || { echo "build.sh: there is no C compiler $cc: install gcc, or set CC" >&2; exit 1; }

if [ -n "$mark" ]; then
    library=$(../.ci/quick.py --library kombilad_c)
else
    library=$(../.ci/static-library kombilad_c)
fi

mkdir -p "$out"
"$cc" -std=c11 -O2 -fPIC -Wall -Wextra -Werror -c c/alloc.c -o "$out/alloc.o"

# One object in which only the calls are visible, so that a program may contain another library of the same toolchain.
object=$out/kombilad$mark.o
ld -r --whole-archive "$library" --no-whole-archive "$out/alloc.o" -o "$object"
objcopy --wildcard --keep-global-symbol='kombilad_*' "$object"
rm -f "$out/$name.a"
ar rcsD "$out/$name.a" "$object"

"$cc" -shared -o "$out/$name.so.0" "$object" -Wl,-soname,$name.so.0 -Wl,-z,defs -Wl,--version-script=c/kombilad.map
ln -sf "$name.so.0" "$out/$name.so"
echo "$out/$name.a"
echo "$out/$name.so.0"
