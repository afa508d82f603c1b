#!/bin/sh
# Makes the package for Python from the C file: bindings/out/kombilad-VERSION.tar.gz, an sdist, and from it a wheel for Linux,
# bindings/out/kombilad-VERSION-cp39-abi3-manylinux_2_17_PROCESSOR.whl. It needs a C compiler and Debian's python3-dev, python3-venv,
# python3-wheel and python3-setuptools.
#
#     bindings/wheel.sh [--unproved]
#
# DIST is the folder of kombilad.c and kombilad.h. If it isn't set, it is dist/ of the repository. With --unproved the C file is made without
# proofs, and the files have the version VERSION+unproved and are in bindings/out/unproved.
set -eu
dist=$(realpath -m "${DIST:-$(dirname "$0")/../dist}")
cd "$(dirname "$0")"
NEEDS_RT=no
. ../.ci/start.sh
venv=$PWD/out/wheels
out=$PWD/out
mark=
case ${1:-} in
    "") ;;
    --unproved) mark=+unproved out=$out/unproved dist=$out/module ;;
    *) sed -n '6s/^# *//p' "$(basename "$0")" >&2; exit 2 ;;
esac
# The wheel is for each Linux whose C library has at least this version.
oldest_glibc=2.17
python=/usr/bin/python3
../.ci/needs --tools cc header:stdlib.h readelf $python header:Python.h python:ensurepip python:setuptools python:wheel
[ -z "$mark" ] || portable/make.py --unproved "$dist" kombilad > /dev/null
[ -e "$dist/kombilad.c" ] || { echo "wheel.sh: there is no $dist/kombilad.c: make it by bindings/portable/make.py $dist" >&2; exit 1; }

# The same commit gives the same bytes.
SOURCE_DATE_EPOCH=${SOURCE_DATE_EPOCH:-$(git log -1 --format=%ct HEAD 2> /dev/null || echo 315532800)}
export SOURCE_DATE_EPOCH

# A copy of the files that setup.py takes from the repository. The wheel has these modes, which don't depend on those of the checkout.
umask 022
stage=$out/python
rm -rf "$stage" "$out"/kombilad-*.whl "$out"/kombilad-*.tar.gz
mkdir -p "$stage/bindings" "$stage/dist"
cp -r python "$stage/bindings"
rm -rf "$stage/bindings/python/build" "$stage/bindings/python/src/kombilad.egg-info"
cp "$dist/kombilad.c" "$dist/kombilad.h" "$stage/dist"
cp ../LICENSE-APACHE ../LICENSE-MIT "$stage"
chmod -R u=rwX,go=rX "$stage"
[ -z "$mark" ] || sed -i "s/^version = \"[^\"]*/&$mark/; s/^description = \"/&UNPROVED: /" "$stage/bindings/python/pyproject.toml"

[ -x "$venv/bin/pip" ] || "$python" -m venv --system-site-packages "$venv"
# shellcheck disable=SC2016
(cd "$stage/bindings/python" && "$venv/bin/python" -c 'import sys, setuptools.build_meta as it; it.build_sdist(sys.argv[1])' "$out") > "$stage/log" 2>&1 ||
    { cat "$stage/log" >&2; exit 1; }
CFLAGS="${CFLAGS:-} -Wall -Wextra -Werror" "$venv/bin/pip" wheel -q --no-index --no-deps --no-build-isolation -w "$out" \
    --config-settings="--build-option=--plat-name=manylinux_$(echo $oldest_glibc | tr . _)_$(uname -m)" "$out"/kombilad-*.tar.gz

"$python" -m zipfile -e "$out"/kombilad-*.whl "$stage/wheel"
newest=$({ readelf -V "$stage/wheel/kombilad/_native.abi3.so" | grep -o 'GLIBC_[0-9.]*' | cut -d _ -f 2; echo $oldest_glibc; } | sort -V | tail -n 1)
[ "$newest" = $oldest_glibc ] || { echo "wheel.sh: the extension module needs glibc $newest, and the wheel's name says $oldest_glibc" >&2; exit 1; }
ls "$out"/kombilad-*.tar.gz "$out"/kombilad-*.whl
