#!/bin/sh
# Tests the files that build.sh, wheel.sh and wasm.sh make with --unproved: that each is marked in its name, that a call of each works, that the
# proved files don't change, and that release.sh rejects them.
#
# It makes them first, which takes about 60 core seconds after the module is made. It doesn't need cargo or a browser.
set -eu
[ -z "${DIST:-}" ] || DIST=$(realpath "$DIST")
cd "$(dirname "$0")/.."
out=$PWD/out
made=$out/unproved
tests=$made/tests
python=/usr/bin/python3
version=$(cat ../VERSION)

said() { echo "bindings/test/unproved.sh: $*"; }
failed() { said "$*"; exit 1; }
../.ci/needs --tools rt git cc header:stdlib.h ar ld objcopy readelf $python header:Python.h python:ensurepip python:setuptools python:wheel clang wasm-ld node npm ||
    failed "nothing was tested: install what is listed above"

# Prints the name, the size and the time of each file except the unproved ones. portable/test.sh may run at the same time, and writes into
# out/portable.
others() {
    [ ! -d "$out" ] || find "$out" \( -path "$made" -o -path "$out/wheels" -o -path "$out/portable" \) -prune -o ! -type d -printf '%p %s %T@\n' | sort
}
before=$(others)
rm -rf "$made"
./build.sh --unproved > /dev/null
./wheel.sh --unproved > /dev/null
DIST=$made/module ./wasm.sh --unproved > /dev/null
mkdir -p "$tests"
[ "$before" = "$(others)" ] || failed "a build with --unproved changed files outside of $made"

# ---- The libraries for C

readelf -d "$made/libkombilad-unproved.so.0" | grep -qF '[libkombilad-unproved.so.0]' || failed "the shared library has another name inside than libkombilad-unproved.so.0"
text=QmdfTbBqBPQ7VNxZEYEj14VmRuZBkqFbiwReogJgS1zR1n
"$python" - "$made/libkombilad-unproved.so.0" "$version" "$text" << 'END'
import ctypes, sys

library, (major, minor, patch), text = ctypes.CDLL(sys.argv[1]), map(int, sys.argv[2].split(".")), sys.argv[3].encode()
assert library.kombilad_version() == major << 16 | minor << 8 | patch, hex(library.kombilad_version())
cid = (ctypes.c_ubyte * 256)()
assert library.kombilad_cid_from_text(text, ctypes.c_size_t(len(text)), cid, ctypes.byref(ctypes.c_size_t())) == 0
END
cat > "$tests/version.c" << 'END'
#include "kombilad.h"
int main(void) { return kombilad_version() == 0; }
END
cc -Ic "$tests/version.c" "$made/libkombilad-unproved.a" -o "$tests/version"
"$tests/version"
said "the libraries for C: ok"

# ---- The wheel

"$python" -m venv "$tests/venv"
"$tests/venv/bin/pip" install -q --no-index --no-deps "$made/kombilad-$version+unproved"-*.whl
printf '\202\330\052\105\000\001\125\000\000\101\001' > "$tests/block"
"$tests/venv/bin/python" - "$version" "$text" "$tests/block" << 'END'
import importlib.metadata, sys, kombilad

assert importlib.metadata.version("kombilad") == f"{sys.argv[1]}+unproved" and kombilad.version() == sys.argv[1]
assert str(kombilad.Cid(sys.argv[2])) == sys.argv[2]
block = open(sys.argv[3], "rb").read()
assert kombilad.encode_dag_cbor(kombilad.decode_dag_cbor(block)) == block and [str(cid) for cid in kombilad.links(block)] == ["bafkqaaa"]
END
said "the wheel: ok"

# ---- The package for npm

echo '{ "private": true, "type": "module" }' > "$tests/package.json"
(cd "$tests" && npm install --offline --no-audit --no-fund --loglevel=error "$made/kombilad-$version-unproved.tgz" > log 2>&1) || { cat "$tests/log"; exit 1; }
cat > "$tests/links.js" << 'END'
import { readFileSync } from 'node:fs'
import { CID, links } from 'kombilad'

const { version } = JSON.parse(readFileSync('node_modules/kombilad/package.json'))
console.log(version, String(CID.parse(process.argv[2])), ...links(readFileSync('block')).map(String))
END
(cd "$tests" && node links.js "$text") > "$tests/seen"
[ "$(cat "$tests/seen")" = "$version-unproved $text bafkqaaa" ] || failed "the package prints $(cat "$tests/seen")"
said "the package for npm: ok"

# ---- A release

if git -C .. rev-parse -q --verify HEAD > /dev/null 2>&1; then
    # In a separate checkout, in which the unproved files get the names of the proved ones. rt stops at a repository in another one.
    another=$(mktemp -d)
    trap 'rm -rf "$another"' EXIT
    git clone -q --shared .. "$another/checkout"
    cp release.sh "$another/checkout/bindings/"
    dist=$another/checkout/dist
    into=$another/checkout/bindings/out
    mkdir -p "$into" "$dist"
    refused() {
        ! DIST="" BUILT=yes "$another/checkout/bindings/release.sh" --uncommitted "$another/release" > "$tests/log" 2>&1 || failed "release.sh took an unproved $1"
        grep -q "$1.* is not of the proved library" "$tests/log" || { cat "$tests/log"; failed "release.sh didn't name the unproved $1"; }
        [ ! -e "$another/release" ] || failed "release.sh left something of what it refused"
    }
    cp "$made/module/kombilad.c" "$dist"
    refused dist/kombilad.c
    cp "${DIST:-../dist}/kombilad.c" "$dist"
    cp "$made/kombilad-$version+unproved.tar.gz" "$into/kombilad-$version.tar.gz"
    refused "kombilad-$version.tar.gz"
    # release.sh recognizes a proved file by its name and its version.
    mkdir "$another/kombilad-$version" "$another/kombilad-$version.dist-info"
    echo "Version: $version" > "$another/kombilad-$version/PKG-INFO"
    tar -C "$another" -czf "$into/kombilad-$version.tar.gz" "kombilad-$version"
    wheel=$into/kombilad-$version-cp39-abi3-any.whl
    cp "$made/kombilad-$version+unproved"-*.whl "$wheel"
    refused "the wheel"
    "$python" -m zipfile -c "$wheel" "$another/kombilad-$version.dist-info"
    cp "$made/kombilad-$version-unproved.tgz" "$into/kombilad-$version.tgz"
    refused "kombilad-$version.tgz"
    said "release.sh refuses them: ok"
else
    said "SKIPPED: release.sh was not tested, since these sources are not a clone of the repository. Check them out by git to test it"
fi
said "ok"
