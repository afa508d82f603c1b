#!/bin/sh
# Tests the module for WebAssembly and the package for JavaScript: the module against the native library, the package in Node as it
# installs from its tarball, its declarations by tsc, bundles of it and the inspector in Chromium.
#
# bindings/test.sh calls it, after build.sh. Its tools are in .ci/needs.txt; where the variable CI is `true` it installs those that are missing.
# A Node that is there stays. CASES is how many blocks are compared, LIBRARY with which native library, and DIST the folder of the C file.
set -eu
cd "$(dirname "$0")"
cases=${CASES:-20000}

said() { echo "bindings/js/test.sh: $*"; }
install=
[ "${CI:-}" != true ] || install=--install
# shellcheck disable=SC2086
../../.ci/needs $install --tools clang wasm-ld node npm tsc esbuild rollup chromium || { said "nothing was tested: install what is listed above"; exit 1; }

out=$(cd .. && pwd)/out
version=$(cat ../../VERSION)
tests=$out/tests/js
rm -rf "$tests"
mkdir -p "$tests"
[ -n "${BUILT:-}" ] || ../wasm.sh > /dev/null

# ---- The heap

python3 ../wasm/faults.py --check

HEAP=$out/wasm/heap.wasm node --test test/heap.test.mjs > "$tests/log" 2>&1 || { cat "$tests/log"; exit 1; }
said "the heap: ok"

# ---- The module, against the native library

python3 -B ../test/native_cases.py "${LIBRARY:-$out/libkombilad.so.0}" "$tests/cases" "$cases"
PACKAGE=$out/js/package CASES=$tests/cases node --test test/native.test.mjs > "$tests/log" 2>&1 || { cat "$tests/log"; exit 1; }
grep -h '^# [a-z_]* [0-9]*,' "$tests/log"
rm "$tests/cases"

# ---- What is shipped

module=$(gzip -9c "$out/wasm/kombilad.wasm" | wc -c)
package=$(wc -c < "$out/kombilad-$version.tgz")
[ "$module" -le 198656 ] || { said "the module takes $module bytes by gzip, more than 194 KiB"; exit 1; }
[ "$package" -le 308224 ] || { said "the package has $package bytes, more than 301 KiB"; exit 1; }
said "the package has $package bytes, of which its module takes $module by gzip"

# ---- The package, as it installs

grep -q "\"version\": \"$version\"" package.json || { said "package.json has another version than VERSION"; exit 1; }
echo '{ "private": true, "type": "module" }' > "$tests/package.json"
(cd "$tests" && npm install --offline --no-audit --no-fund --loglevel=error "$out/kombilad-$version.tgz" > log 2>&1) || { cat "$tests/log"; exit 1; }
cp test/types/use.ts "$tests/use.mts"
python3 -B ../test/car_cases.py "$tests/cars" "$cases"
CARS=$tests/cars HEADER=../c/kombilad.h PACKAGE=$tests/node_modules/kombilad node --test test/api.test.mjs test/car.test.mjs > "$tests/log" 2>&1 || { cat "$tests/log"; exit 1; }
PYTHONPATH=../.. python3 -B ../test/file_cases.py "$tests/files"
PYTHONPATH=../.. python3 -B test/folder_cases.py "$tests/folders"
FILES=$tests/files FOLDERS=$tests/folders PACKAGE=$tests/node_modules/kombilad node --test test/file.test.mjs test/folder.test.mjs test/pack.test.mjs > "$tests/log" 2>&1 || { cat "$tests/log"; exit 1; }
said "the package in Node $(node --version): ok"
(cd "$tests" && tsc --strict --module node16 --moduleResolution node16 --target es2022 --lib es2022,dom use.mts)
said "its declarations: ok"

# ---- In bundles

cp test/bundled.js "$tests"
bundle() { esbuild "$tests/bundled.js" --bundle --minify --log-level=warning "$@"; }
# Vite's default targets.
targets=--target=es2020,edge88,firefox78,chrome87,safari14
bundle --format=esm "$targets" --outfile="$tests/bundle/esm.js"
bundle --format=iife "$targets" --outfile="$tests/bundle/iife.js"
bundle --format=cjs --platform=node --outfile="$tests/bundle/node.cjs"
cp test/rollup.config.mjs "$tests"
(cd "$tests" && rollup --silent --config rollup.config.mjs > log 2>&1) || { cat "$tests/log"; exit 1; }
node test/bundle.mjs "$tests/bundle"
said "bundles by esbuild and Rollup in Chromium and Node: ok"

# ---- What docs/BINDINGS.md and the README show

sed -n '/^```js$/,/^```$/{/^```/d;/./p}' ../../docs/BINDINGS.md | while read -r line; do grep -qxF "$line" examples/links.js || { said "examples/links.js has no line: $line"; exit 1; }; done
cp examples/links.js "$tests"
printf '\202\330\052\105\000\001\125\000\000\330\052\130\043\000\022\040\343\260\304\102\230\374\034\024\232\373\364\310\231\157\271\044\047\256\101\344\144\233\223\114\244\225\231\033\170\122\270\125' > "$tests/block"
printf 'bafkqaaa\nQmdfTbBqBPQ7VNxZEYEj14VmRuZBkqFbiwReogJgS1zR1n\n' > "$tests/expected"
node "$tests/links.js" "$tests/block" | cmp - "$tests/expected"
sed -n '/^```js$/,/^```$/{/^```/d;p}' README.md > "$tests/readme.js"
node "$tests/readme.js"
(cd "$tests" && sed -n '/^node -e /p' ../../../js/README.md | sh) | grep -qx 1
node "$tests/use.mjs"
said "what the documents show: ok"

# ---- The inspector

node test/inspector.mjs "$out/inspector" "$tests"
said "the inspector in Chromium: ok"
