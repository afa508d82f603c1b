#!/bin/sh
# Tests libkombilad and the packages for C, C++, Rust, Python, JavaScript and Go. It tests each call with buffers that are too short and with
# allocations that fail, threads, 10,000,000 nested lists, and the programs in pages. It compares random blocks, nodes of DAG-PB and CARs with
# an independent reader.
#
# The library for x86-64 is the one that `rt ci` or `rt lib` proved and built. The packages are built from the C file that portable/make.py
# makes from the same module, or from the one in the folder DIST. At first `.ci/needs bindings` checks for the tools of this script and of the
# scripts that it calls. If the variable CI is `true`, it installs the missing ones. The script writes into bindings/out, and a checkout into a
# temporary folder.
set -eu
[ -z "${DIST:-}" ] || DIST=$(realpath "$DIST")
cd "$(dirname "$0")"
. ../.ci/start.sh
registry=/usr/share/cargo/registry
blocks=${BLOCKS:-10000}
python=/usr/bin/python3

said() { echo "bindings/test.sh: $*"; }

install=
[ "${CI:-}" != true ] || install=--install
# shellcheck disable=SC2086
../.ci/needs $install bindings || { said "nothing was tested: install what is listed above"; exit 1; }

./build.sh > /dev/null
out=$PWD/out
tests=$out/tests
rm -rf "$tests"
mkdir -p "$tests"
if [ -z "${DIST:-}" ]; then
    DIST=$out/portable
    portable/make.py "$DIST" kombilad > /dev/null
fi
export DIST

# The packages, and the C file at the same relative path as in the repository.
copy=$tests/kombilad
mkdir -p "$copy/bindings" "$copy/dist"
cp -r c rust "$copy/bindings"
cp "$DIST/kombilad.c" "$DIST/kombilad.h" "$copy/dist"

# ---- The package for C

prefix=$tests/prefix
quietly() { "$@" > "$tests/log" 2>&1 || { cat "$tests/log"; exit 1; }; }
quietly cmake -S "$copy/bindings/c" -B "$tests/c" -DCMAKE_C_FLAGS_RELEASE=-O2 -DCMAKE_C_FLAGS="-Wall -Wextra -Werror" \
    -DCMAKE_POSITION_INDEPENDENT_CODE=ON -DCMAKE_INSTALL_PREFIX="$prefix"
quietly cmake --build "$tests/c"
quietly cmake --install "$tests/c"

# ---- The exported symbols, and the numbers in the header, the bindings and the definitions

python3 test/exports.py "$out/libkombilad.a" "$out/libkombilad.so.0" "$prefix/lib/libkombilad.a"
python3 test/statuses.py

# ---- C and C++

warnings="-Wall -Wextra -Werror"
wrapped="-Wl,--wrap=malloc,--wrap=realloc,--wrap=free"
# shellcheck disable=SC2086
{
    cc -std=c11 -g -O1 $warnings -fsanitize=address,undefined -fno-sanitize-recover=all -Ic test/calls.c "$out/libkombilad.a" $wrapped -pthread -o "$tests/calls-sanitized"
    "$tests/calls-sanitized"
    for library in "$out/libkombilad.a" "$prefix/lib/libkombilad.a"; do
        cc -std=c11 -O2 $warnings -I"$copy/dist" test/calls.c "$library" $wrapped -pthread -o "$tests/calls"
        # shellcheck disable=SC3045
        (ulimit -s 512 && "$tests/calls" && "$tests/calls" deep)
    done
}

export PKG_CONFIG_PATH="$prefix/lib/pkgconfig"
# shellcheck disable=SC2046,SC2086
g++ -std=c++11 -O2 $warnings test/calls.cpp $(pkg-config --cflags --libs kombilad) -o "$tests/calls-in-c++"
"$tests/calls-in-c++"

# ---- Rust

export CARGO_TARGET_DIR="$out/rust"
export CARGO_NET_OFFLINE=true
# Runs cargo with the crates of Debian's packages.
with_debian() {
    command=$1
    shift
    cargo "$command" -q --config 'source.crates-io.replace-with="debian"' --config "source.debian.directory=\"$registry\"" "$@" \
        > "$tests/rust.log" 2>&1 || { cat "$tests/rust.log"; exit 1; }
}
rust=$copy/bindings/rust
python3 -B test/car_cases.py "$tests/cars" "$blocks"
export CARS="$tests/cars"
PYTHONPATH=.. python3 -B test/unixfs_cases.py "$tests/unixfs"
export UNIXFS="$tests/unixfs"
with_debian test --manifest-path "$rust/Cargo.toml"
said "Rust: ok"
with_debian test --no-default-features --test calls --test car --test values --test unixfs --test packer --test unixfs_memory --manifest-path "$rust/Cargo.toml"
said "Rust without serde: ok"
RUSTDOCFLAGS="-D warnings" with_debian doc --no-deps --manifest-path "$rust/Cargo.toml"
said "Rust, documentation: ok"
with_debian build --examples --manifest-path "$rust/Cargo.toml"
# With installed libraries: the static one of the package for C, and the shared one for x86-64.
KOMBILAD_LIB_DIR=$prefix/lib with_debian test --manifest-path "$rust/kombilad-cid/Cargo.toml"
said "Rust, over a static library and with $(basename "$(echo "$registry"/cid-[0-9]*)"): ok"
KOMBILAD_LIB_DIR=$out LD_LIBRARY_PATH=$out with_debian test --test calls --test car --test values --test typed --manifest-path "$rust/Cargo.toml"
said "Rust, over a shared library: ok"

# ---- Python

./wheel.sh > /dev/null
"$python" -m venv "$tests/venv"
"$tests/venv/bin/pip" install -q --no-index --no-deps "$out"/kombilad-*.whl
"$tests/venv/bin/python" test/doctests.py
"$tests/venv/bin/python" test/calls.py
"$tests/venv/bin/python" test/car.py
"$tests/venv/bin/python" test/multibase.py
PYTHONPATH=$PWD/.. "$tests/venv/bin/python" -B test/files.py
PYTHONPATH=$PWD/.. "$tests/venv/bin/python" -B test/pack.py
PYTHONPATH=$PWD/.. "$tests/venv/bin/python" -B test/indexed_cars.py
"$tests/venv/bin/python" test/random_blocks.py "$blocks"
"$tests/venv/bin/python" test/random_pb.py "$blocks"
"$tests/venv/bin/python" test/random_cars.py "$blocks"
# They compare with cbor2 too, if it is installed.
PYTHONPATH=/usr/lib/python3/dist-packages "$tests/venv/bin/python" test/values.py "$blocks"
PYTHONPATH=/usr/lib/python3/dist-packages "$tests/venv/bin/python" test/missing_blocks.py "$tests/missing"

for module in "-p kombilad" test/typed.py; do
    # shellcheck disable=SC2086
    MYPYPATH=python/src mypy --strict --no-error-summary --cache-dir="$tests/mypy" $module
done
said "the types of the package: ok"

# The package with three other extension modules. The first records at some calls whether the interpreter's lock is held. In the second
# allocations of libkombilad fail. In the third they fail too, and its own C code is compiled with the sanitizers.
installed=$("$tests/venv/bin/python" -c 'import kombilad, pathlib; print(pathlib.Path(kombilad.__file__).parent)')
(cd "$tests" && ar x "$prefix/lib/libkombilad.a")
library=$tests/kombilad.c.o
include="-I$copy/dist -Ipython/native -I$("$python" -c 'import sysconfig; print(sysconfig.get_path("include"))')"
# module NAME WORD..: puts the package into the folder NAME, with an extension module that cc builds with these words.
module() {
    name=$1
    shift
    mkdir "$tests/$name"
    cp -r "$installed" "$tests/$name/"
    # shellcheck disable=SC2086
    cc -std=c11 -fPIC -shared $warnings $include python/native/*.c "$@" -o "$tests/$name/kombilad/_native.abi3.so"
}
failing="test/failing.c -Wl,--wrap=malloc,--wrap=realloc"
sanitizers="-g -O1 -fsanitize=address,undefined -fno-sanitize-recover=all"
renamed=
for name in kombilad_tape kombilad_block_at kombilad_block_check kombilad_block_check_canonical kombilad_verify kombilad_file_take kombilad_folder_take \
    kombilad_folder_lookup kombilad_unixfs_node kombilad_pack_chunk kombilad_pack_last_chunk kombilad_pack_folder; do renamed="$renamed --redefine-sym $name=real_$name"; done
# shellcheck disable=SC2086
objcopy $renamed "$library" "$tests/renamed.o"
module lock -O1 -D_POSIX_C_SOURCE=200809L test/lock.c "$tests/renamed.o" -pthread
PYTHONPATH=$tests/lock "$tests/venv/bin/python" test/lock.py
# shellcheck disable=SC2086
module failing -O1 $failing "$library"
PYTHONPATH=$tests/failing "$tests/venv/bin/python" test/allocations.py
# shellcheck disable=SC2086
module sanitized $sanitizers $failing "$library"
sanitized() {
    LD_PRELOAD=$(cc -print-file-name=libasan.so) ASAN_OPTIONS=detect_leaks=0 PYTHONMALLOC=malloc PYTHONDONTWRITEBYTECODE=1 \
        PYTHONPATH="$tests/sanitized:/usr/lib/python3/dist-packages" "$python" "$@"
}
sanitized test/values.py 1000
sanitized test/car.py
sanitized test/allocations.py

# ---- JavaScript

js/test.sh

# ---- Go

go/test.sh

# ---- The release

test/release.sh

# ---- Builds without proofs, which are marked

test/unproved.sh

# ---- The programs in the README, which .ci/snippets compares with these files

printf '\202\330\052\105\000\001\125\000\000\330\052\130\043\000\022\040\343\260\304\102\230\374\034\024\232\373\364\310\231\157\271\044\047\256\101\344\144\233\223\114\244\225\231\033\170\122\270\125' > "$tests/block"
printf 'bafkqaaa\nQmdfTbBqBPQ7VNxZEYEj14VmRuZBkqFbiwReogJgS1zR1n\n' > "$tests/expected"
# shellcheck disable=SC2046,SC2086
cc -O2 $warnings c/examples/links.c $(pkg-config --cflags --libs kombilad) -o "$tests/links"
"$tests/links" "$tests/block" | cmp - "$tests/expected"
"$out/rust/debug/examples/links" "$tests/block" | cmp - "$tests/expected"
"$tests/venv/bin/python" python/examples/links.py "$tests/block" | cmp - "$tests/expected"
printf 'Link(Cid(bafkqaaa))\nLink(Cid(QmdfTbBqBPQ7VNxZEYEj14VmRuZBkqFbiwReogJgS1zR1n))\nhi bafyreidfkla3zxeoutlyzg65yqvcttz7yitl3och67fz57kypxgjd27sie\n' > "$tests/expected"
"$out/rust/debug/examples/values" "$tests/block" | cmp - "$tests/expected"
echo "[Cid('bafkqaaa'), Cid('QmdfTbBqBPQ7VNxZEYEj14VmRuZBkqFbiwReogJgS1zR1n')]" > "$tests/expected"
"$tests/venv/bin/python" python/examples/values.py "$tests/block" "$tests/encoded" | cmp - "$tests/expected"
said "what the README shows: ok"

# ---- The examples of docs/HOWTO.md, in the copy of the packages

cp -r python js "$copy/bindings"
ln -s js/node_modules "$tests/node_modules"
# Cargo with Debian's crates and the shared library, as in the last test of Rust.
mkdir "$tests/cargo"
printf '[source.crates-io]\nreplace-with = "debian"\n[source.debian]\ndirectory = "%s"\n' "$registry" > "$tests/cargo/config.toml"
CARGO_HOME=$tests/cargo KOMBILAD_LIB_DIR=$out LD_LIBRARY_PATH=$out PATH=$tests/venv/bin:$PATH python3 ../.ci/examples.py bindings "$tests"
said "what docs/HOWTO.md shows: ok"
said "ok"
