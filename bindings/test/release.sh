#!/bin/sh
# Tests release.sh:
# - It makes the same bytes from two checkouts of one commit, under another umask, time zone and language.
# - It rejects uncommitted changes, and a dist/ that differs from the files that the commit makes.
# - CMake, cargo and go accept its files, without the checkout.
#
# bindings/test.sh calls it. It uses the C file in DIST or in dist/, and the packages for Python and npm in bindings/out. .ci/needs.txt lists
# its tools. Without a git repository there is no release to test. Then it prints that this is skipped, or fails if the variable CI is `true`.
set -eu
[ -z "${DIST:-}" ] || DIST=$(realpath "$DIST")
cd "$(dirname "$0")/.."
out=$PWD/out
tests=$out/tests/release
version=$(cat ../VERSION)
rm -rf "$tests"
mkdir -p "$tests"

said() { echo "bindings/test/release.sh: $*"; }
failed() { said "$*"; exit 1; }
../.ci/needs --tools git cc header:stdlib.h cargo rustc || failed "nothing was tested: install what is listed above"
quietly() { "$@" > "$tests/log" 2>&1 || { cat "$tests/log"; exit 1; }; }
export BUILT=yes

# It isn't in the repository, since rt stops at a repository in another one.
another=$(mktemp -d)
trap 'rm -rf "$another"' EXIT
elsewhere=$another/checkout
# git accepts a checkout of any owner, and doesn't read the user's configuration.
export GIT_CONFIG_GLOBAL="$another/gitconfig"
git config --global safe.directory '*'
if ! git -C .. rev-parse -q --verify HEAD > /dev/null 2>&1; then
    [ "${CI:-}" != true ] || failed "a release can be tested only in a clone of the repository: check the sources out by git"
    said "SKIPPED: no release was tested, since these sources are not a clone of the repository. Check them out by git to test it"
    exit 0
fi

# ---- The same bytes

quietly ./release.sh --uncommitted "$tests/one"
(umask 077 && quietly git clone -q --shared .. "$elsewhere")
git -C .. diff --binary HEAD > "$tests/changes"
[ ! -s "$tests/changes" ] || git -C "$elsewhere" apply "$tests/changes"
(cd .. && git ls-files -z --others --exclude-standard | tar --null -T - -cf -) | tar -C "$elsewhere" -xf -
mkdir "$elsewhere/bindings/out"
cp "$out/kombilad-$version.tgz" "$elsewhere/bindings/out/"
ln -s "$out/wheels" "$elsewhere/bindings/out/wheels"
# If everything is committed, the option is left out. It would not change the files.
option=
[ -z "$(git -C .. status --porcelain)" ] || option=--uncommitted
# shellcheck disable=SC2086
(umask 077 && TZ=Asia/Kolkata LC_ALL=C.UTF-8 quietly "$elsewhere/bindings/release.sh" $option "$tests/two")
diff -r "$tests/one" "$tests/two" || failed "two releases of one commit differ"
(cd "$tests/one" && sha256sum --quiet -c SHA256SUMS)
[ "$(wc -l < "$tests/one/SHA256SUMS")" = 9 ] || failed "SHA256SUMS has another number of files"
said "the same bytes twice: ok"

# ---- Uncommitted changes: a script that doesn't make a wheel, so that the existing one is used

echo '#!/bin/sh' > "$elsewhere/bindings/wheel.sh"
! "$elsewhere/bindings/release.sh" "$tests/three" > "$tests/log" 2>&1 || failed "it took a file that isn't committed"
grep -q 'bindings/wheel.sh$' "$tests/log" || failed "it didn't name the file that isn't committed"
[ ! -e "$tests/three" ] || failed "it left something of what it refused"
! "$elsewhere/bindings/release.sh" --uncommitted "$tests/one" > "$tests/log" 2>&1 || failed "it wrote into a folder that isn't empty"
quietly "$elsewhere/bindings/release.sh" --uncommitted "$tests/three"
grep -q '^commit: [0-9a-f]*, and changes' "$tests/three/BUILT-FROM" || failed "BUILT-FROM doesn't say that there were changes"
said "what isn't committed: ok"

# ---- A dist/ that differs from the files that the commit makes

printf '#!/bin/sh\necho make.py: dist/kombilad.c is older than its sources\n' > "$elsewhere/bindings/portable/make.py"
! BUILT='' "$elsewhere/bindings/release.sh" --uncommitted "$tests/four" > "$tests/log" 2>&1 || failed "it took another dist/ than the commit makes"
grep -q 'dist/ is not what this commit makes' "$tests/log" || failed "it didn't name dist/"
[ ! -e "$tests/four" ] || failed "it left something of the release that it refused"
said "another dist/: ok"

# ---- C: a program that finds the shared library by CMake

tar -C "$tests" -xzf "$tests/one/libkombilad-$version.tar.gz"
mkdir "$tests/user"
cp c/examples/links.c "$tests/user"
cat > "$tests/user/CMakeLists.txt" << 'END'
cmake_minimum_required(VERSION 3.14)
project(user LANGUAGES C)
find_package(kombilad 0.2 REQUIRED)
add_executable(links links.c)
target_link_libraries(links PRIVATE kombilad::kombilad)
END
quietly cmake -S "$tests/libkombilad-$version" -B "$tests/c" -DBUILD_SHARED_LIBS=ON -DCMAKE_C_FLAGS_RELEASE=-O0 -DCMAKE_INSTALL_PREFIX="$tests/prefix"
quietly cmake --build "$tests/c" --target install
quietly cmake -S "$tests/user" -B "$tests/user/build" -DCMAKE_PREFIX_PATH="$tests/prefix"
quietly cmake --build "$tests/user/build"
printf '\330\052\105\000\001\125\000\000' > "$tests/block"
[ "$("$tests/user/build/links" "$tests/block")" = bafkqaaa ] || failed "a program over the library that CMake built doesn't work"
[ -e "$tests/prefix/lib/libkombilad.so.0" ] || failed "CMake installed no shared library"
said "the library for C: ok"

# ---- Rust: the files that cargo would pack, and a program with these crates and Debian's crate cc

export CARGO_NET_OFFLINE=true CARGO_TARGET_DIR="$out/rust"
registry=/usr/share/cargo/registry
crates=$tests/crates
mkdir "$crates"
for crate in kombilad-sys kombilad kombilad-cid; do
    # Some versions of cargo add a Cargo.lock to some crates. cargo adds the state of the repository if nothing is uncommitted. release.sh adds
    # the licences and the C file.
    (cd "rust/$crate" && cargo package -q --list --allow-dirty --config 'source.crates-io.replace-with="debian"' \
        --config "source.debian.directory=\"$registry\"" 2> "$tests/log" || { cat "$tests/log" >&2; exit 1; }) | grep -vx 'Cargo.lock\|.cargo_vcs_info.json' > "$tests/theirs"
    tar -tzf "$tests/one/$crate-$version.crate" | sed "s|^$crate-$version/||" | grep -vx 'LICENSE-.*\|.cargo_vcs_info.json\|c/kombilad\.[ch]' > "$tests/ours"
    LC_ALL=C sort "$tests/theirs" | diff - "$tests/ours" || failed "$crate has other files than cargo would pack"
    tar -C "$crates" -xzf "$tests/one/$crate-$version.crate"
    echo '{"files":{}}' > "$crates/$crate-$version/.cargo-checksum.json"
done
ln -s "$(echo "$registry"/cc-[0-9]*)" "$crates/cc"
mkdir -p "$tests/program/src"
cat > "$tests/program/Cargo.toml" << END
[package]
name = "program"
version = "0.0.0"
edition = "2021"

[dependencies]
kombilad = { version = "=$version", default-features = false }

[workspace]
END
cp rust/kombilad/examples/links.rs "$tests/program/src/main.rs"
CFLAGS=-O0 quietly cargo run -q --manifest-path "$tests/program/Cargo.toml" --config 'source.crates-io.replace-with="these"' \
    --config "source.these.directory=\"$crates\"" -- "$tests/block"
[ "$(cat "$tests/log")" = bafkqaaa ] || failed "a program over the crates doesn't work"
said "the crates: ok"

# ---- Go: go accepts the zip, which has the licences, and the files of the repository except the benchmark

module=$(sed -n 's/^module //p' go/go.mod)
proxy=$tests/proxy/$module/@v
mkdir -p "$proxy"
cp "$tests/one/kombilad-go-$version.zip" "$proxy/v$version.zip"
cp go/go.mod "$proxy/v$version.mod"
echo "{\"Version\":\"v$version\"}" > "$proxy/v$version.info"
(cd "$tests" && GOPROXY=file://$tests/proxy GONOSUMDB='*' GOFLAGS=-modcacherw GOMODCACHE=$tests/go go mod download -json "$module@v$version") > "$tests/log" || { cat "$tests/log"; failed "go doesn't take the zip"; }
taken=$(sed -n 's/.*"Dir": "\(.*\)".*/\1/p' "$tests/log")
(cd "$taken" && find . -type f ! -name 'LICENSE-*' | sed 's|^\./||' | LC_ALL=C sort) > "$tests/ours"
(cd go && git ls-files --cached --others --exclude-standard | grep -v '^bench/') | LC_ALL=C sort | diff - "$tests/ours" || failed "the module for go has other files than the repository"
cmp "$taken/kombilad.c" "${DIST:-../dist}/kombilad.c"
said "the module for go: ok"
