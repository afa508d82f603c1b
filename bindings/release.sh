#!/bin/sh
# Makes the files of a release from a commit, in a new folder. The same commit and the same tools give the same bytes, in any folder.
#
#     bindings/release.sh [--uncommitted] FOLDER
#
#     libkombilad-VERSION.tar.gz              for C: the C file, its header, CMakeLists.txt
#     kombilad-VERSION.tar.gz                 for pip: the sdist
#     kombilad-VERSION-cp39-abi3-*.whl        for pip: the wheel
#     kombilad*-VERSION.crate                 for cargo, as `cargo package` lays them out, with the licences
#     kombilad-go-VERSION.zip                 for go: the module's zip
#     kombilad-VERSION.tgz                    for npm
#     BUILT-FROM                              version and commit, which toolchain proved it, which tools made the files
#     SHA256SUMS                              of all of these
#
# It fails if there are uncommitted changes. With --uncommitted it accepts them, and BUILT-FROM states that there are some. It fails if dist/
# differs from the files that the commit makes, and if a file was made with --unproved. If BUILT is set, it doesn't compare dist/. Then it takes
# the C file from the folder DIST or from dist/, and the packages for Python and npm from bindings/out. It needs git, and the tools of
# portable/make.py, wheel.sh and wasm.sh.
set -eu
umask 022
export LC_ALL=C TZ=UTC0

failed() { echo "bindings/release.sh: $*" >&2; exit 1; }
usage() { sed -n '4s/^# *//p' "$0" >&2; exit 2; }

uncommitted=
if [ "${1:-}" = --uncommitted ]; then
    uncommitted=yes
    shift
fi
[ $# = 1 ] || usage
case $1 in -*) usage ;; esac
[ ! -e "$1" ] || [ -z "$(ls -A "$1")" ] || failed "$1 is there, and isn't empty"
into=$(realpath -m "$1")

cd "$(dirname "$0")"
NEEDS_RT=no
. ../.ci/start.sh
out=$PWD/out
version=$(cat ../VERSION)
../.ci/needs --tools git
commit=$(git rev-parse -q --verify HEAD 2> /dev/null) || failed "these sources are not a clone of the repository: check them out by git, since a release names its commit"
SOURCE_DATE_EPOCH=$(git log -1 --format=%ct HEAD)
export SOURCE_DATE_EPOCH
changes=$(git -C .. status --porcelain)
if [ -n "$changes" ] && [ -z "$uncommitted" ]; then
    echo "$changes" >&2
    failed "these changes aren't committed"
fi

[ -n "${BUILT:-}" ] || DIST=../dist
dist=$(realpath "${DIST:-../dist}")
! grep -q "NOTHING OF THIS FILE IS PROVED" "$dist/kombilad.c" || failed "$dist/kombilad.c is not of the proved library: run bindings/portable/make.py dist"
if [ -z "${BUILT:-}" ]; then
    portable/make.py "$out/portable" > /dev/null
    compared=$(portable/make.py --compare "$out/portable" 2>&1) || true
    if [ "$(echo "$compared" | grep -c 'is what its sources give$')" != "$(echo "$compared" | wc -l)" ]; then
        echo "$compared" >&2
        failed "dist/ is not what this commit makes: run bindings/portable/make.py dist, and commit it"
    fi
    ./wasm.sh > /dev/null
fi
[ -n "${BUILT:-}" ] && [ -e "$out/kombilad-$version.tar.gz" ] || DIST=$dist ./wheel.sh > /dev/null
stage=$(mktemp -d)
trap 'rm -rf "$stage"' EXIT

# Files that --unproved made are marked inside too, so another name doesn't hide it.
again="is not of the proved library: run bindings/wheel.sh and bindings/wasm.sh"
{ tar -xzOf "$out/kombilad-$version.tar.gz" "kombilad-$version/PKG-INFO" 2> /dev/null || true; } | grep -qx "Version: $version" ||
    failed "$out/kombilad-$version.tar.gz $again"
python3 -c 'import sys, zipfile; sys.exit(not any(it.startswith(sys.argv[2]) for it in zipfile.ZipFile(sys.argv[1]).namelist()))' \
    "$(echo "$out"/kombilad-"$version"-*.whl)" "kombilad-$version.dist-info/" || failed "the wheel in $out $again"
tar -xzOf "$out/kombilad-$version.tgz" package/package.json | grep -qF "\"version\": \"$version\"" || failed "$out/kombilad-$version.tgz $again"
mkdir -p "$into"

# tarball FILE NAME: packs the files below the folder NAME of the stage, sorted, with one owner, one time, and the modes 644 and 755.
tarball() {
    (cd "$stage" && find "$2" ! -type d | sort | tar --format=ustar --owner=0 --group=0 --numeric-owner --mode='u=rwX,go=rX' \
        --mtime="@$SOURCE_DATE_EPOCH" --no-recursion -T - -cf - | gzip -9n > "$1")
}

# tracked FOLDER NAME: copies the files in FOLDER that git tracks or could add to the folder NAME of the stage, with the licences.
tracked() {
    mkdir -p "$stage/$2"
    (cd "$1" && git ls-files -z --cached --others --exclude-standard | tar --null -T - -cf -) | tar -C "$stage/$2" -xf -
    cp ../LICENSE-APACHE ../LICENSE-MIT "$stage/$2"
}

# source_to FOLDER: copies the C file and its header.
source_to() {
    mkdir -p "$1"
    cp "$dist/kombilad.c" "$dist/kombilad.h" "$1"
}

# ---- C

name=libkombilad-$version
tracked c "$name"
rm "$stage/$name/alloc.c"
source_to "$stage/$name"
tarball "$into/$name.tar.gz" "$name"

# ---- Python

tar -C "$stage" -xzf "$out/kombilad-$version.tar.gz"
tarball "$into/kombilad-$version.tar.gz" "kombilad-$version"
rm -r "$stage/kombilad-$version" # a crate has this name too
cp "$out"/kombilad-"$version"-*.whl "$into"

# ---- Rust

# As with `cargo package`, the manifest names dependencies only by their versions and has no workspace, and Cargo.toml.orig is the file of the
# repository. cargo itself would look up the crates of this repository in a registry, which has them only after they are published.
for crate in kombilad-sys kombilad kombilad-cid; do
    name=$crate-$version
    tracked "rust/$crate" "$name"
    [ "$crate" != kombilad-sys ] || source_to "$stage/$name/c"
    mv "$stage/$name/Cargo.toml" "$stage/$name/Cargo.toml.orig"
    sed 's/path = "\.\.[^"]*", //; /^\[workspace\]$/d' "$stage/$name/Cargo.toml.orig" > "$stage/$name/Cargo.toml"
    ! grep -n '\.\./' "$stage/$name/Cargo.toml" || failed "Cargo.toml of $crate names a path outside of it"
    printf '{\n  "git": {\n    "sha1": "%s"\n  },\n  "path_in_vcs": "bindings/rust/%s"\n}' "$commit" "$crate" > "$stage/$name/.cargo_vcs_info.json"
    tarball "$into/$name.crate" "$name"
done

# ---- Go

# The format of Go's module proxies: all files are below MODULE@vVERSION, without the folder of another module.
name=$(sed -n 's/^module //p' go/go.mod)@v$version
tracked go "go/$name"
rm -r "$stage/go/$name/bench"
source_to "$stage/go/$name"
(cd "$stage/go" && find "$name" ! -type d | sort | python3 -c '
import os, sys, time, zipfile

when = time.gmtime(int(os.environ["SOURCE_DATE_EPOCH"]))[:6]
with zipfile.ZipFile(sys.argv[1], "w", zipfile.ZIP_DEFLATED) as made:
    for name in sys.stdin.read().splitlines():
        entry = zipfile.ZipInfo(name, when)
        entry.external_attr = 0o644 << 16
        with open(name, "rb") as file:
            made.writestr(entry, file.read(), zipfile.ZIP_DEFLATED)
' "$into/kombilad-go-$version.zip")

# ---- JavaScript

cp "$out/kombilad-$version.tgz" "$into"

# ---- The origin of the files, and the checksums

first_line() { "$@" 2>&1 | head -n 1; }
{
    echo "version: $version"
    echo "commit: $commit${changes:+, and changes that are not committed}"
    echo "time of the commit: $(date -u -d "@$SOURCE_DATE_EPOCH" +%Y-%m-%dT%H:%M:%SZ)"
    echo "proved by: $(rt version)${BUILT:+, of the sources as they were when dist and bindings/out were made}"
    echo "extension module by: $(first_line "${CC:-cc}" --version), $(first_line ld --version)"
    echo "wheel by: $(/usr/bin/python3 -c 'import platform, setuptools, wheel; print("Python", platform.python_version() + ", setuptools", setuptools.__version__ + ", wheel", wheel.__version__)')"
    echo "package for npm by: $(first_line clang --version), $(first_line wasm-ld --version)"
    echo "archives by: $(first_line tar --version), $(first_line gzip --version)"
} > "$into/BUILT-FROM"
chmod 644 "$into"/*
(cd "$into" && sha256sum -- * > "$stage/sums" && install -m 644 "$stage/sums" SHA256SUMS)
ls -d "$into"/*
