#!/bin/sh
# Tests a copy of the Go package with the C file of the folder DIST, or of dist/ if DIST isn't set. It works offline, and needs Debian's
# golang-go. If golang-github-fxamacker-cbor-dev is installed, it compiles the benchmark too. BLOCKS is the number of random blocks. It writes
# only into bindings/out/go.
set -eu
dist=$(realpath -m "${DIST:-$(dirname "$0")/../../dist}")
cd "$(dirname "$0")"
out=$(cd .. && pwd)/out/go
export GOPATH="$out/path" GOCACHE="$out/cache" GOPROXY=off GOSUMDB=off GOTOOLCHAIN=local GOWORK=off

said() { echo "bindings/go/test.sh: $*"; }

[ -e "$dist/kombilad.c" ] || { said "there is no $dist/kombilad.c: make it by bindings/portable/make.py $dist"; exit 1; }
rm -rf "$out/package"
mkdir -p "$out/package"
cp -r ./* "$out/package"
cp "$dist/kombilad.c" "$dist/kombilad.h" "$out/package"
PYTHONHASHSEED=0 ./test/cases.py "$out/cases.jsonl" "${BLOCKS:-2000}"
export KOMBILAD_CASES="$out/cases.jsonl"

cd "$out/package"
unformatted=$(gofmt -l .)
[ -z "$unformatted" ] || { said "gofmt -w would change $unformatted"; exit 1; }
go test -vet=all .
said "tests, examples and seeds of the fuzz targets: ok"
go test -vet=all -race -short -tags kombilad_failing .
said "with the race detector, and each allocation refused: ok"
if [ -d /usr/share/gocode/src/github.com/fxamacker/cbor ]; then
    # Without optimization the C file compiles in a few seconds.
    (cd bench && CGO_CFLAGS=-O0 go vet .)
    said "the benchmark compiles: ok"
else
    said "the benchmark wasn't compiled: golang-github-fxamacker-cbor-dev isn't installed"
fi
said ok
