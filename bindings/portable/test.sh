#!/bin/sh
# Makes the C files of the library and of the programs, and tests them. It tests each instruction
# that the translator knows, compares calls with the library for x86-64, and runs the programs. It
# also tests on other processors, with fewer inputs, and makes each call there. The file of `ipld` is that in dist/ if that
# was made from the current sources, otherwise one without proofs. With --unproved all modules are
# without proofs.
set -eu
cd "$(dirname "$0")"
# shellcheck source=../../.ci/start.sh
. ../../.ci/start.sh
install=
[ "${CI:-}" != true ] || install=--install
../../.ci/needs $install bindings || { echo "bindings/portable/test.sh: nothing was tested: install what is listed above"; exit 1; }
out=$(cd .. && pwd)/out/portable
crate=../../crates/kombilad_c/out
library=$crate/libkombilad_c.a
[ "${1:-}" != --unproved ] || library=$crate/unproved/libkombilad_c.a
mkdir -p "$out"

./faults.py --check
./make.py "$@" "$out" kombilad ipld_links
./make.py --compare "$out" kombilad ipld_links
# A proof of ipld takes half an hour, and `rt ci` doesn't keep its module.
./make.py --of-dist "$out" ipld
./test_ir2c.py --inputs 64 "gcc -O0" "gcc -O2" "clang -O2" tcc aarch64 riscv64 s390x i386
compare/same.py "$out" "$library" --cases 50 "gcc -O2" "clang -O2" "gcc sanitized"
compare/same.py "$out" "$library" --cases 1 musl-gcc aarch64 riscv64 s390x i386

# The calls of the library on other processors: PROCESSOR COMPILER..
calls() {
    processor=$1
    shift
    "$@" -std=c11 -O1 -static -Wall -Wextra -Werror -I"$out" ../test/calls.c "$out/kombilad.c" -pthread \
        -Wl,--wrap=malloc,--wrap=realloc,--wrap=free -o "$out/calls-$processor"
    "qemu-$processor" "$out/calls-$processor"
    echo "bindings/portable/test.sh: the calls on $processor: ok"
}

calls aarch64 aarch64-linux-gnu-gcc
calls riscv64 riscv64-linux-gnu-gcc
calls s390x s390x-linux-gnu-gcc
calls i386 i686-linux-gnu-gcc -msse2 -mfpmath=sse

# Builds a program, and runs it: FOLDER NAME RUNS COMPILER..
program() {
    made=$out/$1/$2
    mkdir -p "$out/$1"
    runs=$3
    name=$2
    shift 3
    "$@" -Wall -Wextra -Werror "$out/$name.c" "$out/posix.c" -o "$made"
    case $made in
        */aarch64/*)
            mv "$made" "$made.aarch64"
            printf '#!/bin/sh\nexec %s %s "$@"\n' "$(command -v qemu-aarch64)" "$made.aarch64" > "$made"
            chmod +x "$made"
            ;;
    esac
    # shellcheck disable=SC2086
    ../../.ci/$runs "$made"
    echo "bindings/portable/test.sh: $name by $*: ok"
}

program gcc ipld_links program-runs gcc -O2
program musl ipld_links program-runs musl-gcc -O1 -static
program aarch64 ipld_links "program-runs --some" aarch64-linux-gnu-gcc -O1 -static
program gcc ipld ipld-runs gcc -O1
program musl ipld "ipld-runs --some" musl-gcc -O0 -static
program aarch64 ipld "ipld-runs --some" aarch64-linux-gnu-gcc -O0 -static
