"""The compilers that test the C file: for each the command, its flags, and the command that runs a
program for its processor."""

STANDARD = ["-std=c99", "-Wall", "-Wextra", "-pedantic"]
ASAN = ["-g", "-fsanitize=address,undefined", "-fno-sanitize-recover=all"]
STRICT = ["-include", "strict_memory.h"]


def cross(triple, processor, *flags):
    return (f"{triple}-gcc", [*STANDARD, "-O1", "-static", *flags], [f"qemu-{processor}"])


COMPILERS = {
    "gcc -O0": ("gcc", [*STANDARD, "-O0"], []),
    "gcc -O2": ("gcc", [*STANDARD, "-O2"], []),
    "clang -O2": ("clang", [*STANDARD, "-O2"], []),
    "gcc -O2 baseline": ("gcc", [*STANDARD, "-O2", "-DKOMBILAD_BASELINE"], []),
    "gcc -O2 plain": ("gcc", [*STANDARD, "-O2", "-DKOMBILAD_PLAIN"], []),
    "gcc strict memcpy": ("gcc", [*STANDARD, "-O1", "-DKOMBILAD_PLAIN", *STRICT], []),
    "tcc": ("tcc", [], []),
    "musl-gcc": ("musl-gcc", [*STANDARD, "-O1", "-static"], []),
    "gcc sanitized": ("gcc", [*STANDARD, "-O1", *ASAN], []),
    "clang sanitized": ("clang", [*STANDARD, "-O1", *ASAN], []),
    # With these flags gcc compiles a product and a sum to one instruction, if the code allows it.
    "aarch64": cross("aarch64-linux-gnu", "aarch64", "-std=gnu99", "-fexpensive-optimizations"),
    "riscv64": cross("riscv64-linux-gnu", "riscv64"),
    "s390x": cross("s390x-linux-gnu", "s390x"),
    "i386": cross("i686-linux-gnu", "i386", "-msse2", "-mfpmath=sse"),
}


def command(name):
    """Returns the command line of a compiler. It includes strict_memory.h from the folder of this
    file."""
    compiler, flags, _ = COMPILERS[name]
    folder = __file__.rpartition("/")[0]
    return [compiler, *(f"{folder}/{it}" if it == "strict_memory.h" else it for it in flags)]
