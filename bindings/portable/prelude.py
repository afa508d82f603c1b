"""The functions of prelude.c. A C file gets only those that it calls."""

import pathlib
import re

PIECE = re.compile(r"^/\*: (\S+)(?: for (.*?))? \*/\n", re.M)
NAME = re.compile(r"[A-Za-z_]\w*")

HEAD = """\
#include <stdbool.h>
#include <stddef.h>
#include <stdint.h>
#include <stdlib.h>
#include <string.h>

/* How memory is allocated: define all three to have it done otherwise. */
#ifndef KOMBILAD_MALLOC
#define KOMBILAD_MALLOC malloc
#define KOMBILAD_REALLOC realloc
#define KOMBILAD_FREE free
#endif

/* Whether numbers lie in memory with their lowest byte first. If that isn't known, they are read and
 * written byte by byte. */
#if defined(__BYTE_ORDER__) && defined(__ORDER_LITTLE_ENDIAN__) && !defined(KOMBILAD_PLAIN)
#define LITTLE (__BYTE_ORDER__ == __ORDER_LITTLE_ENDIAN__)
#else
#define LITTLE 0
#endif

/* Vectors of 16 bytes, by SSE2, NEON or those of WebAssembly. KOMBILAD_PLAIN does without them, and
 * KOMBILAD_BASELINE without SSE4.1, which makes the UTF-8 check five times slower. */
#if defined(__GNUC__) && LITTLE && \\
    (defined(__SSE2__) || defined(__aarch64__) || defined(__wasm_simd128__))
#define HAS_VECTORS 1
#define VECTOR inline __attribute__((always_inline, unused))
#else
#define HAS_VECTORS 0
#ifdef __GNUC__
#define VECTOR __attribute__((unused))
#else
#define VECTOR
#endif
#endif

#if HAS_VECTORS && defined(__SSE2__) && !defined(KOMBILAD_BASELINE)
#define HAS_SSE4_1 1
#ifdef __clang__
#pragma clang attribute push(__attribute__((target("sse4.1"))), apply_to = function)
#else
#pragma GCC push_options
#pragma GCC target("sse4.1")
#endif
#include <smmintrin.h>
#elif HAS_VECTORS && defined(__SSE2__)
#include <emmintrin.h>
#elif HAS_VECTORS && defined(__wasm_simd128__)
#include <wasm_simd128.h>
#elif HAS_VECTORS
#include <arm_neon.h>
#endif

/* Some processors have no use for a function that others use. */
#ifdef __GNUC__
#define INLINE inline __attribute__((unused))
#define UNREACHABLE() __builtin_unreachable()
#else
#define INLINE inline
#define UNREACHABLE() for (;;) abort()
#endif

typedef uint8_t u8;
typedef uint16_t u16;
typedef uint32_t u32;
typedef uint64_t u64;
typedef u8 *P;

/* Bytes with the alignment of a number. */
#define ARRAY(number, size) \\
    union {                 \\
        u8 b[size];         \\
        number n;           \\
    }
#if defined(__GNUC__) || defined(__TINYC__)
#define ALIGNED(n) __attribute__((aligned(n)))
#elif defined(_MSC_VER)
#define ALIGNED(n) __declspec(align(n))
#elif defined(__STDC_VERSION__) && __STDC_VERSION__ >= 201112L
#define ALIGNED(n) _Alignas(n)
#else
#define ALIGNED(n)
#endif

/* Bytes with an alignment of 16, which C99 has no word for. */
#if defined(__GNUC__) || defined(_MSC_VER)
#define ARRAY_16(size) ALIGNED(16) ARRAY(u64, size)
#define BYTES_16(array) (array).b
#else
#define ARRAY_16(size) ARRAY(u64, (size) + 15)
#define BYTES_16(array) AT((array).b, (0 - (uintptr_t)(array).b) & 15)
#endif

/* The place n bytes behind p. It may be any number, so it is computed as one. */
#define AT(p, n) ((P)((uintptr_t)(p) + (uintptr_t)(n)))
"""

TAIL = """\
#if defined(HAS_SSE4_1) && defined(__clang__)
#pragma clang attribute pop
#elif defined(HAS_SSE4_1)
#pragma GCC pop_options
#endif
"""


def pieces():
    """Returns the text of each piece by its name, in their order."""
    text = (pathlib.Path(__file__).resolve().parent / "prelude.c").read_text(encoding="utf-8")
    found = {}
    parts = PIECE.split(text)[1:]
    for name, words, body in zip(parts[::3], parts[1::3], parts[2::3]):
        for word in (words or "").split() or [""]:
            word, _, operator = word.partition("=")
            filled = [
                it.replace("TYPE", word)
                .replace("BITS", word[1:])
                .replace("NAME", word)
                .replace("OPERATOR", operator)
                for it in (name, body)
            ]
            found[filled[0]] = filled[1].strip("\n") + "\n"
    return found


def used_pieces(text):
    """Returns the pieces that a text names, and those that these name, as one text."""
    known = pieces()
    waiting, wanted = NAME.findall(text), set()
    while waiting:
        name = waiting.pop()
        if name in known and name not in wanted:
            wanted.add(name)
            waiting += NAME.findall(known[name])
    return "\n".join(body for name, body in in_order(known, wanted))


def in_order(known, wanted):
    """Yields each wanted piece after the pieces that it names."""
    given = set()

    def visit(name):
        if name in given:
            return
        given.add(name)
        for other in sorted(set(NAME.findall(known[name]))):
            if other in known:
                yield from visit(other)
        yield name, known[name]

    for name in known:
        if name in wanted:
            yield from visit(name)
