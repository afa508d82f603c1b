/* Runs each function of a module of cases with many inputs. Prints for each function its number and
 * a digest of all bytes that it wrote.
 *
 * usage: test_instructions FUNCTIONS INPUTS */
#include "kombilad.h"

#include <stdio.h>
#include <stdlib.h>
#include <string.h>

enum { SIZE = 256 };

/* clang-format off */
static const uint64_t EDGES[] = {
    0u, 1u, 2u, 3u, 5u, 7u, 8u, 9u, 15u, 16u, 17u, 31u, 32u, 33u, 47u, 48u, 63u, 64u, 65u, 127u,
    128u, 129u, 254u, 255u, 256u, 257u, 0x7ffeu, 0x7fffu, 0x8000u, 0x8001u, 0xfffeu, 0xffffu,
    0x10000u, 0x7ffffffeu, 0x7fffffffu, 0x80000000u, 0x80000001u, 0xfffffffeu, 0xffffffffu,
    0x100000000u, 0xffffffffffu, 0xffffffffffffu, 0x80000000000000u, 0xffffffffffffffu,
    0x7ffffffffffffffeu, 0x7fffffffffffffffu, 0x8000000000000000u, 0x8000000000000001u,
    0xfffffffffffffffeu, 0xffffffffffffffffu,
};
/* clang-format on */
enum { COUNT = sizeof EDGES / sizeof *EDGES };

static uint64_t state;

static uint64_t random_number(void) {
    uint64_t made = state += 0x9e3779b97f4a7c15u;
    made = (made ^ made >> 30) * 0xbf58476d1ce4e5b9u;
    made = (made ^ made >> 27) * 0x94d049bb133111ebu;
    return made ^ made >> 31;
}

static void put(uint8_t *at, uint64_t number) {
    int byte;
    for (byte = 0; byte < 8; byte++) at[byte] = (uint8_t)(number >> 8 * byte);
}

/* Writes the input with this number. The first inputs have each pair of EDGES. */
static void fill(uint8_t *in, uint32_t number) {
    int at;
    state = number;
    for (at = 0; at < SIZE; at += 8) put(in + at, random_number());
    if (number < COUNT * COUNT) {
        put(in, EDGES[number % COUNT]);
        put(in + 16, EDGES[number / COUNT]);
        put(in + 32, EDGES[random_number() % COUNT]);
        /* The upper halves of numbers of 128 bits. */
        for (at = 8; at < 48; at += 16)
            put(in + at, EDGES[random_number() % COUNT] * (random_number() & 1));
    } else if (number & 1) {
        for (at = 0; at < 48; at += 8) put(in + at, EDGES[random_number() % COUNT]);
    }
    /* Indices in a vector. Some have the highest bit set. */
    if (number & 2)
        for (at = 113; at < 145; at++) in[at] &= 0x8f;
}

static uint64_t digest_of(uint64_t digest, const uint8_t *at) {
    const uint8_t *end = at + SIZE + 64;
    for (; at < end; at += 4) {
        uint32_t word = at[0] | (uint32_t)at[1] << 8 | (uint32_t)at[2] << 16 |
                        (uint32_t)at[3] << 24;
        digest = (digest ^ word) * 0x100000001b3u;
        digest ^= digest >> 29;
    }
    return digest;
}

int main(int count, char **words) {
    static uint8_t in[SIZE + 64], out[SIZE + 64];
    uint32_t functions, inputs, which, number;
    if (count != 3) return 2;
    functions = (uint32_t)atol(words[1]);
    inputs = (uint32_t)atol(words[2]);
    for (which = 0; which < functions; which++) {
        uint64_t digest = 0xcbf29ce484222325u;
        for (number = 0; number < inputs; number++) {
            memset(out, 0xaa, sizeof out);
            memset(in, 0x55, sizeof in);
            fill(in, number * 7919u % (COUNT * COUNT + 4096u));
            kombilad_run(which, in, out);
            digest = digest_of(digest_of(digest, in), out);
        }
        printf("%u %016llx\n", (unsigned)which, (unsigned long long)digest);
    }
    return 0;
}
