/* Tests each call of kombilad.h from C: what it returns and writes, also with buffers that are too
 * short, and if an allocation fails. Expected values are from other programs, or written by hand.
 * `calls deep` nests 10,000,000 lists. */
#include <kombilad.h>

#include <pthread.h>
#include <stdbool.h>
#include <stdio.h>
#include <stdlib.h>
#include <string.h>

#define COUNT(table) (sizeof(table) / sizeof *(table))
#define CHECK(fact) ((fact) ? (void)0 : failed(#fact, __LINE__, NULL))
#define CHECK_OF(what, fact) ((fact) ? (void)0 : failed(#fact, __LINE__, what))

static void failed(const char *fact, int line, const char *what) {
    fprintf(stderr, "calls.c:%d: %s%s%s\n", line, fact, what ? " of " : "", what ? what : "");
    exit(1);
}

/* ---- Allocations, counted and refused: the linker replaces malloc, realloc and free by these
 * functions. */

static _Thread_local long refused_at = -1; /* counts down to the allocation that is refused */
static _Thread_local long held;

void *__real_malloc(size_t size);
void *__real_realloc(void *block, size_t size);
void __real_free(void *block);

static bool refused(void) { return refused_at >= 0 && refused_at-- == 0; }

void *__wrap_malloc(size_t size) {
    void *block = refused() ? NULL : __real_malloc(size);
    held += block != NULL;
    return block;
}

void *__wrap_realloc(void *block, size_t size) {
    void *moved = refused() ? NULL : __real_realloc(block, size);
    held += block == NULL && moved != NULL;
    return moved;
}

void __wrap_free(void *block) {
    held -= block != NULL;
    __real_free(block);
}

/* ---- Bytes from hexadecimal digits, in an allocation of exactly their length, so that a sanitizer
 * detects each access beyond it. */

typedef struct bytes {
    uint8_t *at;
    size_t len;
} bytes;

static unsigned digit(char letter) {
    return letter <= '9' ? (unsigned)(letter - '0') : (unsigned)(letter - 'a' + 10);
}

static bytes from_hex(const char *digits) {
    size_t len = strlen(digits) / 2;
    bytes made = {len ? malloc(len) : NULL, len};
    for (size_t at = 0; at < len; at++)
        made.at[at] = (uint8_t)(digit(digits[2 * at]) << 4 | digit(digits[2 * at + 1]));
    return made;
}

static bytes from_text(const char *text) {
    bytes made = {malloc(strlen(text) + 1), strlen(text)};
    memcpy(made.at, text, made.len);
    return made;
}

static bool is_all(const uint8_t *at, size_t len, uint8_t byte) {
    for (size_t i = 0; i < len; i++)
        if (at[i] != byte) return false;
    return true;
}

/* ---- CIDs */

#define DIGEST "c19a797fa1fd590cd2e5b42d1cf5f246e29b91684e2f87404b81dc345c7a56a0"
#define EMPTY_DIGEST "e3b0c44298fc1c149afbf4c8996fb92427ae41e4649b934ca495991b7852b855"
#define EMPTY_BLAKE2B "0e5751c026e543b2e8ab2eb06099daa1d1e5df47778f7787faab45cdf12fe3a8"
#define EMPTY_SHA2_512                                                                             \
    "cf83e1357eefb8bdf1542850d66d8007d620e4050b5715dc83f4a921d36ce9ce47d0d13c5d85f2b0ff8318d2877e" \
    "ec2f63b931bd47417a81a538327af927da3e"
#define V1 "01711220" DIGEST
#define V0 "1220" EMPTY_DIGEST
#define V0_TEXT "QmdfTbBqBPQ7VNxZEYEj14VmRuZBkqFbiwReogJgS1zR1n"
#define LONG_NUMBER "ffffffffffffffffff01"
#define SIXTY_FOUR DIGEST DIGEST

static const struct {
    const char *bytes;
    uint32_t status;
} cids[] = {
    {V1, KOMBILAD_OK},
    {V0, KOMBILAD_OK},
    {"01550000", KOMBILAD_OK},
    {"01" LONG_NUMBER LONG_NUMBER "40" SIXTY_FOUR, KOMBILAD_OK},
    {"", KOMBILAD_CID_END},
    {"12", KOMBILAD_CID_END},
    {"1220", KOMBILAD_CID_END},
    {"015500", KOMBILAD_CID_END},
    {"8100550000", KOMBILAD_CID_NOT_SHORTEST},
    {"01ffffffffffffffffff02", KOMBILAD_CID_VARINT_TOO_LARGE},
    {"0055", KOMBILAD_CID_EXPLICIT_VERSION_0},
    {"0255", KOMBILAD_CID_UNKNOWN_VERSION},
    {"01550041", KOMBILAD_CID_DIGEST_TOO_LONG},
    {"0155000000", KOMBILAD_CID_TRAILING_BYTES},
    {V0 "00", KOMBILAD_CID_TRAILING_BYTES},
};

static void check_cids(void) {
    for (size_t at = 0; at < COUNT(cids); at++) {
        bytes cid = from_hex(cids[at].bytes);
        CHECK_OF(cids[at].bytes, kombilad_cid_check(cid.at, cid.len) == cids[at].status);
        kombilad_cid_parts parts = {7, 7, 7, 7};
        CHECK_OF(cids[at].bytes, kombilad_cid_parts_of(cid.at, cid.len, &parts) == cids[at].status);
        if (cids[at].status)
            CHECK(parts.version == 7 && parts.codec == 7 && parts.hash == 7 &&
                  parts.digest_len == 7);
        free(cid.at);
    }
    kombilad_cid_parts parts;
    bytes v1 = from_hex(V1), v0 = from_hex(V0), longest = from_hex(cids[3].bytes);
    CHECK(kombilad_cid_parts_of(v1.at, v1.len, &parts) == KOMBILAD_OK);
    CHECK(parts.version == 1 && parts.codec == 0x71 && parts.hash == 0x12 &&
          parts.digest_len == 32);
    CHECK(kombilad_cid_parts_of(v0.at, v0.len, &parts) == KOMBILAD_OK);
    CHECK(parts.version == 0 && parts.codec == 0x70 && parts.hash == 0x12 &&
          parts.digest_len == 32);
    CHECK(longest.len == 86 &&
          kombilad_cid_parts_of(longest.at, longest.len, &parts) == KOMBILAD_OK);
    CHECK(parts.version == 1 && parts.codec == UINT64_MAX && parts.hash == UINT64_MAX &&
          parts.digest_len == 64);
    free(v1.at), free(v0.at), free(longest.at);
}

static const struct {
    const char *bytes;
    uint32_t base;
    const char *text;
} texts[] = {
    {V1, KOMBILAD_BASE_USUAL, "bafyreigbtj4x7ip5legnfznufuopl4sg4knzc2cof6duas4b3q2fy6swua"},
    {V1, KOMBILAD_BASE16, "f" V1},
    {V1, KOMBILAD_BASE32, "bafyreigbtj4x7ip5legnfznufuopl4sg4knzc2cof6duas4b3q2fy6swua"},
    {V1, KOMBILAD_BASE32_UPPER, "BAFYREIGBTJ4X7IP5LEGNFZNUFUOPL4SG4KNZC2COF6DUAS4B3Q2FY6SWUA"},
    {V1, KOMBILAD_BASE36, "k2jvsla7rx07po8wdyvzxe82uz6rmcwryfeqasazkc92idcuxf5jxpk0"},
    {V1, KOMBILAD_BASE58BTC, "zdpuAyTBnYSugBZhqJuLsNpzjmAjSmxDqBbtAqXMtsvxiN2v3"},
    {V1, KOMBILAD_BASE64URL, "uAXESIMGaeX-h_VkM0uW0LRz18kbim5FoTi-HQEuB3DRcelag"},
    {"01550000", KOMBILAD_BASE36, "kdaznk"},
    {"01550000", KOMBILAD_BASE58BTC, "z2yYDV"},
    {V0, KOMBILAD_BASE_USUAL, V0_TEXT},
    {V0, KOMBILAD_BASE58BTC, V0_TEXT},
};

static void check_texts(void) {
    for (size_t at = 0; at < COUNT(texts); at++) {
        bytes cid = from_hex(texts[at].bytes), text = from_text(texts[at].text);
        size_t needed = 7;
        CHECK_OF(texts[at].text, kombilad_cid_to_text(cid.at, cid.len, texts[at].base, NULL, 0,
                                                      &needed) == KOMBILAD_TOO_SHORT);
        CHECK_OF(texts[at].text, needed == text.len);
        for (size_t len = text.len - 1; len <= text.len + 3; len++) {
            uint8_t *buffer = malloc(len);
            memset(buffer, '#', len);
            needed = 7;
            uint32_t status = kombilad_cid_to_text(cid.at, cid.len, texts[at].base, buffer, len,
                                                   &needed);
            CHECK_OF(texts[at].text, needed == text.len);
            if (len < text.len) {
                CHECK_OF(texts[at].text, status == KOMBILAD_TOO_SHORT && is_all(buffer, len, '#'));
            } else {
                CHECK_OF(texts[at].text,
                         status == KOMBILAD_OK && memcmp(buffer, text.at, text.len) == 0);
                CHECK_OF(texts[at].text, is_all(buffer + text.len, len - text.len, '#'));
            }
            free(buffer);
        }
        kombilad_cid read = {9, {9}};
        size_t place = 7;
        CHECK_OF(texts[at].text,
                 kombilad_cid_from_text(text.at, text.len, &read, &place) == KOMBILAD_OK &&
                     place == 7);
        CHECK_OF(texts[at].text, read.len == cid.len && memcmp(read.bytes, cid.at, cid.len) == 0);
        CHECK_OF(texts[at].text, is_all(read.bytes + read.len, sizeof read.bytes - read.len, 0));
        free(cid.at), free(text.at);
    }

    uint8_t buffer[200];
    size_t needed = 7;
    bytes v0 = from_hex(V0), v1 = from_hex(V1), cut = from_hex("0155");
    CHECK(kombilad_cid_to_text(v0.at, v0.len, KOMBILAD_BASE32, buffer, sizeof buffer, &needed) ==
              KOMBILAD_V0_BASE &&
          needed == 7);
    CHECK(kombilad_cid_to_text(v1.at, v1.len, 'm', buffer, sizeof buffer, &needed) ==
              KOMBILAD_UNKNOWN_BASE &&
          needed == 7);
    CHECK(kombilad_cid_to_text(v1.at, v1.len, UINT32_MAX, buffer, sizeof buffer, &needed) ==
              KOMBILAD_UNKNOWN_BASE &&
          needed == 7);
    CHECK(kombilad_cid_to_text(v1.at, v1.len, 0x100 + 'b', buffer, sizeof buffer, &needed) ==
              KOMBILAD_UNKNOWN_BASE &&
          needed == 7);
    CHECK(kombilad_cid_to_text(cut.at, cut.len, KOMBILAD_BASE32, buffer, sizeof buffer, &needed) ==
              KOMBILAD_CID_END &&
          needed == 7);
    free(v0.at), free(v1.at), free(cut.at);
}

static const struct {
    const char *text;
    uint32_t status;
    size_t place;
} no_texts[] = {
    {"", KOMBILAD_TEXT_UNKNOWN_BASE, 7},
    {"mAVUAAA", KOMBILAD_TEXT_UNKNOWN_BASE, 7},
    {"ba", KOMBILAD_TEXT_INVALID_LENGTH, 7},
    {"bafkqaa1", KOMBILAD_TEXT_INVALID_LETTER, 7},
    {"/ipfs/bAfkqaaa", KOMBILAD_TEXT_INVALID_LETTER, 7},
    {"z2yY0V", KOMBILAD_TEXT_INVALID_LETTER, 4},
    {"bafkqaab", KOMBILAD_TEXT_UNUSED_BITS, 7},
    {"z" V0_TEXT, KOMBILAD_TEXT_WRONG_VERSION, 7},
    {"b\xff", KOMBILAD_TEXT_UTF8, 7},
    {"f015500", KOMBILAD_CID_END, 7},
    {"f0155000000", KOMBILAD_CID_TRAILING_BYTES, 7},
};

static void check_no_texts(void) {
    for (size_t at = 0; at < COUNT(no_texts); at++) {
        bytes text = from_text(no_texts[at].text);
        kombilad_cid cid;
        memset(&cid, 9, sizeof cid);
        size_t place = 7;
        CHECK_OF(no_texts[at].text,
                 kombilad_cid_from_text(text.at, text.len, &cid, &place) == no_texts[at].status);
        CHECK_OF(no_texts[at].text, place == no_texts[at].place);
        CHECK_OF(no_texts[at].text, cid.len == 9 && is_all(cid.bytes, sizeof cid.bytes, 9));
        free(text.at);
    }
}

static void check_cid_of_block(void) {
    kombilad_cid cid;
    bytes expected = from_hex(V1);
    kombilad_cid_of_block(0x71, (const uint8_t *)"\xa0", 1, &cid);
    CHECK(cid.len == 36 && memcmp(cid.bytes, expected.at, 36) == 0 &&
          is_all(cid.bytes + 36, sizeof cid.bytes - 36, 0));
    free(expected.at);
    expected = from_hex("01551220" EMPTY_DIGEST);
    kombilad_cid_of_block(0x55, NULL, 0, &cid);
    CHECK(cid.len == 36 && memcmp(cid.bytes, expected.at, 36) == 0);
    free(expected.at);
    kombilad_cid_of_block(UINT64_MAX, NULL, 0, &cid);
    CHECK(cid.len == 45 && kombilad_cid_check(cid.bytes, cid.len) == KOMBILAD_OK);
}

/* ---- Blocks */

#define LINK(cid, len) "d82a58" len "00" cid

static const struct {
    const char *block;
    uint32_t status;
    size_t links;          /* the number of links of a block, or the offset of the error */
    const char *canonical; /* NULL if it is the block itself */
} blocks[] = {
    {"f6", KOMBILAD_OK, 0, NULL},
    {"a0", KOMBILAD_OK, 0, NULL},
    {"1bffffffffffffffff", KOMBILAD_OK, 0, NULL},
    {"3bffffffffffffffff", KOMBILAD_OK, 0, NULL},
    {"d82a450001550000", KOMBILAD_OK, 1, NULL},
    {"83" LINK(V1, "25") "d82a450001550000" LINK(V0, "23"), KOMBILAD_OK, 3, NULL},
    {"a2626161d82a450001550000616202", KOMBILAD_OK, 1, "a2616202626161d82a450001550000"},
    {"a2616202616101", KOMBILAD_OK, 0, "a2616101616202"},
    {"82fb3ff0000000000000d82a450001550000", KOMBILAD_OK, 1, NULL},
    {"fb8000000000000000", KOMBILAD_OK, 0, NULL},
    {"a26162fb8000000000000000616182a2616201616102fb3ff8000000000000", KOMBILAD_OK, 0,
     "a2616182a2616102616201fb3ff80000000000006162fb8000000000000000"},
    {"", KOMBILAD_BLOCK_END, 0, NULL},
    {"82f6", KOMBILAD_BLOCK_END, 2, NULL},
    {"81fb3ff00000000000", KOMBILAD_BLOCK_END, 1, NULL},
    {"1817", KOMBILAD_BLOCK_NOT_SHORTEST, 0, NULL},
    {"82f6590001ff", KOMBILAD_BLOCK_NOT_SHORTEST, 2, NULL},
    {"f93c00", KOMBILAD_BLOCK_FLOAT, 0, NULL},
    {"81fa3f800000", KOMBILAD_BLOCK_FLOAT, 1, NULL},
    {"fb7ff8000000000000", KOMBILAD_BLOCK_FLOAT, 0, NULL},
    {"fbfff0000000000000", KOMBILAD_BLOCK_FLOAT, 0, NULL},
    {"f7", KOMBILAD_BLOCK_UNSUPPORTED, 0, NULL},
    {"9fff", KOMBILAD_BLOCK_UNSUPPORTED, 0, NULL},
    {"c100", KOMBILAD_BLOCK_UNSUPPORTED, 0, NULL},
    {"62c328", KOMBILAD_BLOCK_UTF8, 0, NULL},
    {"a10102", KOMBILAD_BLOCK_KEY_NOT_TEXT, 1, NULL},
    {"a26161016161f6", KOMBILAD_BLOCK_DUPLICATE_KEY, 4, NULL},
    {"a361620261616162616101f6", KOMBILAD_BLOCK_DUPLICATE_KEY, 8, NULL},
    {"d82a40", KOMBILAD_BLOCK_LINK_BYTES, 2, NULL},
    {"d82a4101", KOMBILAD_BLOCK_LINK_BYTES, 2, NULL},
    {"d82af6", KOMBILAD_BLOCK_LINK_BYTES, 2, NULL},
    {"f6f6", KOMBILAD_BLOCK_TRAILING_BYTES, 1, NULL},
    {"d82a4100", KOMBILAD_LINK_END, 2, NULL},
    {"d82a46008100550000", KOMBILAD_LINK_NOT_SHORTEST, 2, NULL},
    {"d82a4c0001ffffffffffffffffff02", KOMBILAD_LINK_VARINT_TOO_LARGE, 2, NULL},
    {"d82a420000", KOMBILAD_LINK_EXPLICIT_VERSION_0, 2, NULL},
    {"d82a420002", KOMBILAD_LINK_UNKNOWN_VERSION, 2, NULL},
    {"d82a450001550041", KOMBILAD_LINK_DIGEST_TOO_LONG, 2, NULL},
    {"d82a46000155000000", KOMBILAD_LINK_TRAILING_BYTES, 2, NULL},
};

#define NONE 777777 /* an offset and a count that no call writes */

static void check_links(const char *name, bytes block, uint32_t expected, size_t count,
                        size_t at_byte) {
    size_t needed = NONE, offset = NONE;
    CHECK_OF(name,
             kombilad_links_count(block.at, block.len, 100, 100, &needed, &offset) == expected);
    CHECK_OF(name, needed == (expected ? NONE : count) && offset == at_byte);
    for (size_t len = count ? count - 1 : 0; len <= count + 1; len++) {
        kombilad_cid *links = len ? malloc(len * sizeof *links) : NULL;
        kombilad_span *spans = len ? malloc(len * sizeof *spans) : NULL;
        if (len) memset(links, 9, len * sizeof *links), memset(spans, 9, len * sizeof *spans);
        size_t spans_needed = NONE, spans_offset = NONE;
        needed = offset = NONE;
        uint32_t status = kombilad_links(block.at, block.len, 100, 100, links, len, &needed,
                                         &offset);
        CHECK_OF(name, kombilad_link_positions(block.at, block.len, 100, 100, spans, len,
                                               &spans_needed, &spans_offset) == status);
        CHECK_OF(name, offset == at_byte && spans_offset == at_byte && spans_needed == needed);
        size_t filled = 0;
        if (expected) {
            CHECK_OF(name, status == expected && needed == NONE);
        } else if (len < count) {
            CHECK_OF(name, status == KOMBILAD_TOO_SHORT && needed == count);
        } else {
            CHECK_OF(name, status == KOMBILAD_OK && needed == count);
            filled = count;
        }
        for (size_t at = 0; at < filled; at++) {
            CHECK_OF(name, kombilad_cid_check(links[at].bytes, links[at].len) == KOMBILAD_OK);
            CHECK_OF(name, is_all(links[at].bytes + links[at].len,
                                  sizeof links[at].bytes - links[at].len, 0));
            CHECK_OF(name,
                     spans[at].len == links[at].len &&
                         memcmp(block.at + spans[at].offset, links[at].bytes, links[at].len) == 0);
        }
        if (len)
            CHECK_OF(name, is_all((uint8_t *)(links + filled), (len - filled) * sizeof *links, 9));
        if (len)
            CHECK_OF(name, is_all((uint8_t *)(spans + filled), (len - filled) * sizeof *spans, 9));
        free(links), free(spans);
    }
}

static void check_tape(const char *name, bytes block, uint32_t expected, size_t at_byte) {
    size_t count = 0, ignored;
    if (!expected)
        CHECK_OF(name, kombilad_tape(block.at, block.len, 100, 100, NULL, 0, &count, &ignored) ==
                               KOMBILAD_TOO_SHORT &&
                           count > 0);
    for (size_t len = count ? count - 1 : 0; len <= count + 1; len++) {
        kombilad_entry *entries = len ? malloc(len * sizeof *entries) : NULL;
        if (len) memset(entries, 9, len * sizeof *entries);
        size_t needed = NONE, offset = NONE, filled = 0;
        uint32_t status = kombilad_tape(block.at, block.len, 100, 100, entries, len, &needed,
                                        &offset);
        CHECK_OF(name, offset == at_byte);
        if (expected) {
            CHECK_OF(name, status == expected && needed == NONE);
        } else if (len < count) {
            CHECK_OF(name, status == KOMBILAD_TOO_SHORT && needed == count);
        } else {
            CHECK_OF(name, status == KOMBILAD_OK && needed == count);
            filled = count;
        }
        if (len)
            CHECK_OF(name,
                     is_all((uint8_t *)(entries + filled), (len - filled) * sizeof *entries, 9));
        free(entries);
    }
}

/* A value of each kind: {"": -1.5, "a": [null, false, true, 24, -1, -2^64, "ö", h'00', a link, [],
 * {}]} */
static const char each_kind[] = "a260fbbff800000000000061618bf6f4f51818203bffffffffffffffff"
                                "62c3b64100d82a45000155000080a0";
static const kombilad_entry each_entry[] = {
    {KOMBILAD_KIND_MAP, 16, 2},
    {KOMBILAD_KIND_KEY, 0, 2},
    {KOMBILAD_KIND_FLOAT, 8, 3},
    {KOMBILAD_KIND_KEY, 1, 12},
    {KOMBILAD_KIND_LIST, 12, 11},
    {KOMBILAD_KIND_NULL, 0, 0},
    {KOMBILAD_KIND_FALSE, 0, 0},
    {KOMBILAD_KIND_TRUE, 0, 0},
    {KOMBILAD_KIND_UNSIGNED, 0, 24},
    {KOMBILAD_KIND_NEGATIVE, 0, 0},
    {KOMBILAD_KIND_NEGATIVE, 0, UINT64_MAX},
    {KOMBILAD_KIND_STRING, 2, 30},
    {KOMBILAD_KIND_BYTES, 1, 33},
    {KOMBILAD_KIND_LINK, 4, 38},
    {KOMBILAD_KIND_LIST, 1, 0},
    {KOMBILAD_KIND_MAP, 1, 0},
};

static void check_each_kind(void) {
    kombilad_entry entries[COUNT(each_entry)];
    size_t needed = NONE, offset = NONE;
    bytes block = from_hex(each_kind);
    CHECK(kombilad_tape(block.at, block.len, 3, 14, entries, COUNT(entries), &needed, &offset) ==
          KOMBILAD_OK);
    CHECK(needed == COUNT(entries) && offset == NONE &&
          memcmp(entries, each_entry, sizeof entries) == 0);
    free(block.at);
}

/* Invalid tapes: entries over the data 00 'b' 'a' ff 01 55 00 00 7f f8 00 00 00 00 00 00, the
 * status, and the entry at fault. */
static const struct {
    kombilad_entry entries[5];
    size_t len;
    uint32_t status;
    size_t at;
} no_tapes[] = {
    {{{0}}, 0, KOMBILAD_TAPE_MISSING, 0},
    {{{KOMBILAD_KIND_NULL, 0, 0}, {KOMBILAD_KIND_NULL, 0, 0}}, 2, KOMBILAD_TAPE_LEFT_OVER, 1},
    {{{12, 0, 0}}, 1, KOMBILAD_TAPE_KIND, 0},
    {{{KOMBILAD_KIND_KEY, 1, 1}}, 1, KOMBILAD_TAPE_KIND, 0},
    {{{KOMBILAD_KIND_LIST, 0, 0}}, 1, KOMBILAD_TAPE_SPAN, 0},
    {{{KOMBILAD_KIND_LIST, 2, 1}}, 1, KOMBILAD_TAPE_SPAN, 0},
    {{{KOMBILAD_KIND_LIST, 1, 1}}, 1, KOMBILAD_TAPE_MISSING, 1},
    {{{KOMBILAD_KIND_LIST, 1, UINT64_MAX}}, 1, KOMBILAD_TAPE_MISSING, 1},
    {{{KOMBILAD_KIND_LIST, 2, 0}, {KOMBILAD_KIND_NULL, 0, 0}}, 2, KOMBILAD_TAPE_LEFT_OVER, 1},
    {{{KOMBILAD_KIND_LIST, 3, 2}, {KOMBILAD_KIND_NULL, 0, 0}, {KOMBILAD_KIND_KEY, 1, 1}},
     3,
     KOMBILAD_TAPE_KIND,
     2},
    {{{KOMBILAD_KIND_LIST, 3, 2}, {KOMBILAD_KIND_LIST, 3, 1}, {KOMBILAD_KIND_NULL, 0, 0}},
     3,
     KOMBILAD_TAPE_SPAN,
     1},
    {{{KOMBILAD_KIND_MAP, 3, 1}, {KOMBILAD_KIND_STRING, 1, 1}, {KOMBILAD_KIND_NULL, 0, 0}},
     3,
     KOMBILAD_TAPE_KIND,
     1},
    {{{KOMBILAD_KIND_MAP, 2, 1}, {KOMBILAD_KIND_KEY, 1, 1}}, 2, KOMBILAD_TAPE_MISSING, 2},
    {{{KOMBILAD_KIND_MAP, 5, 2},
      {KOMBILAD_KIND_KEY, 1, 1},
      {KOMBILAD_KIND_NULL, 0, 0},
      {KOMBILAD_KIND_KEY, 1, 1},
      {KOMBILAD_KIND_NULL, 0, 0}},
     5,
     KOMBILAD_TAPE_DUPLICATE_KEY,
     3},
    {{{KOMBILAD_KIND_MAP, 5, 3},
      {KOMBILAD_KIND_KEY, 1, 2},
      {KOMBILAD_KIND_KEY, 1, 1},
      {KOMBILAD_KIND_NULL, 0, 0},
      {KOMBILAD_KIND_NULL, 0, 0}},
     5,
     KOMBILAD_TAPE_KIND,
     2},
    {{{KOMBILAD_KIND_MAP, 3, 1}, {KOMBILAD_KIND_KEY, 1, 16}, {KOMBILAD_KIND_NULL, 0, 0}},
     3,
     KOMBILAD_TAPE_CONTENT,
     1},
    {{{KOMBILAD_KIND_MAP, 3, 1}, {KOMBILAD_KIND_KEY, 1, 3}, {KOMBILAD_KIND_NULL, 0, 0}},
     3,
     KOMBILAD_TAPE_UTF8,
     1},
    {{{KOMBILAD_KIND_NULL, 1, 0}}, 1, KOMBILAD_TAPE_FIELDS, 0},
    {{{KOMBILAD_KIND_TRUE, 0, 1}}, 1, KOMBILAD_TAPE_FIELDS, 0},
    {{{KOMBILAD_KIND_UNSIGNED, 1, 1}}, 1, KOMBILAD_TAPE_FIELDS, 0},
    {{{KOMBILAD_KIND_FLOAT, 4, 8}}, 1, KOMBILAD_TAPE_FIELDS, 0},
    {{{KOMBILAD_KIND_FLOAT, 8, 8}}, 1, KOMBILAD_TAPE_FLOAT, 0},
    {{{KOMBILAD_KIND_FLOAT, 8, 9}}, 1, KOMBILAD_TAPE_CONTENT, 0},
    {{{KOMBILAD_KIND_STRING, 1, 3}}, 1, KOMBILAD_TAPE_UTF8, 0},
    {{{KOMBILAD_KIND_STRING, 2, UINT64_MAX}}, 1, KOMBILAD_TAPE_CONTENT, 0},
    {{{KOMBILAD_KIND_BYTES, UINT32_MAX, 0}}, 1, KOMBILAD_TAPE_CONTENT, 0},
    {{{KOMBILAD_KIND_LINK, 3, 4}}, 1, KOMBILAD_LINK_END, 0},
    {{{KOMBILAD_KIND_LINK, 5, 4}}, 1, KOMBILAD_LINK_TRAILING_BYTES, 0},
};

static void check_no_tapes(void) {
    bytes data = from_hex("006261ff015500007ff8000000000000");
    for (size_t at = 0; at < COUNT(no_tapes); at++) {
        uint8_t out[20];
        size_t needed = NONE, entry = NONE;
        memset(out, '#', sizeof out);
        CHECK_OF("no tape", kombilad_encode(no_tapes[at].len ? no_tapes[at].entries : NULL,
                                            no_tapes[at].len, data.at, data.len, out, sizeof out,
                                            &needed, &entry) == no_tapes[at].status);
        CHECK_OF("no tape",
                 entry == no_tapes[at].at && needed == NONE && is_all(out, sizeof out, '#'));
    }
    free(data.at);
}

/* Checks that the tape of a block is encoded as the block's canonical form. */
static void check_encode(const char *name, bytes block, bytes canonical) {
    size_t count = 0, ignored;
    CHECK_OF(name, kombilad_tape(block.at, block.len, 100, 100, NULL, 0, &count, &ignored) ==
                       KOMBILAD_TOO_SHORT);
    kombilad_entry *entries = malloc(count * sizeof *entries);
    CHECK_OF(name, kombilad_tape(block.at, block.len, 100, 100, entries, count, &count, &ignored) ==
                       KOMBILAD_OK);
    size_t lens[] = {0, block.len - 1, block.len, block.len + 2};
    for (size_t at = 0; at < COUNT(lens); at++) {
        size_t len = lens[at], needed = NONE, entry = NONE;
        uint8_t *buffer = len ? malloc(len) : NULL;
        if (len) memset(buffer, '#', len);
        uint32_t status = kombilad_encode(entries, count, block.at, block.len, buffer, len, &needed,
                                          &entry);
        CHECK_OF(name, status == (len < block.len ? KOMBILAD_TOO_SHORT : KOMBILAD_OK) &&
                           needed == block.len && entry == NONE);
        size_t filled = len < block.len ? 0 : block.len;
        if (filled) CHECK_OF(name, memcmp(buffer, canonical.at, block.len) == 0);
        if (len) CHECK_OF(name, is_all(buffer + filled, len - filled, '#'));
        free(buffer);
    }
    free(entries);
}

/* ---- Nodes of DAG-PB: a link with its name and its size, one with neither, data, and their
 * entries. */

#define PB_BARE "12060a0401550000"
#define PB_DATA "0a026869"

static const kombilad_entry pb_entries[] = {
    {KOMBILAD_KIND_LINK, 4, 4},  {KOMBILAD_KIND_STRING, 1, 10}, {KOMBILAD_KIND_UNSIGNED, 0, 128},
    {KOMBILAD_KIND_LINK, 4, 18}, {KOMBILAD_KIND_BYTES, 2, 24},
};

static const struct {
    const char *block;
    uint32_t status;
    size_t at, count;
} nodes[] = {
    {"", KOMBILAD_OK, NONE, 0},
    {PB_DATA, KOMBILAD_OK, NONE, 1},
    {PB_BARE, KOMBILAD_OK, NONE, 1},
    {PB_DATA PB_BARE PB_BARE, KOMBILAD_OK, NONE, 3},
    {"120c0a0401550000120161188001", KOMBILAD_OK, NONE, 3},
    {"0a", KOMBILAD_PB_END, 0, 0},
    {PB_BARE "12ff", KOMBILAD_PB_END, 8, 0},
    {"12040a040155", KOMBILAD_PB_END, 2, 0},
    {"12ffffffffffffffffff02", KOMBILAD_PB_VARINT_TOO_LARGE, 0, 0},
    {PB_BARE "1800", KOMBILAD_PB_UNKNOWN_FIELD, 8, 0},
    {"12080a04015500002000", KOMBILAD_PB_UNKNOWN_FIELD, 8, 0},
    {PB_DATA PB_DATA, KOMBILAD_PB_FIELD_ORDER, 4, 0},
    {PB_BARE PB_DATA PB_BARE, KOMBILAD_PB_FIELD_ORDER, 12, 0},
    {"120a0a040155000018011200", KOMBILAD_PB_FIELD_ORDER, 10, 0},
    {"1203120161", KOMBILAD_PB_NO_HASH, 2, 0},
    {"1200", KOMBILAD_PB_NO_HASH, 2, 0},
    {"12090a04015500001201ff", KOMBILAD_PB_UTF8, 8, 0},
    {"12050a03015500", KOMBILAD_LINK_END, 2, 0},
};

static void check_nodes(void) {
    for (size_t at = 0; at < COUNT(nodes); at++) {
        const char *name = nodes[at].block;
        bytes block = from_hex(name);
        size_t count = nodes[at].count;
        for (size_t len = count ? count - 1 : 0; len <= count + 1; len++) {
            kombilad_entry *entries = len ? malloc(len * sizeof *entries) : NULL;
            if (len) memset(entries, 9, len * sizeof *entries);
            size_t needed = NONE, offset = NONE, filled = 0;
            uint32_t status = kombilad_pb_tape(block.at, block.len, entries, len, &needed, &offset);
            CHECK_OF(name, offset == nodes[at].at);
            if (nodes[at].status) {
                CHECK_OF(name, status == nodes[at].status && needed == NONE);
            } else if (len < count) {
                CHECK_OF(name, status == KOMBILAD_TOO_SHORT && needed == count);
            } else {
                CHECK_OF(name, status == KOMBILAD_OK && needed == count);
                filled = count;
            }
            if (len)
                CHECK_OF(name, is_all((uint8_t *)(entries + filled),
                                      (len - filled) * sizeof *entries, 9));
            free(entries);
        }
        free(block.at);
    }
    kombilad_entry entries[COUNT(pb_entries)];
    size_t needed = NONE, offset = NONE;
    bytes block = from_hex("120c0a0401550000120161188001" PB_BARE PB_DATA);
    CHECK(kombilad_pb_tape(block.at, block.len, entries, COUNT(entries), &needed, &offset) ==
          KOMBILAD_OK);
    CHECK(needed == COUNT(entries) && offset == NONE &&
          memcmp(entries, pb_entries, sizeof entries) == 0);
    free(block.at);
}

typedef uint32_t writer(const uint8_t *input, size_t len, size_t levels, size_t values,
                        uint8_t *out, size_t out_len, size_t *needed, size_t *offset);

static void check_written(const char *name, writer *made, bytes input, uint32_t expected,
                          bytes content, size_t at_byte) {
    size_t lens[] = {0, content.len ? content.len - 1 : 0, content.len, content.len + 2};
    for (size_t at = 0; at < COUNT(lens); at++) {
        size_t len = lens[at], needed = NONE, offset = NONE;
        uint8_t *buffer = len ? malloc(len) : NULL;
        if (len) memset(buffer, '#', len);
        uint32_t status = made(input.at, input.len, 100, 100, buffer, len, &needed, &offset);
        size_t filled = 0;
        if (expected) {
            CHECK_OF(name, status == expected && needed == NONE && offset == at_byte);
        } else if (len < content.len) {
            CHECK_OF(name, status == KOMBILAD_TOO_SHORT && needed == content.len && offset == NONE);
        } else {
            CHECK_OF(name, status == KOMBILAD_OK && needed == content.len &&
                               memcmp(buffer, content.at, content.len) == 0 && offset == NONE);
            filled = content.len;
        }
        if (len) CHECK_OF(name, is_all(buffer + filled, len - filled, '#'));
        free(buffer);
    }
}

static void check_blocks(void) {
    for (size_t at = 0; at < COUNT(blocks); at++) {
        const char *name = blocks[at].block;
        uint32_t expected = blocks[at].status;
        bytes block = from_hex(name),
              canonical = from_hex(blocks[at].canonical ? blocks[at].canonical : name);
        size_t offset = NONE, at_byte = expected ? blocks[at].links : NONE;
        CHECK_OF(name, kombilad_block_check(block.at, block.len, 100, 100, &offset) == expected &&
                           offset == at_byte);
        uint32_t order = expected               ? expected
                         : blocks[at].canonical ? KOMBILAD_NOT_CANONICAL
                                                : KOMBILAD_OK;
        offset = NONE;
        CHECK_OF(name,
                 kombilad_block_check_canonical(block.at, block.len, 100, 100, &offset) == order &&
                     offset == at_byte);
        check_links(name, block, expected, expected ? 0 : blocks[at].links, at_byte);
        check_tape(name, block, expected, at_byte);
        if (!expected) check_encode(name, block, canonical);
        check_written(name, kombilad_block_canonicalize, block, expected, canonical, at_byte);
        free(block.at), free(canonical.at);
    }
    kombilad_cid links[3];
    kombilad_span spans[3];
    size_t needed, offset;
    bytes block = from_hex(blocks[5].block), v1 = from_hex(V1), v0 = from_hex(V0);
    CHECK(kombilad_links(block.at, block.len, 1, 4, links, 3, &needed, &offset) == KOMBILAD_OK &&
          needed == 3);
    CHECK(links[0].len == 36 && memcmp(links[0].bytes, v1.at, 36) == 0);
    CHECK(links[1].len == 4 && memcmp(links[1].bytes, "\x01\x55\x00\x00", 4) == 0);
    CHECK(links[2].len == 34 && memcmp(links[2].bytes, v0.at, 34) == 0);
    CHECK(kombilad_link_positions(block.at, block.len, 1, 4, spans, 3, &needed, &offset) ==
              KOMBILAD_OK &&
          needed == 3);
    CHECK(spans[0].offset == 6 && spans[1].offset == 46 && spans[2].offset == 55);
    free(block.at), free(v1.at), free(v0.at);
}

/* Blocks and their DAG-JSON. Each converts to the other. */
static const struct {
    const char *block, *text;
} same[] = {
    {"f6", "null"},
    {"f4", "false"},
    {"f5", "true"},
    {"00", "0"},
    {"20", "-1"},
    {"1bffffffffffffffff", "18446744073709551615"},
    {"3bffffffffffffffff", "-18446744073709551616"},
    {"fb3ff8000000000000", "1.5"},
    {"fb4059000000000000", "100.0"},
    {"fb8000000000000000", "-0.0"},
    {"fb7fefffffffffffff", "1.7976931348623157e308"},
    {"60", "\"\""},
    {"66225c0a1fc3a9", "\"\\\"\\\\\\n\\u001fé\""},
    {"40", "{\"/\":{\"bytes\":\"\"}}"},
    {"426869", "{\"/\":{\"bytes\":\"aGk\"}}"},
    {"d82a582300" V0, "{\"/\":\"" V0_TEXT "\"}"},
    {"d82a450001550000", "{\"/\":\"bafkqaaa\"}"},
    {"80", "[]"},
    {"8301820203a0", "[1,[2,3],{}]"},
    {"a2616201626161f6", "{\"aa\":null,\"b\":1}"},
    {"a1612f01", "{\"/\":1}"},
    {"a1612fa161780a", "{\"/\":{\"x\":10}}"},
    {"a1612fa26161006562797465736161", "{\"/\":{\"a\":0,\"bytes\":\"a\"}}"},
    {"a1612fa16562797465730a", "{\"/\":{\"bytes\":10}}"},
    {"a261216161612f6161", "{\"!\":\"a\",\"/\":\"a\"}"},
};

/* Blocks without a text, or with a text that converts to another block. */
static const struct {
    const char *block, *text;
    uint32_t status;
    size_t at;
} shown[] = {
    {"a2626161f6616201", "{\"aa\":null,\"b\":1}", KOMBILAD_OK, 0},
    {"a1612f6161", "", KOMBILAD_JSON_RESERVED_MAP, 0},
    {"8200a1612f6161", "", KOMBILAD_JSON_RESERVED_MAP, 2},
    {"a2616101612f6161", "", KOMBILAD_JSON_RESERVED_MAP, 0},
    {"a16161a1612fa16562797465736161", "", KOMBILAD_JSON_RESERVED_MAP, 3},
    {"a1612f616100", "", KOMBILAD_BLOCK_TRAILING_BYTES, 5},
    {"81", "", KOMBILAD_BLOCK_END, 1},
    {"fb7ff8000000000000", "", KOMBILAD_BLOCK_FLOAT, 0},
    {"82a1612f616181", "", KOMBILAD_BLOCK_END, 7},
};

/* Texts without a block, or with a block that converts to another text. */
static const struct {
    const char *text, *block;
    uint32_t status;
    size_t at;
} read[] = {
    {" [ 1 ,\n2e0 ]\t", "8201fb4000000000000000", KOMBILAD_OK, 0},
    {"{\"b\":1,\"aa\":null}", "a2616201626161f6", KOMBILAD_OK, 0},
    {"\"\\u0061\\ud83d\\ude00\"", "6561f09f9880", KOMBILAD_OK, 0},
    {"[\"\xc3\"]", "", KOMBILAD_JSON_UTF8, 2},
    {"[1,]", "", KOMBILAD_JSON_SYNTAX, 3},
    {"1 2", "", KOMBILAD_JSON_SYNTAX, 2},
    {"", "", KOMBILAD_JSON_END, 0},
    {"[1", "", KOMBILAD_JSON_END, 2},
    {"[1e999]", "", KOMBILAD_JSON_FLOAT, 1},
    {"18446744073709551616", "", KOMBILAD_JSON_INTEGER_RANGE, 0},
    {"-18446744073709551617", "", KOMBILAD_JSON_INTEGER_RANGE, 0},
    {"{\"a\":1,\"a\":2}", "", KOMBILAD_JSON_DUPLICATE_KEY, 7},
    {"{\"/\":\"bafkqaa\"}", "", KOMBILAD_JSON_LINK, 14},
    {"{\"/\":{\"bytes\":\"aGk=\"}}", "", KOMBILAD_JSON_BYTES, 21},
    {"{\"/\":\"bafkqaaa\",\"a\":1}", "", KOMBILAD_JSON_RESERVED, 21},
};

static void check_json(void) {
    for (size_t at = 0; at < COUNT(same); at++) {
        bytes block = from_hex(same[at].block), text = from_text(same[at].text);
        check_written(same[at].text, kombilad_block_to_json, block, KOMBILAD_OK, text, 0);
        check_written(same[at].text, kombilad_block_of_json, text, KOMBILAD_OK, block, 0);
        free(block.at), free(text.at);
    }
    for (size_t at = 0; at < COUNT(shown); at++) {
        bytes block = from_hex(shown[at].block), text = from_text(shown[at].text);
        check_written(shown[at].block, kombilad_block_to_json, block, shown[at].status, text,
                      shown[at].at);
        free(block.at), free(text.at);
    }
    for (size_t at = 0; at < COUNT(read); at++) {
        bytes block = from_hex(read[at].block), text = from_text(read[at].text);
        check_written(read[at].text, kombilad_block_of_json, text, read[at].status, block,
                      read[at].at);
        free(block.at), free(text.at);
    }
    /* A link is two values of the text, one level deep. */
    static const struct {
        size_t levels, values;
        uint32_t status;
        size_t needed, offset;
    } limits[] = {
        {3, 4, KOMBILAD_TOO_SHORT, 10, NONE},
        {2, 4, KOMBILAD_TOO_DEEP, NONE, 2},
        {3, 3, KOMBILAD_TOO_MANY, NONE, 7},
        {0, 0, KOMBILAD_TOO_DEEP, NONE, 0},
    };
    bytes text = from_text("[[{\"/\":\"bafkqaaa\"}]]");
    for (size_t at = 0; at < COUNT(limits); at++) {
        size_t needed = NONE, offset = NONE;
        CHECK(kombilad_block_of_json(text.at, text.len, limits[at].levels, limits[at].values, NULL,
                                     0, &needed, &offset) == limits[at].status);
        CHECK(needed == limits[at].needed && offset == limits[at].offset);
    }
    free(text.at);
}

/* Paths in {"a": [1, {"b": "cd", "é": [LINK]}], "l": LINK, "0": {"1": null}}, in another order. */
#define PATHS               \
    "a3"                    \
    "616c" LEAF_LINK "6161" \
    "82"                    \
    "01"                    \
    "a2"                    \
    "6162"                  \
    "626364"                \
    "62c3a9"                \
    "81" LEAF_LINK "6130"   \
    "a1"                    \
    "6131"                  \
    "f6"
#define LEAF_LINK "d82a450001550000"

static const struct {
    const char *path;
    uint32_t status;
    size_t offset, len; /* of the value */
    size_t rest, place;
} found_at[] = {
    {"", KOMBILAD_OK, 0, 39, 0, NONE},
    {"/", KOMBILAD_OK, 0, 39, 1, NONE},
    {"//", KOMBILAD_OK, 0, 39, 2, NONE},
    {"a", KOMBILAD_OK, 13, 20, 1, NONE},
    {"/a", KOMBILAD_OK, 13, 20, 2, NONE},
    {"a/0", KOMBILAD_OK, 14, 1, 3, NONE},
    {"a/+0", KOMBILAD_OK, 14, 1, 4, NONE},
    {"a/00000000000000000000001", KOMBILAD_OK, 15, 18, 25, NONE},
    {"a/1/b", KOMBILAD_OK, 18, 3, 5, NONE},
    {"//a///1//b//", KOMBILAD_OK, 18, 3, 12, NONE},
    {"a/1/\xc3\xa9", KOMBILAD_OK, 24, 9, 6, NONE},
    {"0", KOMBILAD_OK, 35, 4, 1, NONE},
    {"0/1", KOMBILAD_OK, 38, 1, 3, NONE},
    /* a link, and paths that continue after it */
    {"l", KOMBILAD_OK, 3, 8, 1, NONE},
    {"l/", KOMBILAD_OK, 3, 8, 2, NONE},
    {"l/x", KOMBILAD_OK, 3, 8, 2, NONE},
    {"/l//x/y/", KOMBILAD_OK, 3, 8, 4, NONE},
    {"a/1/\xc3\xa9/0/\xc3\xa9/z", KOMBILAD_OK, 25, 8, 9, NONE},
    /* no key and no index */
    {"b", KOMBILAD_PATH_MISSING, 0, 0, 0, 1},
    {"A", KOMBILAD_PATH_MISSING, 0, 0, 0, 1},
    {"aa/1", KOMBILAD_PATH_MISSING, 0, 0, 0, 1},
    {"//0/0", KOMBILAD_PATH_MISSING, 0, 0, 0, 2},
    {"a/2", KOMBILAD_PATH_MISSING, 0, 0, 0, 2},
    {"a/-1", KOMBILAD_PATH_MISSING, 0, 0, 0, 2},
    {"a/0x1", KOMBILAD_PATH_MISSING, 0, 0, 0, 2},
    {"a/ 1", KOMBILAD_PATH_MISSING, 0, 0, 0, 2},
    {"a/++1", KOMBILAD_PATH_MISSING, 0, 0, 0, 2},
    {"a/18446744073709551615", KOMBILAD_PATH_MISSING, 0, 0, 0, 2},
    {"a/18446744073709551616", KOMBILAD_PATH_MISSING, 0, 0, 0, 2},
    {"a/18446744073709551617/b", KOMBILAD_PATH_MISSING, 0, 0, 0, 2},
    {"a//1/c/d", KOMBILAD_PATH_MISSING, 0, 0, 0, 3},
    {"a/1/e\xcc\x81", KOMBILAD_PATH_MISSING, 0, 0, 0, 3},
    /* neither a list nor a map nor a link */
    {"a/0/0", KOMBILAD_PATH_NOT_A_CONTAINER, 0, 0, 0, 3},
    {"a/1/b/0", KOMBILAD_PATH_NOT_A_CONTAINER, 0, 0, 0, 4},
    {"0/1/x/y", KOMBILAD_PATH_NOT_A_CONTAINER, 0, 0, 0, 3},
    {"\xff", KOMBILAD_TEXT_UTF8, 0, 0, 0, NONE},
    {"a/1/\xc3", KOMBILAD_TEXT_UTF8, 0, 0, 0, NONE},
    {"l/\xed\xa0\x80", KOMBILAD_TEXT_UTF8, 0, 0, 0, NONE},
};

/* Checks that the call leaves what it doesn't write. */
static void check_at(const char *what, bytes block, size_t levels, size_t values, bytes path,
                     uint32_t status, kombilad_span value, size_t rest, size_t place) {
    kombilad_span given = {NONE, NONE};
    size_t after = NONE, at = NONE;
    uint32_t returned = kombilad_block_at(block.at, block.len, levels, values, path.at, path.len,
                                          &given, &after, &at);
    bool found = status == KOMBILAD_OK;
    if (returned != status || given.offset != (found ? value.offset : NONE) ||
        given.len != (found ? value.len : NONE) || after != (found ? rest : NONE) || at != place) {
        printf("%s: %u %zu %zu %zu %zu\n", what, (unsigned)returned, (size_t)given.offset,
               (size_t)given.len, after, at);
        CHECK(false);
    }
}

static void check_paths(void) {
    bytes block = from_hex(PATHS), none = {NULL, 0};
    for (size_t at = 0; at < COUNT(found_at); at++) {
        bytes path = from_text(found_at[at].path);
        kombilad_span value = {found_at[at].offset, found_at[at].len};
        check_at(found_at[at].path, block, 4, 10, path, found_at[at].status, value,
                 found_at[at].rest, found_at[at].place);
        free(path.at);
    }
    kombilad_span all = {0, block.len};
    check_at("no path", block, 4, 10, none, KOMBILAD_OK, all, 0, NONE);
    check_at("no block", none, 4, 10, none, KOMBILAD_BLOCK_END, all, 0, 0);
    bytes zero = {(uint8_t *)"a\0b", 3};
    check_at("a zero byte", block, 4, 10, zero, KOMBILAD_PATH_MISSING, all, 0, 1);

    /* The block is checked to its end, before the path is read. */
    bytes bad = {(uint8_t *)"\xff", 1}, first = {(uint8_t *)"a", 1};
    for (size_t len = 0; len < block.len; len++) {
        bytes cut = {block.at, len};
        kombilad_span value = {NONE, NONE};
        size_t rest = NONE, place = NONE, offset = NONE;
        uint32_t status = kombilad_block_check(cut.at, cut.len, 4, 10, &offset);
        CHECK(kombilad_block_at(cut.at, cut.len, 4, 10, first.at, 1, &value, &rest, &place) ==
              status);
        CHECK(place == offset && value.len == NONE && rest == NONE);
        check_at("a cut block", cut, 4, 10, bad, status, value, 0, offset);
    }
    check_at("levels", block, 3, 10, first, KOMBILAD_TOO_DEEP, all, 0, 24);
    check_at("values", block, 4, 9, first, KOMBILAD_TOO_MANY, all, 0, 38);
    bytes more = from_hex("a161618000"), tag = from_hex("a1616181d82a4100");
    check_at("more bytes", more, 4, 10, first, KOMBILAD_BLOCK_TRAILING_BYTES, all, 0, 4);
    check_at("a link", tag, 4, 10, first, KOMBILAD_LINK_END, all, 0, 6);

    /* Equal values have their own places. */
    bytes equal = from_hex("84018100810001");
    for (size_t at = 0; at < 4; at++) {
        static const size_t places[] = {1, 2, 4, 6}, lens[] = {1, 2, 2, 1};
        char digit = (char)('0' + at);
        bytes path = {(uint8_t *)&digit, 1};
        kombilad_span value = {places[at], lens[at]};
        check_at("equal values", equal, 4, 10, path, KOMBILAD_OK, value, 1, NONE);
    }

    /* A key of 70,000 bytes, and 70,000 values before it. */
    enum { LONG = 70000, HEAD = 5 };
    bytes large = {malloc(HEAD + LONG + 2 * HEAD + 2 * LONG), 0}, path = {malloc(LONG + 8), LONG};
    memset(path.at, 'k', LONG);
    uint8_t *to = large.at;
    *to++ = 0x82;
    *to++ = 0x9a, *to++ = 0, *to++ = 1, *to++ = 0x11, *to++ = 0x70;
    for (size_t at = 0; at < LONG; at++) *to++ = (uint8_t)(at % 24);
    *to++ = 0xa1;
    *to++ = 0x7a, *to++ = 0, *to++ = 1, *to++ = 0x11, *to++ = 0x70;
    memcpy(to, path.at, LONG), to += LONG;
    *to++ = 0x81, *to++ = 0x17;
    large.len = (size_t)(to - large.at);
    memcpy(path.at + LONG, "/0", 2), path.len = LONG + 2;
    kombilad_span value = {large.len - 1, 1};
    bytes whole = {malloc(path.len + 2), path.len + 2};
    memcpy(whole.at, "1/", 2), memcpy(whole.at + 2, path.at, path.len);
    check_at("a long key", large, 4, SIZE_MAX, whole, KOMBILAD_OK, value, whole.len, NONE);
    whole.at[100] = 'l';
    check_at("another long key", large, 4, SIZE_MAX, whole, KOMBILAD_PATH_MISSING, value, 0, 2);
    bytes last = from_text("0/69999"), over = from_text("0/70000");
    kombilad_span item = {HEAD + LONG, 1};
    check_at("the last item", large, 4, SIZE_MAX, last, KOMBILAD_OK, item, 7, NONE);
    check_at("no item", large, 4, SIZE_MAX, over, KOMBILAD_PATH_MISSING, item, 0, 2);
    free(last.at), free(over.at), free(whole.at), free(path.at), free(large.at);
    free(equal.at), free(more.at), free(tag.at), free(block.at);
}

static void check_limits(void) {
    uint8_t out[8];
    const uint8_t nested[] = {0x82, 0x81, 0x80, 0x80}, cut[] = {0x82, 0x81, 0x81};
    static const struct {
        bool is_cut;
        size_t levels, values;
        uint32_t status;
        size_t offset;
    } limits[] = {
        {false, 3, 4, KOMBILAD_OK, NONE},
        {false, 2, 4, KOMBILAD_TOO_DEEP, 2},
        {false, 3, 3, KOMBILAD_TOO_MANY, 3},
        {true, 2, 4, KOMBILAD_TOO_DEEP, 2},
        {true, 3, 4, KOMBILAD_BLOCK_END, 3},
        {true, 0, 0, KOMBILAD_TOO_DEEP, 0},
        {true, SIZE_MAX, SIZE_MAX, KOMBILAD_BLOCK_END, 3},
    };
    for (size_t at = 0; at < COUNT(limits); at++) {
        const uint8_t *block = limits[at].is_cut ? cut : nested;
        size_t len = limits[at].is_cut ? 3 : 4, levels = limits[at].levels,
               values = limits[at].values, needed = NONE;
        uint32_t status = limits[at].status;
        size_t offsets[9] = {NONE, NONE, NONE, NONE, NONE, NONE, NONE, NONE, NONE};
        kombilad_span span;
        CHECK(kombilad_block_check(block, len, levels, values, &offsets[0]) == status);
        CHECK(kombilad_block_check_canonical(block, len, levels, values, &offsets[1]) == status);
        CHECK(kombilad_block_canonicalize(block, len, levels, values, out, sizeof out, &needed,
                                          &offsets[2]) == status);
        CHECK(kombilad_links_count(block, len, levels, values, &needed, &offsets[3]) == status);
        CHECK(kombilad_links(block, len, levels, values, NULL, 0, &needed, &offsets[4]) == status);
        CHECK(kombilad_link_positions(block, len, levels, values, NULL, 0, &needed, &offsets[5]) ==
              status);
        CHECK(kombilad_tape(block, len, levels, values, NULL, 0, &needed, &offsets[6]) ==
              (status ? status : KOMBILAD_TOO_SHORT));
        CHECK(kombilad_block_to_json(block, len, levels, values, NULL, 0, &needed, &offsets[7]) ==
              (status ? status : KOMBILAD_TOO_SHORT));
        CHECK(kombilad_block_at(block, len, levels, values, NULL, 0, &span, &needed, &offsets[8]) ==
              status);
        for (size_t call = 0; call < COUNT(offsets); call++)
            CHECK(offsets[call] == limits[at].offset);
    }
}

/* ---- Each allocation refused */

typedef uint32_t call(bytes input, void *out, size_t len, size_t *needed);

static uint32_t call_to_text(bytes cid, void *out, size_t len, size_t *needed) {
    return kombilad_cid_to_text(cid.at, cid.len, KOMBILAD_BASE58BTC, out, len, needed);
}
static uint32_t call_usual_text(bytes cid, void *out, size_t len, size_t *needed) {
    return kombilad_cid_to_text(cid.at, cid.len, 0, out, len, needed);
}
static uint32_t call_check(bytes block, void *out, size_t len, size_t *needed) {
    size_t offset;
    (void)out, (void)len, (void)needed;
    return kombilad_block_check(block.at, block.len, 100, 100, &offset);
}

static uint32_t call_count(bytes block, void *out, size_t len, size_t *needed) {
    size_t offset;
    (void)out, (void)len, (void)needed;
    return kombilad_links_count(block.at, block.len, 100, 100, needed, &offset);
}

static uint32_t call_links(bytes block, void *out, size_t len, size_t *needed) {
    size_t offset;
    (void)out, (void)len, (void)needed;
    return kombilad_links(block.at, block.len, 100, 100, out, len / sizeof(kombilad_cid), needed,
                          &offset);
}

static uint32_t call_positions(bytes block, void *out, size_t len, size_t *needed) {
    size_t offset;
    (void)out, (void)len, (void)needed;
    return kombilad_link_positions(block.at, block.len, 100, 100, out, len / sizeof(kombilad_span),
                                   needed, &offset);
}

static uint32_t call_tape(bytes block, void *out, size_t len, size_t *needed) {
    size_t offset;
    return kombilad_tape(block.at, block.len, 100, 100, out, len / sizeof(kombilad_entry), needed,
                         &offset);
}

static uint32_t call_encode(bytes data, void *out, size_t len, size_t *needed) {
    kombilad_entry entries[] = {{KOMBILAD_KIND_LIST, 3, 2},
                                {KOMBILAD_KIND_BYTES, (uint32_t)data.len, 0},
                                {KOMBILAD_KIND_NULL, 0, 0}};
    size_t at;
    return kombilad_encode(entries, COUNT(entries), data.at, data.len, out, len, needed, &at);
}

static uint32_t call_pb_tape(bytes node, void *out, size_t len, size_t *needed) {
    size_t offset;
    return kombilad_pb_tape(node.at, node.len, out, len / sizeof(kombilad_entry), needed, &offset);
}

static uint32_t call_canonicalize(bytes block, void *out, size_t len, size_t *needed) {
    size_t offset;
    (void)out, (void)len, (void)needed;
    return kombilad_block_canonicalize(block.at, block.len, 100, 100, out, len, needed, &offset);
}

static uint32_t call_to_json(bytes block, void *out, size_t len, size_t *needed) {
    size_t offset = 0;
    uint32_t status = kombilad_block_to_json(block.at, block.len, 100, 100, out, len, needed,
                                             &offset);
    CHECK(offset <= block.len);
    return status;
}

static uint32_t call_at(bytes block, void *out, size_t len, size_t *needed) {
    kombilad_span span;
    size_t place = 0;
    (void)out, (void)len;
    uint32_t status = kombilad_block_at(block.at, block.len, 100, 100, (const uint8_t *)"aa/0/x/y",
                                        8, &span, needed, &place);
    CHECK(place <= block.len);
    return status;
}

static uint32_t call_of_json(bytes text, void *out, size_t len, size_t *needed) {
    size_t offset = 0;
    uint32_t status = kombilad_block_of_json(text.at, text.len, 100, 100, out, len, needed,
                                             &offset);
    CHECK(offset <= text.len);
    return status;
}

static uint32_t call_check_canonical(bytes block, void *out, size_t len, size_t *needed) {
    size_t offset;
    (void)out, (void)len, (void)needed;
    return kombilad_block_check_canonical(block.at, block.len, 100, 100, &offset);
}

/* ---- Files of UnixFS */

/* The file "foobar\n" in chunks of two bytes, as go-ipfs packs it: the CID and the block of the
 * root, and then of each leaf. */
#define FILE_LINK(digest, total) "12280a221220" digest "120018" total
#define FO "fef9fe1804942b35e19e145a03f9c9d5ca9c997dda0a9416f3f515a52f1b3ce1"
#define OB "dfb94b75acb208fd4873d84872af58bd65c731770a7d4c0deeb4088e87390bfe"
#define AR "054497ae4e89812c83276a48e3e679013a788b7c0eb02712df15095c02d6cd2c"
#define LF "cc332ceb37dea7d3d7c00d1393117638d3ed963575836c6d44a24951e444cf5d"
#define FILE_ROOT "12202bf7f75b76e336f34a04abd86af423b5063628ffd91e5392444078851dc31655"
#define LYING_NODE "120b0a050155000161120018010a06080218022002"
#define FOLDER "122059948439065f29619ef41280cbb932be52c56d99c5966b65e0111239f098bbef"

static const struct {
    const char *cid, *block, *bytes;
} file_parts[] = {
    {FILE_ROOT,
     FILE_LINK(FO, "0a") FILE_LINK(OB, "0a") FILE_LINK(AR, "0a")
         FILE_LINK(LF, "09") "0a0c080218072002200220022001",
     ""},
    {"1220" FO, "0a0808021202666f1802", "fo"},
    {"1220" OB, "0a08080212026f621802", "ob"},
    {"1220" AR, "0a080802120261721802", "ar"},
    {"1220" LF, "0a07080212010a1801", "\n"},
};

/* Begins a walk with these limits on bytes, blocks, waiting blocks and levels. */
static uint32_t begin_file(const char *digits, uint64_t size, uint64_t blocks, size_t waiting,
                           size_t levels, kombilad_walk *walk) {
    bytes root = from_hex(digits);
    uint32_t status = kombilad_file_new(root.at, root.len, 0, UINT64_MAX, size, blocks, waiting,
                                        levels, walk);
    free(root.at);
    return status;
}

/* Gives a block to a walk. The buffer has `short_by` bytes fewer than the block. Returns the status,
 * and checks that nothing is written with an error, except the offset. */
static uint32_t take_block(kombilad_walk *walk, const char *digits, size_t short_by,
                           const char *expected, size_t at) {
    bytes block = from_hex(digits);
    size_t len = block.len - short_by, needed = 7, offset = 7;
    uint8_t *out = malloc(len + 1);
    memset(out, '#', len);
    uint32_t status = kombilad_file_take(walk, block.at, block.len, out, len, &needed, &offset);
    if (status == KOMBILAD_OK) {
        CHECK_OF(digits, needed == strlen(expected) && memcmp(out, expected, needed) == 0);
        CHECK_OF(digits, is_all(out + needed, len - needed, '#') && offset == 7);
    } else {
        CHECK_OF(digits, is_all(out, len, '#'));
        CHECK_OF(digits, needed == (status == KOMBILAD_TOO_SHORT ? block.len : 7));
        CHECK_OF(digits, offset == at);
    }
    free(block.at), free(out);
    return status;
}

static bool wants(kombilad_walk *walk, const char *digits) {
    kombilad_cid cid;
    bytes wanted = from_hex(digits);
    bool same = kombilad_walk_wanted(walk, &cid) == KOMBILAD_OK && cid.len == wanted.len &&
                memcmp(cid.bytes, wanted.at, cid.len) == 0;
    free(wanted.at);
    return same;
}

/* Begins a walk over the file, and gives it the first `count` of its blocks. */
static void take_parts(kombilad_walk *walk, size_t count) {
    CHECK(begin_file(FILE_ROOT, UINT64_MAX, KOMBILAD_FILE_BLOCKS, KOMBILAD_FILE_WAITING,
                     KOMBILAD_FILE_LEVELS, walk) == KOMBILAD_OK);
    for (size_t at = 0; at < count; at++) {
        CHECK(wants(walk, file_parts[at].cid));
        CHECK(take_block(walk, file_parts[at].block, 1, "", 7) == KOMBILAD_TOO_SHORT);
        CHECK(take_block(walk, file_parts[at].block, 0, file_parts[at].bytes, 7) == KOMBILAD_OK);
    }
}

/* Blocks that a walk doesn't take. Most CIDs have the block as their digest, by the hash identity. */
static const struct {
    const char *cid, *block;
    uint32_t status;
    size_t offset;
} no_parts[] = {
    {FILE_ROOT, "0a0808021202666f1802", KOMBILAD_WRONG_DIGEST, 0},
    {"0170b32000", "", KOMBILAD_UNKNOWN_HASH, 0},
    {"01710001a0", "a0", KOMBILAD_FILE_CODEC, 0},
    {"01700000", "", KOMBILAD_FILE_NO_DATA, 0},
    {FOLDER, "0a020801", KOMBILAD_FILE_NOT_FILE, 0},
    {"0170000a0a080802180220022001", "0a080802180220022001", KOMBILAD_FILE_SIZE_COUNT, 0},
    {"017000060a0408021801", "0a0408021801", KOMBILAD_FILE_SIZE, 0},
    {"01700003120100", "120100", KOMBILAD_PB_NO_HASH, 2},
    {"017000050a0308021a", "0a0308021a", KOMBILAD_UNIXFS_UNKNOWN_FIELD, 2},
    {"017000040a020809", "0a020809", KOMBILAD_UNIXFS_UNKNOWN_TYPE, 0},
};

static const struct {
    uint64_t size, blocks;
    size_t waiting, levels, taken;
    uint32_t status;
} file_limits[] = {
    {7, 5, 4, 1, 5, KOMBILAD_OK},
    {6, 5, 4, 1, 0, KOMBILAD_FILE_TOO_LARGE},
    {7, 0, 4, 1, 0, KOMBILAD_FILE_TOO_MANY_BLOCKS},
    {7, 4, 4, 1, 4, KOMBILAD_FILE_TOO_MANY_BLOCKS},
    {7, 5, 3, 1, 0, KOMBILAD_FILE_TOO_MANY_PARTS},
    {7, 5, 4, 0, 0, KOMBILAD_FILE_TOO_DEEP},
};

static void check_files(void) {
    long before = held;
    kombilad_walk walk = {0};
    kombilad_cid cid = {0};
    CHECK(kombilad_walk_wanted(&walk, &cid) == KOMBILAD_WALK_CLOSED && cid.len == 0);
    CHECK(take_block(&walk, "00", 0, "", 7) == KOMBILAD_WALK_CLOSED);
    kombilad_walk_free(&walk);
    CHECK(begin_file("0170", 1, 1, 1, 1, &walk) == KOMBILAD_CID_END && walk.is_open == 0);

    take_parts(&walk, COUNT(file_parts));
    CHECK(kombilad_walk_wanted(&walk, &cid) == KOMBILAD_WALK_DONE && cid.len == 0);
    CHECK(take_block(&walk, "00", 0, "", 0) == KOMBILAD_WALK_DONE);
    CHECK(begin_file("0170", 1, 1, 1, 1, &walk) == KOMBILAD_CID_END);
    CHECK(kombilad_walk_wanted(&walk, &cid) == KOMBILAD_WALK_DONE);
    /* A new walk frees the old one. A wrong block changes nothing. */
    take_parts(&walk, 3);
    CHECK(take_block(&walk, file_parts[2].block, 0, "", 0) == KOMBILAD_WRONG_DIGEST);
    CHECK(wants(&walk, file_parts[3].cid));
    CHECK(take_block(&walk, file_parts[3].block, 0, "ar", 7) == KOMBILAD_OK);
    /* The record may be moved. */
    kombilad_walk moved = walk;
    walk = (kombilad_walk){0};
    CHECK(wants(&moved, file_parts[4].cid));
    kombilad_walk_free(&moved);
    CHECK(kombilad_walk_wanted(&moved, &cid) == KOMBILAD_WALK_CLOSED);
    kombilad_walk_free(&moved);
    CHECK(held == before);

    for (size_t at = 0; at < COUNT(no_parts); at++) {
        kombilad_walk other = {0};
        CHECK_OF(no_parts[at].cid, begin_file(no_parts[at].cid, 9, 9, 9, 9, &other) == KOMBILAD_OK);
        uint32_t status = take_block(&other, no_parts[at].block, 0, "", no_parts[at].offset);
        CHECK_OF(no_parts[at].cid, status == no_parts[at].status);
        CHECK_OF(no_parts[at].cid, wants(&other, no_parts[at].cid));
        kombilad_walk_free(&other);
    }
    for (size_t at = 0; at < COUNT(file_limits); at++) {
        kombilad_walk other = {0};
        CHECK(begin_file(FILE_ROOT, file_limits[at].size, file_limits[at].blocks,
                         file_limits[at].waiting, file_limits[at].levels, &other) == KOMBILAD_OK);
        for (size_t part = 0; part < file_limits[at].taken; part++)
            CHECK(take_block(&other, file_parts[part].block, 0, file_parts[part].bytes, 7) ==
                  KOMBILAD_OK);
        if (file_limits[at].status != KOMBILAD_OK)
            CHECK(take_block(&other, file_parts[file_limits[at].taken].block, 0, "", 0) ==
                  file_limits[at].status);
        kombilad_walk_free(&other);
    }
    /* A leaf of one byte, which the block above it states to have two. */
    CHECK(begin_file("01700015" LYING_NODE, 9, 9, 9, 9, &walk) == KOMBILAD_OK);
    CHECK(take_block(&walk, LYING_NODE, 0, "", 7) == KOMBILAD_OK);
    CHECK(take_block(&walk, "61", 0, "", 0) == KOMBILAD_FILE_PART_SIZE);
    kombilad_walk_free(&walk);
    CHECK(held == before);
}

/* Ranges of the file, and the parts that a walk over each wants. */
static const struct {
    uint64_t start, length;
    size_t parts[6]; /* 0 ends the list: the root is wanted first in any case */
    const char *bytes[5];
} file_ranges[] = {
    {0, 0, {0}, {0}},
    {0, 1, {1}, {"f"}},
    {1, 2, {1, 2}, {"o", "o"}},
    {4, UINT64_MAX, {3, 4}, {"ar", "\n"}},
    {6, 9, {4}, {"\n"}},
    {7, UINT64_MAX, {0}, {0}},
    {UINT64_MAX, UINT64_MAX, {0}, {0}},
};

static void check_ranges(void) {
    bytes root = from_hex(FILE_ROOT);
    for (size_t at = 0; at < COUNT(file_ranges); at++) {
        kombilad_walk walk = {0};
        kombilad_cid cid;
        CHECK(kombilad_file_new(root.at, root.len, file_ranges[at].start, file_ranges[at].length, 7,
                                9, 9, 9, &walk) == KOMBILAD_OK);
        CHECK(take_block(&walk, file_parts[0].block, 0, "", 7) == KOMBILAD_OK);
        for (size_t part = 0; file_ranges[at].parts[part]; part++) {
            CHECK(wants(&walk, file_parts[file_ranges[at].parts[part]].cid));
            CHECK(take_block(&walk, file_parts[file_ranges[at].parts[part]].block, 0,
                             file_ranges[at].bytes[part], 7) == KOMBILAD_OK);
        }
        CHECK(kombilad_walk_wanted(&walk, &cid) == KOMBILAD_WALK_DONE);
        kombilad_walk_free(&walk);
    }
    free(root.at);
}

/* Walks over the file whose blocks are `file_blocks`. */
static bytes file_blocks[COUNT(file_parts)];

static uint32_t call_file(bytes root, void *out, size_t len, size_t *needed) {
    kombilad_walk walk = {0};
    uint8_t room[300];
    size_t count, offset;
    (void)out, (void)len, (void)needed;
    uint32_t status = kombilad_file_new(root.at, root.len, 0, 7, 7, 5, 4, 1, &walk);
    for (size_t at = 0; at < COUNT(file_blocks) && status == KOMBILAD_OK; at++)
        status = kombilad_file_take(&walk, file_blocks[at].at, file_blocks[at].len, room,
                                    sizeof room, &count, &offset);
    kombilad_walk_free(&walk);
    return status;
}

/* ---- Folders of UnixFS */

/* A plain folder with the file "a", of the bytes "hi", and the symbolic link "b" to it, and a sharded
 * one with three names of that file, of which two are in a shard below. tests/ipld/unixfs.py wrote
 * them. */
#define HI "015512208f434346648f6b96df89dda901c5176b10a6d83961dd3c1ac88b59b2dc327aa4"
#define TO_A "12201cb0285f67cb6b5b2ca01ea3e11ea650fb402575ad8d025def6b29b55580331f"
#define PLAIN_ROOT "1220c9e9e20233f046586e7d96b6d446c14971564ca34e3d1376e03141bf61fb2ddf"
#define PLAIN \
    "122b0a24" HI "120161180212290a22" TO_A "12016218070a12080138ed03420b0880e2cfaa061505000000"
#define PLAIN_TOTAL 9 + (sizeof PLAIN - 1) / 2
#define SHARD_TOTAL 2 + (sizeof SHARD_TOP - 1) / 2 + SHARD_REST_TOTAL
#define SHARD_REST_TOTAL 4 + (sizeof SHARD_REST - 1) / 2
#define SHARD_ROOT "0170122046ed5af0849f77d3eff2f726c85213d771b0c899b7c0f6a2c2371098f051e442"
#define SHARD_BELOW "01701220f622ff4b593d35ad731c47a3c5f70c3daae91f0b1ccd384adbe5ca31847eb07a"
#define NAME_016 "6c6f6e672d6e616d65642d66696c652d303136"
#define NAME_037 "6c6f6e672d6e616d65642d66696c652d303337"
#define NAME_048 "6c6f6e672d6e616d65642d66696c652d303438"
#define SHARD_TOP                                                          \
    "122d0a24" SHARD_BELOW "1202303718b101123f0a24" HI "12154631" NAME_048 \
    "18020a280805121f" ZEROS_30 "802822308002"
#define ZEROS_10 "00000000000000000000"
#define ZEROS_30 "02" ZEROS_10 ZEROS_10 "000000000000000000"
#define SHARD_REST                                                          \
    "123f0a24" HI "12153438" NAME_016 "1802123f0a24" HI "12154642" NAME_037 \
    "18020a290805122008" ZEROS_10 ZEROS_10 "0001"                           \
    "000000000000000000"                                                    \
    "2822308002"

/* An entry that a walk lists: the CID, the name and the size that the link states. */
typedef struct listed {
    const char *cid, *name;
    uint64_t tsize;
} listed;

static uint32_t begin_folder(const char *digits, kombilad_walk *walk) {
    bytes root = from_hex(digits);
    uint32_t status = kombilad_folder_new(root.at, root.len, walk);
    free(root.at);
    return status;
}

/* Gives a block to a walk over a folder, with room for `less` entries fewer than it asks for, and
 * for `short_by` bytes of names fewer. Checks the entries, or that nothing is written with an
 * error except the place. */
static uint32_t take_folder(kombilad_walk *walk, const char *digits, size_t less, size_t short_by,
                            const listed *expected, size_t count, size_t at) {
    bytes block = from_hex(digits);
    size_t most = KOMBILAD_FOLDER_ENTRIES(block.len) - less, len = block.len - short_by;
    size_t needed = 7, place = 7, used = 0;
    kombilad_folder_entry *entries = malloc((most + 1) * sizeof *entries);
    uint8_t *names = malloc(len + 1);
    memset(entries, '#', most * sizeof *entries), memset(names, '#', len);
    uint32_t status = kombilad_folder_take(walk, block.at, block.len, entries, most, names, len,
                                           &needed, &place);
    if (status == KOMBILAD_OK) {
        CHECK_OF(digits, needed == count && place == 7);
        for (size_t i = 0; i < count; i++) {
            bytes cid = from_hex(expected[i].cid);
            CHECK_OF(digits, entries[i].cid.len == cid.len &&
                                 memcmp(entries[i].cid.bytes, cid.at, cid.len) == 0);
            CHECK_OF(digits, entries[i].name.offset == used &&
                                 entries[i].name.len == strlen(expected[i].name) &&
                                 memcmp(names + used, expected[i].name, entries[i].name.len) == 0);
            CHECK_OF(digits, entries[i].tsize == expected[i].tsize && entries[i].has_tsize == 1);
            used += entries[i].name.len;
            free(cid.at);
        }
        CHECK_OF(digits,
                 is_all((uint8_t *)(entries + count), (most - count) * sizeof *entries, '#'));
    } else {
        CHECK_OF(digits, is_all((uint8_t *)entries, most * sizeof *entries, '#'));
        CHECK_OF(digits, needed == (status == KOMBILAD_TOO_SHORT ? block.len / 6 : 7));
        CHECK_OF(digits, place == at);
    }
    CHECK_OF(digits, is_all(names + used, len - used, '#'));
    free(block.at), free(entries), free(names);
    return status;
}

/* Blocks that a walk doesn't take, and the places of their errors. */
static const struct {
    const char *cid, *block;
    uint32_t status;
    size_t place;
} no_folders[] = {
    {PLAIN_ROOT, "0a020801", KOMBILAD_WRONG_DIGEST, 0},
    {"0170b32000", "", KOMBILAD_UNKNOWN_HASH, 0},
    {"015500026869", "6869", KOMBILAD_FOLDER_CODEC, 0},
    {"01700000", "", KOMBILAD_FILE_NO_DATA, 0},
    {"01700003120100", "120100", KOMBILAD_PB_NO_HASH, 2},
    {"017000040a020809", "0a020809", KOMBILAD_UNIXFS_UNKNOWN_TYPE, 0},
    {"017000060a0408021800", "0a0408021800", KOMBILAD_FOLDER_NOT_FOLDER, 0},
    {"017000090a0708052802308002", "0a0708052802308002", KOMBILAD_FOLDER_HASH_FUNCTION, 0},
};

/* Names of entries in a plain folder of identity blocks: "x" is empty raw data. */
#define X_LINK(size, len, name) \
    "12" size "0a0401550000"    \
    "12" len name
#define FOLDER_OF(links) links "0a020801"

static const struct {
    const char *block;
    uint32_t status;
    size_t place;
} bad_names[] = {
    {FOLDER_OF(X_LINK("09", "01", "61") X_LINK("08", "00", "")), KOMBILAD_FOLDER_INVALID_NAME, 1},
    {FOLDER_OF(X_LINK("09", "01", "2e")), KOMBILAD_FOLDER_INVALID_NAME, 0},
    {FOLDER_OF(X_LINK("0a", "02", "2e2e")), KOMBILAD_FOLDER_INVALID_NAME, 0},
    {FOLDER_OF(X_LINK("0b", "03", "612f62")), KOMBILAD_FOLDER_INVALID_NAME, 0},
    {FOLDER_OF(X_LINK("0a", "02", "6100")), KOMBILAD_FOLDER_INVALID_NAME, 0},
    {FOLDER_OF(X_LINK("09", "01", "61") X_LINK("09", "01", "61")), KOMBILAD_FOLDER_NAME_ORDER, 1},
    {FOLDER_OF(X_LINK("09", "01", "62") X_LINK("09", "01", "61")), KOMBILAD_FOLDER_NAME_ORDER, 1},
};

static void check_folders(void) {
    static const listed plain[] = {{HI, "a", 2}, {TO_A, "b", 7}};
    static const listed top[] = {{HI, "long-named-file-048", 2}};
    static const listed rest[] = {{HI, "long-named-file-016", 2}, {HI, "long-named-file-037", 2}};
    long before = held;
    kombilad_walk walk = {0};
    kombilad_cid cid = {0};
    CHECK(take_folder(&walk, PLAIN, 0, 0, NULL, 0, 7) == KOMBILAD_WALK_CLOSED);
    CHECK(begin_folder("0170", &walk) == KOMBILAD_CID_END && walk.is_open == 0);
    CHECK(begin_folder(PLAIN_ROOT, &walk) == KOMBILAD_OK);
    CHECK(wants(&walk, PLAIN_ROOT));
    /* A walk over a folder takes no block of a file. */
    CHECK(take_block(&walk, PLAIN, 0, "", 7) == KOMBILAD_WALK_CLOSED);
    CHECK(take_folder(&walk, PLAIN, 1, 0, NULL, 0, 7) == KOMBILAD_TOO_SHORT);
    CHECK(take_folder(&walk, PLAIN, 0, 1, NULL, 0, 7) == KOMBILAD_TOO_SHORT);
    CHECK(wants(&walk, PLAIN_ROOT));
    CHECK(take_folder(&walk, PLAIN, 0, 0, plain, 2, 7) == KOMBILAD_OK);
    CHECK(kombilad_walk_wanted(&walk, &cid) == KOMBILAD_WALK_DONE && cid.len == 0);
    CHECK(take_folder(&walk, PLAIN, 0, 0, NULL, 0, 0) == KOMBILAD_WALK_DONE);
    /* A new walk frees the old one. */
    CHECK(begin_folder(SHARD_ROOT, &walk) == KOMBILAD_OK);
    CHECK(take_folder(&walk, SHARD_TOP, 0, 0, top, 1, 7) == KOMBILAD_OK);
    CHECK(wants(&walk, SHARD_BELOW));
    CHECK(take_folder(&walk, SHARD_TOP, 0, 0, NULL, 0, 0) == KOMBILAD_WRONG_DIGEST);
    CHECK(take_folder(&walk, SHARD_REST, 0, 0, rest, 2, 7) == KOMBILAD_OK);
    CHECK(kombilad_walk_wanted(&walk, &cid) == KOMBILAD_WALK_DONE);
    /* A walk over a file takes no block of a folder. */
    CHECK(begin_file(FILE_ROOT, 9, 9, 9, 9, &walk) == KOMBILAD_OK);
    CHECK(take_folder(&walk, PLAIN, 0, 0, NULL, 0, 7) == KOMBILAD_WALK_CLOSED);
    CHECK(wants(&walk, FILE_ROOT));
    kombilad_walk_free(&walk);
    CHECK(held == before);

    for (size_t at = 0; at < COUNT(no_folders); at++) {
        CHECK_OF(no_folders[at].cid, begin_folder(no_folders[at].cid, &walk) == KOMBILAD_OK);
        uint32_t status = take_folder(&walk, no_folders[at].block, 0, 0, NULL, 0,
                                      no_folders[at].place);
        CHECK_OF(no_folders[at].cid, status == no_folders[at].status);
        CHECK_OF(no_folders[at].cid, wants(&walk, no_folders[at].cid));
        kombilad_walk_free(&walk);
    }
    for (size_t at = 0; at < COUNT(bad_names); at++) {
        /* The CID of the block by the hash identity: these blocks have fewer than 64 bytes. */
        char digits[200];
        snprintf(digits, sizeof digits, "017000%02zx%s", strlen(bad_names[at].block) / 2,
                 bad_names[at].block);
        CHECK_OF(digits, begin_folder(digits, &walk) == KOMBILAD_OK);
        CHECK_OF(digits, take_folder(&walk, bad_names[at].block, 0, 0, NULL, 0,
                                     bad_names[at].place) == bad_names[at].status);
        kombilad_walk_free(&walk);
    }
    CHECK(held == before);
}

/* Looks for a name in a folder, in blocks that stand in reverse order in the buffer. Returns the
 * status, and checks the CID that is written, if `expected` is one, and else that none is. */
static uint32_t look_for(const char *folder, const char *name, size_t name_len,
                         const char *const *blocks, size_t count, const char *expected, size_t at) {
    bytes root = from_hex(folder), wanted = from_hex(expected ? expected : "");
    uint8_t *room = malloc(4096);
    kombilad_span spans[4] = {{0, 0}};
    size_t used = 0, place = 7;
    memset(room, '#', 4096);
    for (size_t i = count; i-- > 0;) {
        bytes block = from_hex(blocks[i]);
        memcpy(room + used, block.at, block.len);
        spans[i] = (kombilad_span){used, block.len};
        used += block.len;
        free(block.at);
    }
    kombilad_cid cid;
    memset(&cid, '#', sizeof cid);
    uint32_t status = kombilad_folder_lookup(root.at, root.len, (const uint8_t *)name, name_len,
                                             room, used, spans, count, &cid, &place);
    if (expected)
        CHECK_OF(name, cid.len == wanted.len && memcmp(cid.bytes, wanted.at, cid.len) == 0);
    else
        CHECK_OF(name, is_all((uint8_t *)&cid, sizeof cid, '#'));
    CHECK_OF(name, place == at);
    free(root.at), free(wanted.at), free(room);
    return status;
}

#define LOOK(folder, name, blocks, count, expected, at) \
    look_for(folder, name, strlen(name), blocks, count, expected, at)

static void check_lookups(void) {
    static const char *const plain[] = {PLAIN}, *const shards[] = {SHARD_TOP, SHARD_REST};
    static const char *const wrong[] = {SHARD_TOP, PLAIN};
    long before = held;
    CHECK(LOOK(PLAIN_ROOT, "a", NULL, 0, PLAIN_ROOT, 7) == KOMBILAD_FOLDER_MORE);
    CHECK(LOOK(PLAIN_ROOT, "a", plain, 1, HI, 7) == KOMBILAD_OK);
    CHECK(LOOK(PLAIN_ROOT, "b", plain, 1, TO_A, 7) == KOMBILAD_OK);
    CHECK(LOOK(PLAIN_ROOT, "c", plain, 1, NULL, 7) == KOMBILAD_FOLDER_MISSING);
    CHECK(LOOK(PLAIN_ROOT, "", plain, 1, NULL, 7) == KOMBILAD_FOLDER_MISSING);
    CHECK(LOOK(PLAIN_ROOT, "..", plain, 1, NULL, 7) == KOMBILAD_FOLDER_MISSING);
    CHECK(LOOK(PLAIN_ROOT, "\xff", plain, 1, NULL, 7) == KOMBILAD_TEXT_UTF8);
    CHECK(LOOK("0170", "a", plain, 1, NULL, 7) == KOMBILAD_CID_END);
    CHECK(LOOK(SHARD_ROOT, "long-named-file-048", shards, 1, HI, 7) == KOMBILAD_OK);
    CHECK(LOOK(SHARD_ROOT, "long-named-file-048", shards, 2, HI, 7) == KOMBILAD_OK);
    CHECK(LOOK(SHARD_ROOT, "long-named-file-016", shards, 0, SHARD_ROOT, 7) ==
          KOMBILAD_FOLDER_MORE);
    CHECK(LOOK(SHARD_ROOT, "long-named-file-016", shards, 1, SHARD_BELOW, 7) ==
          KOMBILAD_FOLDER_MORE);
    CHECK(LOOK(SHARD_ROOT, "long-named-file-016", shards, 2, HI, 7) == KOMBILAD_OK);
    CHECK(LOOK(SHARD_ROOT, "long-named-file-047", shards, 1, NULL, 7) == KOMBILAD_FOLDER_MISSING);
    CHECK(LOOK(SHARD_ROOT, "long-named-file-016", wrong, 2, NULL, 0) == KOMBILAD_WRONG_DIGEST);
    CHECK(LOOK(PLAIN_ROOT, "a", shards, 1, NULL, 0) == KOMBILAD_WRONG_DIGEST);
    CHECK(LOOK(HI, "a", plain, 1, NULL, 0) == KOMBILAD_FOLDER_CODEC);
    /* Places outside of the bytes have none. */
    bytes root = from_hex(PLAIN_ROOT), block = from_hex(PLAIN);
    kombilad_cid cid = {0};
    size_t place = 7;
    kombilad_span spans[] = {{0, SIZE_MAX}, {SIZE_MAX, SIZE_MAX}, {block.len + 1, 1}};
    CHECK(kombilad_folder_lookup(root.at, root.len, (const uint8_t *)"a", 1, block.at, block.len,
                                 spans, 1, &cid, &place) == KOMBILAD_OK);
    for (size_t at = 1; at < COUNT(spans); at++)
        CHECK(kombilad_folder_lookup(root.at, root.len, (const uint8_t *)"a", 1, block.at,
                                     block.len, spans + at, 1, &cid,
                                     &place) == KOMBILAD_WRONG_DIGEST);
    free(root.at), free(block.at);
    CHECK(held == before);
}

/* ---- Nodes of UnixFS */

/* What kombilad_unixfs_node writes. `target` is NULL if it is an error. */
static const struct {
    const char *cid, *block, *target;
    uint32_t status;
    kombilad_node node;
    size_t place;
} unixfs_nodes[] = {
    {HI, "6869", "", KOMBILAD_OK, {KOMBILAD_NODE_RAW, KOMBILAD_NODE_SIZE, 2, 0, 0, 0}, 7},
    {TO_A, "0a050804120161", "a", KOMBILAD_OK, {KOMBILAD_NODE_SYMLINK, 0, 0, 0, 0, 0}, 7},
    {PLAIN_ROOT,
     PLAIN,
     "",
     KOMBILAD_OK,
     {KOMBILAD_NODE_FOLDER, KOMBILAD_NODE_MODE | KOMBILAD_NODE_TIME, 0, 1700000000, 5, 0755},
     7},
    {SHARD_BELOW, SHARD_REST, "", KOMBILAD_OK, {KOMBILAD_NODE_SHARD, 0, 0, 0, 0, 0}, 7},
    {"1220818c6a65c9b5155e1d67c7ab9458af02b2826e6dabcca5582132e73d6bfabdd8",
     "0a1b0802120568656c6c6f180538a403420b08fbffffffffffffffff01",
     "",
     KOMBILAD_OK,
     {KOMBILAD_NODE_FILE, 7, 5, -5, 0, 0644},
     7},
    {"017000080a06080212026869",
     "0a06080212026869",
     "",
     KOMBILAD_OK,
     {KOMBILAD_NODE_FILE, KOMBILAD_NODE_SIZE, 2, 0, 0, 0},
     7},
    {HI, "68", NULL, KOMBILAD_WRONG_DIGEST, {0}, 7},
    {"01710001a0", "a0", NULL, KOMBILAD_FILE_CODEC, {0}, 7},
    {"01700000", "", NULL, KOMBILAD_FILE_NO_DATA, {0}, 0},
    {"01700003120100", "120100", NULL, KOMBILAD_PB_NO_HASH, {0}, 2},
    {"017000050a0308021a", "0a0308021a", NULL, KOMBILAD_UNIXFS_UNKNOWN_FIELD, {0}, 2},
    {"0170", "", NULL, KOMBILAD_CID_END, {0}, 7},
};

static void check_unixfs_nodes(void) {
    for (size_t at = 0; at < COUNT(unixfs_nodes); at++) {
        bytes cid = from_hex(unixfs_nodes[at].cid), block = from_hex(unixfs_nodes[at].block);
        kombilad_node node, untouched;
        uint8_t target[4];
        memset(&node, '#', sizeof node), memset(&untouched, '#', sizeof untouched);
        memset(target, '#', sizeof target);
        size_t needed = 7, place = 7;
        uint32_t status = kombilad_unixfs_node(cid.at, cid.len, block.at, block.len, &node, target,
                                               sizeof target, &needed, &place);
        CHECK_OF(unixfs_nodes[at].cid,
                 status == unixfs_nodes[at].status && place == unixfs_nodes[at].place);
        const kombilad_node *expected = unixfs_nodes[at].target ? &unixfs_nodes[at].node
                                                                : &untouched;
        size_t len = unixfs_nodes[at].target ? strlen(unixfs_nodes[at].target) : 0;
        CHECK_OF(unixfs_nodes[at].cid, memcmp(&node, expected, sizeof node) == 0);
        CHECK_OF(unixfs_nodes[at].cid, needed == (unixfs_nodes[at].target ? len : 7));
        CHECK_OF(unixfs_nodes[at].cid,
                 memcmp(target, unixfs_nodes[at].target ? unixfs_nodes[at].target : "", len) == 0);
        CHECK_OF(unixfs_nodes[at].cid, is_all(target + len, sizeof target - len, '#'));
        free(cid.at), free(block.at);
    }
    /* The node is written also if the target doesn't fit. */
    bytes cid = from_hex(TO_A), block = from_hex("0a050804120161");
    kombilad_node node = {0};
    size_t needed = 7, place = 7;
    CHECK(kombilad_unixfs_node(cid.at, cid.len, block.at, block.len, &node, NULL, 0, &needed,
                               &place) == KOMBILAD_TOO_SHORT);
    CHECK(node.kind == KOMBILAD_NODE_SYMLINK && needed == 1 && place == 7);
    free(cid.at), free(block.at);
}

static const struct {
    const char *target;
    size_t depth;
    uint32_t inside;
} targets[] = {
    {"", 0, 1},     {"a", 0, 1},         {"a/b", 0, 1},  {"..", 0, 0},     {"..", 1, 1},
    {"../a", 1, 1}, {"../..", 1, 0},     {"a/..", 5, 0}, {"./../a", 1, 1}, {"/", 9, 0},
    {"/a", 9, 0},   {"..", SIZE_MAX, 1}, {"\xff", 1, 0}, {".../a", 0, 1},
};

static void check_targets(void) {
    for (size_t at = 0; at < COUNT(targets); at++)
        CHECK_OF(targets[at].target,
                 kombilad_symlink_stays_inside((const uint8_t *)targets[at].target,
                                               strlen(targets[at].target),
                                               targets[at].depth) == targets[at].inside);
}

static bytes shard_blocks[2];

/* Lists the folder whose blocks are `shard_blocks`. */
static uint32_t call_folder(bytes root, void *out, size_t len, size_t *needed) {
    kombilad_walk walk = {0};
    kombilad_folder_entry entries[64];
    uint8_t names[400];
    size_t count, place;
    (void)out, (void)len, (void)needed;
    uint32_t status = kombilad_folder_new(root.at, root.len, &walk);
    for (size_t at = 0; at < COUNT(shard_blocks) && status == KOMBILAD_OK; at++)
        status = kombilad_folder_take(&walk, shard_blocks[at].at, shard_blocks[at].len, entries,
                                      COUNT(entries), names, sizeof names, &count, &place);
    kombilad_walk_free(&walk);
    return status;
}

/* Looks for the last name of that folder. */
static uint32_t call_lookup(bytes root, void *out, size_t len, size_t *needed) {
    uint8_t room[800];
    kombilad_cid cid;
    size_t place;
    (void)out, (void)len, (void)needed;
    memcpy(room, shard_blocks[0].at, shard_blocks[0].len);
    memcpy(room + shard_blocks[0].len, shard_blocks[1].at, shard_blocks[1].len);
    kombilad_span spans[] = {{0, shard_blocks[0].len}, {shard_blocks[0].len, shard_blocks[1].len}};
    return kombilad_folder_lookup(root.at, root.len, (const uint8_t *)"long-named-file-037", 19,
                                  room, sizeof room, spans, 2, &cid, &place);
}

/* Reads the node of that folder. */
static uint32_t call_node(bytes root, void *out, size_t len, size_t *needed) {
    kombilad_node node;
    uint8_t target[1];
    size_t count, place;
    (void)out, (void)len, (void)needed;
    return kombilad_unixfs_node(root.at, root.len, shard_blocks[0].at, shard_blocks[0].len, &node,
                                target, sizeof target, &count, &place);
}

/* ---- Packing */

#define HEADER "11a265726f6f7473806776657273696f6e01"
#define HEADER_OF_V0 "38a265726f6f747381d82a582300" V0 "6776657273696f6e01"

static uint32_t begin_pack(uint32_t version, uint32_t raw, size_t links,
                           kombilad_packing *packing) {
    return kombilad_pack_file(version, raw, links, packing);
}

static uint32_t pack_chunk(kombilad_packing *packing, const char *text) {
    return kombilad_pack_chunk(packing, (const uint8_t *)text, strlen(text));
}

static uint32_t pack_last(kombilad_packing *packing, const char *text, kombilad_node attributes) {
    return kombilad_pack_last_chunk(packing, (const uint8_t *)text, strlen(text), &attributes);
}

static uint32_t pack_link(const char *target, size_t len, uint32_t version,
                          kombilad_node attributes, kombilad_packing *packing) {
    return kombilad_pack_symlink(version, &attributes, (const uint8_t *)target, len, packing);
}

/* Whether the next block has this CID, these bytes and these sizes. A buffer that is too short is
 * tried first. */
static bool takes(kombilad_packing *packing, const char *cid, const char *digits, uint64_t size,
                  uint64_t total) {
    bytes link = from_hex(cid), block = from_hex(digits);
    kombilad_packed_block row;
    uint8_t out[600];
    size_t needed = 7;
    memset(&row, '#', sizeof row), memset(out, '#', sizeof out);
    CHECK_OF(cid,
             kombilad_pack_take(packing, &row, out, block.len - 1, &needed) == KOMBILAD_TOO_SHORT);
    CHECK_OF(cid, needed == block.len && is_all((uint8_t *)&row, sizeof row, '#'));
    CHECK_OF(cid, is_all(out, sizeof out, '#'));
    needed = 7;
    bool same = kombilad_pack_take(packing, &row, out, sizeof out, &needed) == KOMBILAD_OK &&
                needed == block.len && memcmp(out, block.at, block.len) == 0 &&
                is_all(out + needed, sizeof out - needed, '#') && row.cid.len == link.len &&
                memcmp(row.cid.bytes, link.at, link.len) == 0 &&
                is_all(row.cid.bytes + link.len, 87 - link.len, 0) && row.size == size &&
                row.total == total;
    free(link.at), free(block.at);
    return same;
}

/* Returns what taking a block returns if none waits or nothing is packed. Nothing is written. */
static uint32_t takes_none(kombilad_packing *packing) {
    kombilad_packed_block row;
    uint8_t out[8];
    size_t needed = 7;
    memset(&row, '#', sizeof row), memset(out, '#', sizeof out);
    uint32_t status = kombilad_pack_take(packing, &row, out, sizeof out, &needed);
    CHECK(needed == 7 && is_all((uint8_t *)&row, sizeof row, '#'));
    CHECK(is_all(out, sizeof out, '#'));
    return status;
}

/* The file "hi" with the mode 0644, by the format, and the empty file of `ipfs add`. */
#define HI_644 "0170122063d399490cfb80f243e74c5407e2ed2a1ba7f25ff9baead9bb186cbc0e1323eb"
#define EMPTY_FILE "1220bfccda787baba32b59c78450ac3d20b633360b43992c77289f9ed46d843561e6"

static const kombilad_node bare = {0};

static void check_packed_files(void) {
    static const char *const chunks[] = {"fo", "ob", "ar"};
    kombilad_packing packing = {0};
    kombilad_node timed = {.fields = KOMBILAD_NODE_TIME, .nanoseconds = 1000000000};
    kombilad_node ignored = {.kind = 5, .size = 9, .seconds = 7, .nanoseconds = 7, .mode = 7};
    long before = held;
    /* Nothing is packed. */
    CHECK(pack_chunk(&packing, "x") == KOMBILAD_WALK_CLOSED);
    CHECK(pack_last(&packing, "x", bare) == KOMBILAD_WALK_CLOSED);
    CHECK(takes_none(&packing) == KOMBILAD_WALK_CLOSED);
    kombilad_pack_free(&packing);
    CHECK(begin_pack(0, 0, 1, &packing) == KOMBILAD_PACK_WIDTH);
    CHECK(begin_pack(2, 0, 2, &packing) == KOMBILAD_CID_UNKNOWN_VERSION);
    CHECK(begin_pack(UINT32_MAX, 0, 0, &packing) == KOMBILAD_CID_UNKNOWN_VERSION);
    CHECK(packing.is_open == 0 && held == before);
    /* The empty file. Attributes are read by their fields alone. */
    CHECK(begin_pack(0, 0, KOMBILAD_PACK_LINKS, &packing) == KOMBILAD_OK);
    CHECK(takes_none(&packing) == KOMBILAD_WALK_DONE);
    CHECK(pack_last(&packing, "", ignored) == KOMBILAD_OK);
    CHECK(takes(&packing, EMPTY_FILE, "0a0408021800", 0, 6));
    CHECK(takes_none(&packing) == KOMBILAD_WALK_DONE);
    CHECK(pack_chunk(&packing, "x") == KOMBILAD_WALK_CLOSED);
    CHECK(pack_last(&packing, "x", bare) == KOMBILAD_WALK_CLOSED);
    /* A file of four chunks, whose node is the last block. */
    CHECK(begin_pack(0, 0, 4, &packing) == KOMBILAD_OK);
    for (size_t at = 0; at < COUNT(chunks); at++) {
        CHECK(pack_chunk(&packing, chunks[at]) == KOMBILAD_OK);
        CHECK(pack_chunk(&packing, "x") == KOMBILAD_PACK_WAITING);
        CHECK(pack_last(&packing, "x", bare) == KOMBILAD_PACK_WAITING);
        CHECK(takes(&packing, file_parts[at + 1].cid, file_parts[at + 1].block, 2, 10));
        CHECK(takes_none(&packing) == KOMBILAD_WALK_DONE);
    }
    CHECK(pack_last(&packing, "\n", bare) == KOMBILAD_OK);
    CHECK(takes(&packing, file_parts[4].cid, file_parts[4].block, 1, 9));
    CHECK(pack_last(&packing, "", bare) == KOMBILAD_PACK_WAITING);
    CHECK(takes(&packing, FILE_ROOT, file_parts[0].block, 7, 221));
    CHECK(takes_none(&packing) == KOMBILAD_WALK_DONE);
    /* A raw leaf of version 1. With a mode it is a node. */
    CHECK(begin_pack(0, 7, 2, &packing) == KOMBILAD_OK);
    CHECK(pack_last(&packing, "hi", bare) == KOMBILAD_OK);
    CHECK(takes(&packing, HI, "6869", 2, 2));
    CHECK(begin_pack(1, 1, 2, &packing) == KOMBILAD_OK);
    kombilad_node mode = {.fields = KOMBILAD_NODE_MODE, .mode = 0644};
    CHECK(pack_last(&packing, "hi", mode) == KOMBILAD_OK);
    CHECK(takes(&packing, HI_644,
                "0a0b08021202686918"
                "0238a403",
                2, 13));
    /* An error of the last chunk ends the file. */
    CHECK(begin_pack(0, 0, 2, &packing) == KOMBILAD_OK);
    CHECK(pack_last(&packing, "", timed) == KOMBILAD_PACK_NANOSECONDS);
    CHECK(takes_none(&packing) == KOMBILAD_WALK_DONE);
    CHECK(pack_last(&packing, "", bare) == KOMBILAD_WALK_CLOSED);
    kombilad_pack_free(&packing);
    CHECK(packing.is_open == 0 && takes_none(&packing) == KOMBILAD_WALK_CLOSED);
    CHECK(held == before);
}

/* Packs a folder of two entries. */
static uint32_t pack_two(const char *first, const char *other, const char *name, size_t name_len,
                         uint32_t version, kombilad_node attributes, kombilad_packing *packing,
                         size_t *place) {
    kombilad_folder_entry entries[2] = {{.name = {1, 1}, .tsize = 2}, {.tsize = 7}};
    bytes a = from_hex(first), b = from_hex(other);
    uint8_t names[32] = "#a";
    memcpy(entries[0].cid.bytes, a.at, a.len), entries[0].cid.len = (uint8_t)a.len;
    memcpy(entries[1].cid.bytes, b.at, b.len), entries[1].cid.len = (uint8_t)b.len;
    memcpy(names + 2, name, name_len);
    entries[1].name = (kombilad_span){2, name_len};
    uint32_t status = kombilad_pack_folder(version, &attributes, KOMBILAD_PACK_SHARDED_ABOVE,
                                           entries, 2, names, 2 + name_len, packing, place);
    free(a.at), free(b.at);
    return status;
}

static void check_packed_folders(void) {
    static const struct {
        const char *first, *other, *name;
        size_t len;
        uint32_t status;
        size_t place;
    } wrong[] = {
        {"0170", TO_A, "b", 1, KOMBILAD_CID_END, 0},
        {HI, "0170", "b", 1, KOMBILAD_CID_END, 1},
        {HI, TO_A, "\xff", 1, KOMBILAD_TEXT_UTF8, 1},
        {HI, TO_A, "", 0, KOMBILAD_PACK_INVALID_NAME, 1},
        {HI, TO_A, "..", 2, KOMBILAD_PACK_INVALID_NAME, 1},
        {HI, TO_A, "b/c", 3, KOMBILAD_PACK_INVALID_NAME, 1},
        {HI, TO_A, "b\0c", 3, KOMBILAD_PACK_INVALID_NAME, 1},
        {HI, TO_A, "a", 1, KOMBILAD_PACK_NAME_ORDER, 1},
        {HI, TO_A, "Z", 1, KOMBILAD_PACK_NAME_ORDER, 1},
    };
    kombilad_packing packing = {0};
    kombilad_node timed = {.fields = KOMBILAD_NODE_TIME, .nanoseconds = 1000000000};
    kombilad_node dated = {.fields = KOMBILAD_NODE_MODE | KOMBILAD_NODE_TIME,
                           .seconds = 1700000000,
                           .nanoseconds = 5,
                           .mode = 0755};
    size_t place = 7;
    long before = held;
    /* A symbolic link, and the folder with it. */
    CHECK(pack_link("a", 1, 0, bare, &packing) == KOMBILAD_OK);
    CHECK(pack_chunk(&packing, "x") == KOMBILAD_PACK_WAITING);
    CHECK(takes(&packing, TO_A, "0a050804120161", 0, 7));
    CHECK(pack_chunk(&packing, "x") == KOMBILAD_WALK_CLOSED);
    CHECK(pack_last(&packing, "x", bare) == KOMBILAD_WALK_CLOSED);
    CHECK(pack_link("\xff", 1, 0, bare, &packing) == KOMBILAD_TEXT_UTF8);
    CHECK(pack_link("\xff", 1, 2, bare, &packing) == KOMBILAD_CID_UNKNOWN_VERSION);
    CHECK(pack_link("a", 1, 0, timed, &packing) == KOMBILAD_PACK_NANOSECONDS);
    CHECK(takes_none(&packing) == KOMBILAD_WALK_DONE);
    CHECK(pack_two(HI, TO_A, "b", 1, 0, dated, &packing, &place) == KOMBILAD_OK);
    CHECK(place == 7);
    /* With an error what is packed stays. */
    CHECK(pack_two(HI, TO_A, "b", 1, 2, bare, &packing, &place) == KOMBILAD_CID_UNKNOWN_VERSION);
    CHECK(place == 7);
    for (size_t at = 0; at < COUNT(wrong); at++) {
        place = 7;
        CHECK_OF(wrong[at].name,
                 pack_two(wrong[at].first, wrong[at].other, wrong[at].name, wrong[at].len, 0, bare,
                          &packing, &place) == wrong[at].status);
        CHECK_OF(wrong[at].name, place == wrong[at].place);
    }
    CHECK(pack_two(HI, TO_A, "b", 1, 0, timed, &packing, &place) == KOMBILAD_PACK_NANOSECONDS);
    CHECK(place == 0);
    CHECK(takes(&packing, PLAIN_ROOT, PLAIN, 0, PLAIN_TOTAL));
    CHECK(takes_none(&packing) == KOMBILAD_WALK_DONE);
    /* A sharded folder. Names outside of the bytes are empty. */
    kombilad_folder_entry entries[3];
    static const char names[] = "long-named-file-016long-named-file-037long-named-file-048";
    bytes hi = from_hex(HI);
    memset(entries, 0, sizeof entries);
    for (size_t at = 0; at < 3; at++) {
        entries[at].cid.len = (uint8_t)hi.len, entries[at].tsize = 2;
        memcpy(entries[at].cid.bytes, hi.at, hi.len);
        entries[at].name = (kombilad_span){19 * at, 19};
    }
    CHECK(kombilad_pack_folder(1, &bare, 3 * (36 + 19) - 1, entries, 3, (const uint8_t *)names, 57,
                               &packing, &place) == KOMBILAD_OK);
    CHECK(takes(&packing, SHARD_ROOT, SHARD_TOP, 0, SHARD_TOTAL));
    CHECK(takes(&packing, SHARD_BELOW, SHARD_REST, 0, SHARD_REST_TOTAL));
    CHECK(takes_none(&packing) == KOMBILAD_WALK_DONE);
    entries[0].name = (kombilad_span){SIZE_MAX, SIZE_MAX};
    CHECK(kombilad_pack_folder(1, &bare, 0, entries, 3, (const uint8_t *)names, 57, &packing,
                               &place) == KOMBILAD_PACK_INVALID_NAME);
    CHECK(place == 0);
    entries[0].name = (kombilad_span){0, 19}, entries[2].tsize = UINT64_MAX;
    CHECK(kombilad_pack_folder(1, &bare, UINT64_MAX, entries, 3, (const uint8_t *)names, 57,
                               &packing, &place) == KOMBILAD_PACK_TOO_LARGE);
    entries[2].cid.len = 255;
    CHECK(kombilad_pack_folder(1, &bare, 0, entries, 3, (const uint8_t *)names, 57, &packing,
                               &place) == KOMBILAD_CID_TRAILING_BYTES);
    CHECK(place == 2);
    /* A folder without entries frees what was packed. */
    CHECK(kombilad_pack_folder(0, &bare, 0, NULL, 0, NULL, 0, &packing, &place) == KOMBILAD_OK);
    CHECK(takes(&packing, FOLDER, "0a020801", 0, 4));
    kombilad_pack_free(&packing);
    free(hi.at);
    CHECK(held == before);
}

/* Packs a file of three chunks, or the last one alone if its length is 0. */
static uint32_t call_pack(bytes chunk, void *out, size_t len, size_t *needed) {
    kombilad_packing packing = {0};
    kombilad_packed_block row;
    uint8_t block[400];
    size_t count;
    (void)out, (void)len, (void)needed;
    uint32_t status = kombilad_pack_file(0, 0, 2, &packing);
    for (size_t at = 0; at < 3 && status == KOMBILAD_OK; at++) {
        status = at < 2 ? kombilad_pack_chunk(&packing, chunk.at, chunk.len)
                        : kombilad_pack_last_chunk(&packing, chunk.at, chunk.len, &bare);
        if (status != KOMBILAD_OK) break;
        while ((status = kombilad_pack_take(&packing, &row, block, sizeof block, &count)) ==
               KOMBILAD_OK)
            continue;
        if (status == KOMBILAD_WALK_DONE) status = KOMBILAD_OK;
    }
    kombilad_pack_free(&packing);
    return status;
}

static uint32_t call_pack_link(bytes target, void *out, size_t len, size_t *needed) {
    kombilad_packing packing = {0};
    (void)out, (void)len, (void)needed;
    uint32_t status = kombilad_pack_symlink(0, &bare, target.at, target.len, &packing);
    kombilad_pack_free(&packing);
    return status;
}

/* Packs a sharded folder of two entries. */
static uint32_t call_pack_folder(bytes cid, void *out, size_t len, size_t *needed) {
    kombilad_packing packing = {0};
    kombilad_folder_entry entries[2] = {{.name = {0, 1}}, {.name = {1, 1}}};
    size_t place;
    (void)out, (void)len, (void)needed;
    for (size_t at = 0; at < 2; at++) {
        entries[at].cid.len = (uint8_t)cid.len;
        memcpy(entries[at].cid.bytes, cid.at, cid.len);
    }
    uint32_t status = kombilad_pack_folder(0, &bare, 0, entries, 2, (const uint8_t *)"ab", 2,
                                           &packing, &place);
    kombilad_pack_free(&packing);
    return status;
}

/* ---- The parts of a CAR, written */

static void check_written_car(void) {
    bytes v0 = from_hex(V0), header = from_hex(HEADER_OF_V0), none = from_hex(HEADER);
    kombilad_cid roots[2] = {{.len = (uint8_t)v0.len}, {.len = 1, .bytes = {1}}};
    uint8_t out[KOMBILAD_CAR_SECTION + 8];
    size_t needed = 7, place = 7;
    memcpy(roots[0].bytes, v0.at, v0.len);
    memset(out, '#', sizeof out);
    CHECK(kombilad_car_header(roots, 1, out, header.len - 1, &needed, &place) ==
          KOMBILAD_TOO_SHORT);
    CHECK(needed == header.len && is_all(out, sizeof out, '#') && place == 7);
    CHECK(kombilad_car_header(roots, 1, out, sizeof out, &needed, &place) == KOMBILAD_OK);
    CHECK(needed == header.len && memcmp(out, header.at, header.len) == 0 && place == 7);
    CHECK(kombilad_car_header(NULL, 0, out, sizeof out, &needed, &place) == KOMBILAD_OK);
    CHECK(needed == none.len && memcmp(out, none.at, none.len) == 0);
    needed = 7;
    memset(out, '#', sizeof out);
    CHECK(kombilad_car_header(roots, 2, out, sizeof out, &needed, &place) == KOMBILAD_CID_END);
    CHECK(needed == 7 && place == 1 && is_all(out, sizeof out, '#'));
    /* A section has the length of the CID and the block as a varint. */
    CHECK(kombilad_car_section(v0.at, v0.len, 94, out, v0.len + 1, &needed) == KOMBILAD_TOO_SHORT);
    CHECK(needed == v0.len + 2 && is_all(out, sizeof out, '#'));
    CHECK(kombilad_car_section(v0.at, v0.len, 94, out, v0.len + 2, &needed) == KOMBILAD_OK);
    CHECK(needed == v0.len + 2 && out[0] == 0x80 && out[1] == 1);
    CHECK(memcmp(out + 2, v0.at, v0.len) == 0);
    CHECK(kombilad_car_section(v0.at, v0.len, 93, out, sizeof out, &needed) == KOMBILAD_OK);
    CHECK(needed == v0.len + 1 && out[0] == 0x7f);
    CHECK(kombilad_car_section(v0.at, v0.len, UINT64_MAX - 34, out, sizeof out, &needed) ==
          KOMBILAD_OK);
    CHECK(needed == v0.len + 10 && is_all(out, 9, 0xff) && out[9] == 1);
    needed = 7;
    memset(out, '#', sizeof out);
    CHECK(kombilad_car_section(v0.at, v0.len, UINT64_MAX - 33, out, sizeof out, &needed) ==
          KOMBILAD_CAR_LENGTH_TOO_LARGE);
    CHECK(kombilad_car_section(v0.at, v0.len - 1, 0, out, sizeof out, &needed) == KOMBILAD_CID_END);
    CHECK(needed == 7 && is_all(out, sizeof out, '#'));
    bytes longest = from_hex("01" LONG_NUMBER LONG_NUMBER "40" SIXTY_FOUR);
    CHECK(kombilad_car_section(longest.at, longest.len, UINT64_MAX - longest.len, out,
                               KOMBILAD_CAR_SECTION, &needed) == KOMBILAD_OK);
    CHECK(needed == longest.len + 10);
    free(v0.at), free(header.at), free(none.at), free(longest.at);
}

/* The pragma and the header of version 2, whose characteristics begin with the byte `full`. The
 * payload has 0x1234 bytes. */
#define AROUND(full)                                               \
    "0aa16776657273696f6e02" full "000000000000000000000000000000" \
    "3300000000000000"                                             \
    "3412000000000000"                                             \
    "6712000000000000"
/* An index of the identity hash, with a digest of one byte, and of SHA2-256. */
#define HASH_INDEX                                                                      \
    "8108"                                                                              \
    "02000000"                                                                          \
    "0000000000000000"                                                                  \
    "01000000"                                                                          \
    "09000000"                                                                          \
    "0900000000000000"                                                                  \
    "61"                                                                                \
    "0500000000000000"                                                                  \
    "1200000000000000"                                                                  \
    "01000000"                                                                          \
    "28000000"                                                                          \
    "7800000000000000" DIGEST "0700000000000000" DIGEST "ffffffffffffffff" EMPTY_DIGEST \
    "0000000000000000"

static void check_car_index(void) {
    static const struct {
        const char *cid;
        uint64_t offset;
    } given[] = {{V0, 0}, {V1, UINT64_MAX}, {"0155000161", 5}, {V1, 7}, {"01550000", 9}};
    kombilad_car_row rows[COUNT(given)] = {{.offset = 0}};
    for (size_t at = 0; at < COUNT(given); at++) {
        bytes cid = from_hex(given[at].cid);
        rows[at].cid.len = (uint8_t)cid.len;
        memcpy(rows[at].cid.bytes, cid.at, cid.len);
        rows[at].offset = given[at].offset;
        free(cid.at);
    }
    bytes all = from_hex(AROUND("80") HASH_INDEX), some = from_hex(AROUND("00") HASH_INDEX);
    bytes none = from_hex(AROUND("80") "810800000000");
    uint8_t out[300];
    size_t needed = 7, place = 7;
    memset(out, '#', sizeof out);
    CHECK(kombilad_car_index(rows, 4, 0x1234, out, all.len - 1, &needed, &place) ==
          KOMBILAD_TOO_SHORT);
    CHECK(needed == all.len && place == 7 && is_all(out, sizeof out, '#'));
    CHECK(kombilad_car_index(rows, 4, 0x1234, out, all.len, &needed, &place) == KOMBILAD_OK);
    CHECK(needed == all.len && place == 7 && memcmp(out, all.at, all.len) == 0);
    CHECK(is_all(out + all.len, sizeof out - all.len, '#'));
    /* An empty digest has no row. */
    CHECK(kombilad_car_index(rows, 5, 0x1234, out, sizeof out, &needed, &place) == KOMBILAD_OK);
    CHECK(needed == some.len && memcmp(out, some.at, some.len) == 0);
    CHECK(kombilad_car_index(NULL, 0, 0x1234, out, sizeof out, &needed, &place) == KOMBILAD_OK);
    CHECK(needed == none.len && memcmp(out, none.at, none.len) == 0);
    CHECK(kombilad_car_index(NULL, 0, UINT64_MAX - 51, out, sizeof out, &needed, &place) ==
          KOMBILAD_OK);
    CHECK(out[35] == 0xcc && is_all(out + 36, 7, 0xff) && is_all(out + 43, 8, 0xff));
    needed = 7;
    memset(out, '#', sizeof out);
    CHECK(kombilad_car_index(NULL, 0, UINT64_MAX - 50, out, sizeof out, &needed, &place) ==
          KOMBILAD_CAR_LENGTH_TOO_LARGE);
    rows[2].cid.len = 1;
    rows[3].cid.len = 2;
    CHECK(kombilad_car_index(rows, 5, UINT64_MAX, out, sizeof out, &needed, &place) ==
          KOMBILAD_CID_END);
    CHECK(needed == 7 && place == 2 && is_all(out, sizeof out, '#'));
    free(all.at), free(some.at), free(none.at);
}

static uint32_t call_car_index(bytes cid, void *out, size_t len, size_t *needed) {
    kombilad_car_row rows[2] = {{.offset = 1}, {.offset = 0}};
    size_t place;
    rows[0].cid.len = (uint8_t)cid.len;
    memcpy(rows[0].cid.bytes, cid.at, cid.len);
    /* The identity hash, so that the index has two. */
    rows[1].cid = (kombilad_cid){.len = 5, .bytes = {1, 0x55, 0, 1, 'a'}};
    return kombilad_car_index(rows, COUNT(rows), 9, out, len, needed, &place);
}

static uint32_t call_car_header(bytes cid, void *out, size_t len, size_t *needed) {
    kombilad_cid roots[3];
    size_t place;
    for (size_t at = 0; at < COUNT(roots); at++) {
        roots[at].len = (uint8_t)cid.len;
        memcpy(roots[at].bytes, cid.at, cid.len);
    }
    return kombilad_car_header(roots, COUNT(roots), out, len, needed, &place);
}

/* Makes the first allocation of the call fail, then the second, and so on, until none fails.
 * Returns the number of allocations. */
static long refuse_each(call *made, bytes input, size_t len) {
    uint8_t *out = malloc(len);
    for (long at = 0;; at++) {
        memset(out, '#', len);
        size_t needed = 7;
        long before = held;
        refused_at = at;
        uint32_t status = made(input, out, len, &needed);
        bool none_was = refused_at >= 0;
        refused_at = -1;
        CHECK(held == before);
        if (none_was) {
            CHECK(status == KOMBILAD_OK || status == KOMBILAD_NOT_CANONICAL);
            free(out);
            return at;
        }
        CHECK(status == KOMBILAD_NO_MEMORY && needed == 7 && is_all(out, len, '#'));
    }
}

static void check_refused(void) {
    bytes cid = from_hex(V1);
    bytes block = from_hex(
        "a462616181" LINK(V1, "25") "616281818181" LINK(V0, "23") "6163a262616101616202616480");
    CHECK(refuse_each(call_to_text, cid, 200) > 0);
    refuse_each(call_usual_text, cid, 200);
    CHECK(refuse_each(call_check, block, 1) > 0);
    CHECK(refuse_each(call_count, block, 1) > 0);
    CHECK(refuse_each(call_links, block, 3 * sizeof(kombilad_cid)) > 0);
    CHECK(refuse_each(call_positions, block, 3 * sizeof(kombilad_span)) > 0);
    CHECK(refuse_each(call_tape, block, 40 * sizeof(kombilad_entry)) > 0);
    CHECK(refuse_each(call_encode, block, 500) > 0);
    CHECK(refuse_each(call_canonicalize, block, 500) > 0);
    CHECK(refuse_each(call_to_json, block, 500) > 0);
    CHECK(refuse_each(call_at, block, 1) > 0);
    bytes json = from_text(
        "{\"b\":[{\"/\":\"bafkqaaa\"},1.5,-7],\"aa\":{\"/\":{\"bytes\":\"aGk\"}},"
        "\"\\u0061\":{\"c\":\"d\",\"\":[[]]}}");
    CHECK(refuse_each(call_of_json, json, 500) > 0);
    free(json.at);
    bytes node = from_hex("120c0a0401550000120161188001" PB_BARE PB_DATA);
    CHECK(refuse_each(call_pb_tape, node, sizeof pb_entries) > 0);
    free(node.at);
    CHECK(refuse_each(call_check_canonical, block, 1) > 0);
    bytes root = from_hex(FILE_ROOT);
    for (size_t at = 0; at < COUNT(file_blocks); at++)
        file_blocks[at] = from_hex(file_parts[at].block);
    CHECK(refuse_each(call_file, root, 1) > 2);
    for (size_t at = 0; at < COUNT(file_blocks); at++) free(file_blocks[at].at);
    free(root.at);
    bytes folder = from_hex(SHARD_ROOT);
    shard_blocks[0] = from_hex(SHARD_TOP), shard_blocks[1] = from_hex(SHARD_REST);
    CHECK(refuse_each(call_folder, folder, 1) > 2);
    CHECK(refuse_each(call_lookup, folder, 1) > 1);
    CHECK(refuse_each(call_node, folder, 1) > 0);
    CHECK(refuse_each(call_pack, folder, 1) > 10);
    CHECK(refuse_each(call_pack_folder, folder, 1) > 5);
    CHECK(refuse_each(call_car_header, folder, 200) > 2);
    CHECK(refuse_each(call_car_index, cid, 300) > 2);
    bytes target = from_text("a/b");
    CHECK(refuse_each(call_pack_link, target, 1) > 2);
    free(target.at);
    free(shard_blocks[0].at), free(shard_blocks[1].at), free(folder.at);

    /* These calls don't allocate. */
    kombilad_cid_parts parts;
    kombilad_cid read;
    size_t place;
    bytes text = from_text(V0_TEXT);
    refused_at = 0;
    CHECK(kombilad_cid_check(cid.at, cid.len) == KOMBILAD_OK);
    CHECK(kombilad_cid_parts_of(cid.at, cid.len, &parts) == KOMBILAD_OK);
    CHECK(kombilad_cid_from_text(text.at, text.len, &read, &place) == KOMBILAD_OK);
    kombilad_cid_of_block(0x71, block.at, block.len, &read);
    CHECK(refused_at == 0);
    refused_at = -1;
    free(cid.at), free(block.at), free(text.at);
}

/* ---- CARs, and digests */

#define LEAF "01550000" /* the CID of an empty block, with the identity hash */
#define FRONT2               \
    "0aa16776657273696f6e02" \
    "00000000000000000000000000000000"
#define SIZED(start, size)                       \
    start "00000000000000" size "00000000000000" \
          "0000000000000000"

static const struct {
    const char *car;
    uint32_t status;
    size_t version, sections, end, at_byte;
} cars[] = {
    {HEADER, KOMBILAD_OK, 1, 18, 18, 0},
    {HEADER "04" LEAF "06" LEAF "6869", KOMBILAD_OK, 1, 18, 30, 0},
    {FRONT2 SIZED("33", "12") HEADER, KOMBILAD_OK, 2, 69, 69, 0},
    {FRONT2 SIZED("33", "17") HEADER "04" LEAF "ff", KOMBILAD_OK, 2, 69, 74, 0},
    {FRONT2 SIZED("35", "99") "0000" HEADER, KOMBILAD_OK, 2, 71, 206, 0},
    {"", KOMBILAD_CAR_UNEXPECTED_END, 0, 0, 0, 0},
    {"11a265", KOMBILAD_CAR_UNEXPECTED_END, 0, 0, 0, 3},
    {"8000", KOMBILAD_CAR_LENGTH_NOT_SHORTEST, 0, 0, 0, 1},
    {"ffffffffffffffffff02", KOMBILAD_CAR_LENGTH_TOO_LARGE, 0, 0, 0, 9},
    {"00", KOMBILAD_CAR_EMPTY, 0, 0, 0, 0},
    {"e907", KOMBILAD_CAR_TOO_LONG, 0, 0, 0, 0},
    {"0180", KOMBILAD_CAR_NOT_A_HEADER, 0, 0, 0, 1},
    {"01ff", KOMBILAD_BLOCK_UNSUPPORTED, 0, 0, 0, 1},
    {"028181", KOMBILAD_BLOCK_END, 0, 0, 0, 1},
    {"0481818180", KOMBILAD_TOO_DEEP, 0, 0, 0, 1},
    {FRONT2 "33", KOMBILAD_CAR_UNEXPECTED_END, 0, 0, 0, 28},
    {FRONT2 SIZED("32", "12") HEADER, KOMBILAD_CAR_PAYLOAD, 0, 0, 0, 27},
    {FRONT2 SIZED("34", "12"), KOMBILAD_CAR_UNEXPECTED_END, 0, 0, 0, 51},
    {FRONT2 SIZED("33", "11") HEADER, KOMBILAD_CAR_UNEXPECTED_END, 0, 0, 0, 68},
    {FRONT2 SIZED("33", "00") HEADER, KOMBILAD_CAR_UNEXPECTED_END, 0, 0, 0, 51},
    {FRONT2 SIZED("33", "12") "11a2", KOMBILAD_CAR_SHORT_PAYLOAD, 0, 0, 0, 53},
    {FRONT2 SIZED("33", "3d") FRONT2 SIZED("33", "12") HEADER, KOMBILAD_CAR_NOT_A_HEADER, 0, 0, 0,
     52},
};

/* CARs of which kombilad_car_open_part gets the first `given` bytes, and the number of bytes that
 * it needs in addition. */
static const struct {
    const char *car;
    size_t given;
    uint64_t more;
} starts[] = {
    {HEADER, 0, 1},
    {HEADER, 1, 17},
    {HEADER, 17, 1},
    {"8000", 1, 1},
    {FRONT2 SIZED("35", "99") "0000" HEADER, 5, 6},
    {FRONT2 SIZED("35", "99") "0000" HEADER, 11, 40},
    {FRONT2 SIZED("35", "99") "0000" HEADER, 50, 1},
    {FRONT2 SIZED("35", "99") "0000" HEADER, 51, 2},
    {FRONT2 SIZED("35", "99") "0000" HEADER, 53, 1},
    {FRONT2 SIZED("35", "99") "0000" HEADER, 54, 17},
    /* A payload that ends before its header does. */
    {FRONT2 SIZED("33", "10") HEADER, 52, 15},
};

static uint32_t call_open_part(bytes car, void *out, size_t len, size_t *needed) {
    kombilad_car_place place;
    uint64_t more, offset;
    return kombilad_car_open_part(car.at, car.len, 1, 1000, &place, out, len / sizeof(kombilad_cid),
                                  needed, &more, &offset);
}

static void check_opened_parts(void) {
    for (size_t at = 0; at < COUNT(cars); at++) {
        bytes car = from_hex(cars[at].car);
        kombilad_car_place place = {7, 7, 7};
        size_t needed = NONE;
        uint64_t more = 7, offset = 7;
        CHECK_OF(cars[at].car, kombilad_car_open_part(car.at, car.len, 1, 1000, &place, NULL, 0,
                                                      &needed, &more, &offset) == cars[at].status);
        if (cars[at].status) {
            CHECK_OF(cars[at].car, place.version == 7 && place.at == 7 && place.end == 7 &&
                                       needed == NONE && offset == cars[at].at_byte);
        } else {
            CHECK_OF(cars[at].car,
                     place.version == cars[at].version && place.at == cars[at].sections &&
                         place.end == (place.version == 1 ? UINT64_MAX : cars[at].end));
            CHECK_OF(cars[at].car, needed == 0 && offset == 7);
        }
        CHECK_OF(cars[at].car, more == 7);
        free(car.at);
    }
    for (size_t at = 0; at < COUNT(starts); at++) {
        bytes car = from_hex(starts[at].car);
        kombilad_car_place place = {7, 7, 7};
        size_t needed = NONE;
        uint64_t more = 7, offset = 7;
        CHECK_OF(starts[at].car,
                 kombilad_car_open_part(car.at, starts[at].given, 0, 1000, &place, NULL, 0, &needed,
                                        &more, &offset) == KOMBILAD_CAR_MORE);
        CHECK_OF(starts[at].car, more == starts[at].more && needed == NONE && offset == 7 &&
                                     place.version == 7 && place.at == 7 && place.end == 7);
        free(car.at);
    }
    bytes car = from_hex("44a265726f6f747382" LINK(V1, "25") "d82a4500" LEAF "6776657273696f6e01");
    car.at[0] = (uint8_t)(car.len - 1);
    kombilad_car_place place;
    kombilad_cid roots[3];
    size_t needed;
    uint64_t more = 7, offset = 7;
    memset(roots, '#', sizeof roots);
    CHECK(kombilad_car_open_part(car.at, car.len, 1, 1000, &place, roots, 1, &needed, &more,
                                 &offset) == KOMBILAD_TOO_SHORT &&
          needed == 2 && is_all((uint8_t *)roots, sizeof roots, '#') && place.at == car.len);
    CHECK(kombilad_car_open_part(car.at, car.len, 1, 1000, &place, roots, 3, &needed, &more,
                                 &offset) == KOMBILAD_OK &&
          needed == 2);
    CHECK(roots[0].len == 36 && roots[1].len == 4 && roots[1].bytes[1] == 0x55 &&
          is_all((uint8_t *)&roots[2], sizeof roots[2], '#'));
    CHECK(more == 7 && offset == 7);
    CHECK(kombilad_car_open_part(car.at, car.len, 1, car.len - 2, &place, roots, 3, &needed, &more,
                                 &offset) == KOMBILAD_CAR_TOO_LONG &&
          offset == 0);
    CHECK(refuse_each(call_open_part, car, sizeof roots) > 0);
    free(car.at);
}

static const struct {
    const char *car;
    uint32_t is_all;
    size_t limit;
    uint64_t version, at, end;
    uint32_t status;
    size_t cid, block, next; /* with another status: the offset or the number of bytes, 0, 0 */
} parts[] = {
    {"04" LEAF, 0, 4, 1, 9, UINT64_MAX, KOMBILAD_OK, 1, 5, 5},
    {"06" LEAF "6869ff", 0, 6, 2, 100, 107, KOMBILAD_OK, 1, 5, 7},
    {"06" LEAF "6869ff", 0, 6, 2, 1ull << 40, 1ull << 41, KOMBILAD_OK, 1, 5, 7},
    {"", 0, 9, 1, 9, UINT64_MAX, KOMBILAD_CAR_MORE, 1, 0, 0},
    {"", 1, 9, 1, 9, UINT64_MAX, KOMBILAD_CAR_DONE, 0, 0, 0},
    {"", 0, 9, 2, 9, 9, KOMBILAD_CAR_DONE, 0, 0, 0},
    {"04", 0, 9, 2, 9, 8, KOMBILAD_CAR_DONE, 0, 0, 0},
    {"", 1, 9, 2, 9, 10, KOMBILAD_CAR_SHORT_PAYLOAD, 9, 0, 0},
    {"80", 0, 9, 1, 9, UINT64_MAX, KOMBILAD_CAR_MORE, 1, 0, 0},
    {"04", 0, 9, 1, 9, UINT64_MAX, KOMBILAD_CAR_MORE, 4, 0, 0},
    {"0401", 0, 9, 2, 9, 12, KOMBILAD_CAR_MORE, 1, 0, 0},
    {"0401", 1, 9, 2, 9, 12, KOMBILAD_CAR_SHORT_PAYLOAD, 11, 0, 0},
    {"0401", 1, 9, 1, 9, UINT64_MAX, KOMBILAD_CAR_UNEXPECTED_END, 11, 0, 0},
    {"04015500", 0, 9, 2, 9, 12, KOMBILAD_CAR_UNEXPECTED_END, 12, 0, 0},
    {"04", 0, 3, 1, 9, UINT64_MAX, KOMBILAD_CAR_TOO_LONG, 9, 0, 0},
    {"04" LEAF, 1, 3, 1, 9, UINT64_MAX, KOMBILAD_CAR_TOO_LONG, 9, 0, 0},
    {"00", 0, 9, 1, 9, UINT64_MAX, KOMBILAD_CAR_EMPTY, 9, 0, 0},
    {"8000", 0, 9, 1, 9, UINT64_MAX, KOMBILAD_CAR_LENGTH_NOT_SHORTEST, 10, 0, 0},
    {"ffffffffffffffffff02", 0, 9, 1, 9, UINT64_MAX, KOMBILAD_CAR_LENGTH_TOO_LARGE, 18, 0, 0},
    {"0401550001", 0, 9, 1, 9, UINT64_MAX, KOMBILAD_CID_END, 10, 0, 0},
    {"0402550000", 0, 9, 2, 9, 99, KOMBILAD_CID_UNKNOWN_VERSION, 10, 0, 0},
};

static void check_parts(void) {
    for (size_t at = 0; at < COUNT(parts); at++) {
        bytes car = from_hex(parts[at].car);
        kombilad_car_place place = {parts[at].version, parts[at].at, parts[at].end};
        kombilad_span cid = {7, 7}, block = {7, 7};
        uint64_t more = 7, offset = 7;
        refused_at = 0;
        CHECK_OF(parts[at].car,
                 kombilad_car_next_part(car.at, car.len, parts[at].is_all, parts[at].limit, &place,
                                        &cid, &block, &more, &offset) == parts[at].status);
        CHECK(refused_at == 0);
        refused_at = -1;
        bool is_more = parts[at].status == KOMBILAD_CAR_MORE;
        bool is_error = parts[at].status && parts[at].status != KOMBILAD_CAR_DONE && !is_more;
        CHECK_OF(parts[at].car, more == (is_more ? parts[at].cid : 7));
        CHECK_OF(parts[at].car, offset == (is_error ? parts[at].cid : 7));
        CHECK_OF(parts[at].car, place.version == parts[at].version && place.end == parts[at].end);
        if (parts[at].status) {
            CHECK_OF(parts[at].car, cid.offset == 7 && cid.len == 7 && block.offset == 7 &&
                                        block.len == 7 && place.at == parts[at].at);
        } else {
            CHECK_OF(parts[at].car, cid.offset == parts[at].cid &&
                                        cid.offset + cid.len == parts[at].block &&
                                        block.offset == parts[at].block);
            CHECK_OF(parts[at].car, block.offset + block.len == parts[at].next &&
                                        place.at == parts[at].at + parts[at].next);
        }
        free(car.at);
    }
}

static const struct {
    const char *cid, *block;
    uint32_t status;
} digests[] = {
    {"01551220" EMPTY_DIGEST, "", KOMBILAD_OK},
    {"1220" EMPTY_DIGEST, "", KOMBILAD_OK},
    {"01551220" EMPTY_DIGEST, "00", KOMBILAD_WRONG_DIGEST},
    {LEAF, "", KOMBILAD_OK},
    {"015500026869", "6869", KOMBILAD_OK},
    {"015500026869", "686a", KOMBILAD_WRONG_DIGEST},
    {"01551340" EMPTY_SHA2_512, "", KOMBILAD_OK},
    {"01551340" EMPTY_SHA2_512, "00", KOMBILAD_WRONG_DIGEST},
    {"0155130168", "68", KOMBILAD_WRONG_DIGEST},
    {"0155a0e40220" EMPTY_BLAKE2B, "", KOMBILAD_OK},
    {"0155a0e40220" EMPTY_BLAKE2B, "00", KOMBILAD_WRONG_DIGEST},
    {"0155110168", "68", KOMBILAD_UNKNOWN_HASH},
    {"0155121f"
     "e3b0c44298fc1c149afbf4c8996fb92427ae41e4649b934ca495991b7852b8",
     "", KOMBILAD_WRONG_DIGEST},
    {"015512", "", KOMBILAD_CID_END},
    {LEAF "00", "", KOMBILAD_CID_TRAILING_BYTES},
};

static void check_digests(void) {
    for (size_t at = 0; at < COUNT(digests); at++) {
        bytes cid = from_hex(digests[at].cid), block = from_hex(digests[at].block);
        refused_at = 0;
        CHECK_OF(digests[at].cid,
                 kombilad_verify(cid.at, cid.len, block.at, block.len) == digests[at].status);
        CHECK(refused_at == 0);
        refused_at = -1;
        free(cid.at), free(block.at);
    }
}

/* ---- Threads, and depth */

static void *call_all(void *given) {
    bytes block = *(bytes *)given;
    for (int at = 0; at < 300; at++) {
        kombilad_cid links[4];
        uint8_t out[300];
        size_t needed, offset;
        CHECK(kombilad_block_check(block.at, block.len, 9, 9, &offset) == KOMBILAD_OK);
        CHECK(kombilad_links(block.at, block.len, 9, 9, links, 4, &needed, &offset) ==
                  KOMBILAD_OK &&
              needed == 3);
        CHECK(kombilad_cid_to_text(links[0].bytes, links[0].len, 0, out, sizeof out, &needed) ==
                  KOMBILAD_OK &&
              needed == 59);
        CHECK(kombilad_block_canonicalize(block.at, block.len, 9, 9, out, sizeof out, &needed,
                                          &offset) == KOMBILAD_OK &&
              needed == block.len);
    }
    return NULL;
}

static void check_threads(void) {
    pthread_t threads[8];
    bytes block = from_hex(blocks[5].block);
    for (size_t at = 0; at < COUNT(threads); at++)
        CHECK(pthread_create(&threads[at], NULL, call_all, &block) == 0);
    for (size_t at = 0; at < COUNT(threads); at++) CHECK(pthread_join(threads[at], NULL) == 0);
    free(block.at);
}

static void check_depth(void) {
    size_t len = 10 * 1000 * 1000, all = SIZE_MAX, needed = NONE, offset = NONE;
    uint8_t *block = malloc(len);
    memset(block, 0x81, len);
    CHECK(kombilad_block_check(block, len, all, all, &offset) == KOMBILAD_BLOCK_END &&
          offset == len);
    block[len - 1] = 0x80;
    CHECK(kombilad_block_check(block, len, all, all, &offset) == KOMBILAD_OK);
    CHECK(kombilad_block_check_canonical(block, len, all, all, &offset) == KOMBILAD_OK);
    CHECK(kombilad_links_count(block, len, all, all, &needed, &offset) == KOMBILAD_OK &&
          needed == 0);
    CHECK(kombilad_links(block, len, all, all, NULL, 0, &needed, &offset) == KOMBILAD_OK &&
          needed == 0);
    CHECK(kombilad_link_positions(block, len, all, all, NULL, 0, &needed, &offset) == KOMBILAD_OK &&
          needed == 0);
    CHECK(kombilad_tape(block, len, all, all, NULL, 0, &needed, &offset) == KOMBILAD_TOO_SHORT &&
          needed == len);
    /* A path through all lists, and one more segment. */
    uint8_t *path = malloc(2 * len);
    kombilad_span value = {NONE, NONE};
    for (size_t at = 0; at < 2 * len; at++) path[at] = at % 2 ? '/' : '0';
    CHECK(kombilad_block_at(block, len, all, all, path, 2 * len - 2, &value, &needed, &offset) ==
              KOMBILAD_OK &&
          value.offset == len - 1 && value.len == 1 && needed == 2 * len - 2);
    CHECK(kombilad_block_at(block, len, all, all, path, 2 * len, &value, &needed, &offset) ==
              KOMBILAD_PATH_MISSING &&
          offset == len);
    free(path);
    CHECK(kombilad_tape(block, len, KOMBILAD_LEVELS, all, NULL, 0, &needed, &offset) ==
              KOMBILAD_TOO_DEEP &&
          offset == 1024);
    CHECK(kombilad_links(block, len, KOMBILAD_LEVELS, all, NULL, 0, &needed, &offset) ==
              KOMBILAD_TOO_DEEP &&
          offset == 1024);
    CHECK(kombilad_block_canonicalize(block, len, KOMBILAD_LEVELS, all, NULL, 0, &needed,
                                      &offset) == KOMBILAD_TOO_DEEP &&
          offset == 1024);
    len = 1000 * 1000;
    block[len - 1] = 0x80;
    CHECK(kombilad_block_canonicalize(block, len, all, all, NULL, 0, &needed, &offset) ==
              KOMBILAD_TOO_SHORT &&
          needed == len);
    free(block);
}

static bool reports(uint32_t status, const char *sentence) {
    uint8_t text[80];
    size_t needed = 0;
    return kombilad_status_text(status, text, sizeof text, &needed) == KOMBILAD_OK &&
           needed == strlen(sentence) && memcmp(text, sentence, needed) == 0;
}

/* Checks that every number has a sentence of at most 80 bytes, in ASCII, without a full stop. The
 * bytes after it in the buffer don't change, and neither does a buffer that is too short. */
static void check_sentences(void) {
    for (uint32_t status = 0; status < 70000; status++) {
        uint8_t text[81];
        size_t needed = 0;
        memset(text, 0xaa, sizeof text);
        CHECK(kombilad_status_text(status, NULL, 0, &needed) == KOMBILAD_TOO_SHORT);
        CHECK(0 < needed && needed <= 80);
        size_t len = needed;
        needed = 0;
        CHECK(kombilad_status_text(status, text, len - 1, &needed) == KOMBILAD_TOO_SHORT);
        CHECK(needed == len && text[0] == 0xaa && text[len - 1] == 0xaa);
        CHECK(kombilad_status_text(status, text, len, &needed) == KOMBILAD_OK && needed == len);
        for (size_t at = 0; at < len; at++) CHECK(' ' <= text[at] && text[at] <= '~');
        CHECK(text[len - 1] != '.' && text[len] == 0xaa);
        if (status > KOMBILAD_PACK_WAITING)
            CHECK(reports(status, "the status is not one of this version"));
    }
    CHECK(reports(KOMBILAD_OK, "the call succeeded"));
    CHECK(reports(KOMBILAD_NO_MEMORY, "out of memory"));
    CHECK(reports(KOMBILAD_OTHER, "the status is not one of this version"));
    CHECK(reports(136, "the status is not one of this version"));
    CHECK(reports(UINT32_MAX, "the status is not one of this version"));
    CHECK(reports(KOMBILAD_CID_TRAILING_BYTES, "more bytes follow the CID"));
    CHECK(reports(KOMBILAD_TEXT_UTF8, "the text is not UTF-8"));
    CHECK(reports(KOMBILAD_BLOCK_DUPLICATE_KEY, "a map has the same key twice"));
    CHECK(reports(KOMBILAD_PATH_MISSING, "the path leads to no key or index"));
    CHECK(reports(KOMBILAD_PATH_NOT_A_CONTAINER,
                  "the path continues after a value that is not a list, a map or a link"));
    CHECK(reports(KOMBILAD_LINK_TRAILING_BYTES, "more bytes follow the CID of a link"));
    CHECK(
        reports(KOMBILAD_CAR_SHORT_PAYLOAD, "the bytes end before the payload of version 2 does"));
    CHECK(reports(KOMBILAD_WRONG_DIGEST, "the digest of the block is not that of the CID"));
    CHECK(reports(KOMBILAD_TAPE_DUPLICATE_KEY, "a map has the same key twice"));
    CHECK(reports(KOMBILAD_PB_UTF8, "the name of a link is not UTF-8"));
    CHECK(reports(KOMBILAD_JSON_RESERVED_MAP,
                  "a map would be read as a link or as bytes in DAG-JSON"));
    CHECK(reports(KOMBILAD_CAR_MORE, "more bytes of the CAR are needed"));
    CHECK(reports(KOMBILAD_FILE_TOO_MANY_PARTS,
                  "more blocks of the file wait to be read than the limit"));
    CHECK(reports(KOMBILAD_PACK_WAITING, "take the blocks that are packed before you pack more"));
    CHECK(reports(KOMBILAD_UNIXFS_NANOSECONDS,
                  "the nanoseconds of the node's time are not from 1 to 999999999"));
}

int main(int count, char **words) {
    CHECK(kombilad_version() == KOMBILAD_VERSION);
    check_sentences();
    if (count > 1 && strcmp(words[1], "deep") == 0) {
        check_depth();
        puts("calls deep: ok");
        return 0;
    }
    check_cids();
    check_texts();
    check_no_texts();
    check_cid_of_block();
    check_blocks();
    check_json();
    check_paths();
    check_each_kind();
    check_no_tapes();
    check_nodes();
    check_limits();
    check_refused();
    check_opened_parts();
    check_parts();
    check_digests();
    check_files();
    check_ranges();
    check_folders();
    check_lookups();
    check_unixfs_nodes();
    check_targets();
    check_packed_files();
    check_packed_folders();
    check_written_car();
    check_car_index();
    check_threads();
    puts("calls: ok");
    return 0;
}
