/* Runs each case of a file, with buffers of several lengths and with each allocation refused.
 * Prints a line for each outcome: the case, the way it was run, the status, the number of
 * allocations, and a digest of all numbers and bytes that were written.
 *
 * usage: drive CASES
 *
 * A case is the number of the call, four numbers of 64 bits, and two strings of bytes. Each string
 * comes after its length and the number of times that it is repeated. All numbers have their lowest
 * byte first. */
#include "kombilad.h"

#include <stdio.h>
#include <stdlib.h>
#include <string.h>

#if defined(__SANITIZE_ADDRESS__)
#define GUARD 0
#elif defined(__has_feature)
#if __has_feature(address_sanitizer)
#define GUARD 0
#endif
#endif
#ifndef GUARD
#define GUARD 16
#endif

enum { MOST_REFUSALS = 12, UNWRITTEN = 77777 };

enum call {
    CID_CHECK,
    CID_PARTS_OF,
    CID_TO_TEXT,
    CID_FROM_TEXT,
    CID_OF_BLOCK,
    BLOCK_CHECK,
    BLOCK_CHECK_CANONICAL,
    BLOCK_CANONICALIZE,
    BLOCK_AT,
    BLOCK_TO_JSON,
    BLOCK_OF_JSON,
    LINKS_COUNT,
    LINKS,
    LINK_POSITIONS,
    TAPE,
    ENCODE,
    PB_TAPE,
    CAR_OPEN_PART,
    CAR_NEXT_PART,
    VERIFY,
    STATUS_TEXT,
    VERSION
};

/* ---- Allocations */

static long refused_at, allocations, blocks;

static int refuses(void) {
    allocations++;
    return refused_at >= 0 && refused_at-- == 0;
}

void *counted_malloc(size_t size) {
    void *block = refuses() ? NULL : malloc(size);
    blocks += block != NULL;
    return block;
}

void *counted_realloc(void *block, size_t size) { return refuses() ? NULL : realloc(block, size); }

void counted_free(void *block) {
    blocks -= block != NULL;
    free(block);
}

/* ---- The digest of an outcome */

static uint64_t digest;

static void note_bytes(const uint8_t *bytes, size_t len) {
    size_t at;
    for (at = 0; at < len; at++) digest = (digest ^ bytes[at]) * 0x100000001b3u;
}

static void note(uint64_t number) {
    uint8_t bytes[8];
    int at;
    for (at = 0; at < 8; at++) bytes[at] = (uint8_t)(number >> 8 * at);
    note_bytes(bytes, 8);
}

static void note_cids(const kombilad_cid *cids, size_t count) {
    size_t at;
    for (at = 0; at < count; at++) {
        note(cids[at].len);
        note_bytes(cids[at].bytes, sizeof cids[at].bytes);
    }
}

static void note_spans(const kombilad_span *spans, size_t count) {
    size_t at;
    for (at = 0; at < count; at++) {
        note(spans[at].offset);
        note(spans[at].len);
    }
}

static void note_entries(const kombilad_entry *entries, size_t count) {
    size_t at;
    for (at = 0; at < count; at++) {
        note(entries[at].kind);
        note(entries[at].len);
        note(entries[at].value);
    }
}

/* ---- Buffers between bytes that no call may change */

typedef struct room {
    uint8_t *at;
    size_t size;
} room;

/* Every byte is 0x4d, so each number in it is the same in any byte order. */
static room make_room(size_t size) {
    room made;
    uint8_t *block = malloc(size + 2 * GUARD + (size + 2 * GUARD == 0));
    if (!block) abort();
    memset(block, 0xa5, size + 2 * GUARD);
    made.at = block + GUARD;
    made.size = size;
    if (size) memset(made.at, 0x4d, size);
    return made;
}

static void free_room(room made) {
    int at;
    for (at = 0; at < GUARD; at++)
        if (made.at[at - GUARD] != 0xa5 || made.at[made.size + (size_t)at] != 0xa5) {
            printf("a byte beside a buffer was written\n");
            exit(1);
        }
    free(made.at - GUARD);
}

/* ---- Cases */

typedef struct input {
    unsigned call;
    uint64_t numbers[4];
    room first, second;
} input;

static FILE *file;

static uint64_t read_number(int size) {
    uint64_t made = 0;
    int at;
    for (at = 0; at < size; at++) {
        int byte = getc(file);
        if (byte == EOF) abort();
        made |= (uint64_t)byte << 8 * at;
    }
    return made;
}

static room read_bytes(void) {
    size_t len = (size_t)read_number(4), times = (size_t)read_number(4), at;
    room made = make_room(len * times);
    if (len && fread(made.at, 1, len, file) != len) abort();
    for (at = 1; at < times; at++) memcpy(made.at + at * len, made.at, len);
    return made;
}

static size_t cut(uint64_t number) { return number > SIZE_MAX ? SIZE_MAX : (size_t)number; }

/* Reads the sections of a CAR, at most 100, up to the first status that isn't OK. The lowest bit of
 * the first number of the case is 1 if the bytes are the whole CAR. The next 7 bits are the
 * version, and the other bits are the limit. */
static uint32_t walk(const input *of) {
    kombilad_car_place place = {of->numbers[0] >> 1 & 127, of->numbers[1], of->numbers[2]};
    kombilad_span cid, block;
    uint64_t more, offset;
    size_t begin = 0;
    uint32_t status;
    int most = 100;
    do {
        memset(&cid, 0x4d, sizeof cid);
        memset(&block, 0x4d, sizeof block);
        more = offset = UNWRITTEN;
        status = kombilad_car_next_part(of->first.at + begin, of->first.size - begin,
                                        (uint32_t)of->numbers[0] & 1, cut(of->numbers[0] >> 8),
                                        &place, &cid, &block, &more, &offset);
        note(status);
        note(place.version);
        note(place.at);
        note(place.end);
        note(more);
        note(offset);
        note_spans(&cid, 1);
        note_spans(&block, 1);
        if (status == KOMBILAD_OK) begin += block.offset + block.len;
    } while (status == KOMBILAD_OK && --most);
    return status;
}

/* Runs a call with a buffer of `count` bytes or records, adds its results to the digest, and
 * returns the status. */
static uint32_t run(const input *of, size_t count, size_t *needed) {
    const uint8_t *first = of->first.at;
    size_t len = of->first.size, levels = cut(of->numbers[0]), values = cut(of->numbers[1]);
    size_t offset = UNWRITTEN;
    uint32_t status = 0;
    room out = {NULL, 0};
    *needed = UNWRITTEN;
    switch (of->call) {
    case CID_CHECK: status = kombilad_cid_check(first, len); break;
    case CID_PARTS_OF: {
        kombilad_cid_parts parts;
        memset(&parts, 0x4d, sizeof parts);
        status = kombilad_cid_parts_of(first, len, &parts);
        note(parts.version);
        note(parts.codec);
        note(parts.hash);
        note(parts.digest_len);
        break;
    }
    case CID_TO_TEXT:
        out = make_room(count);
        status = kombilad_cid_to_text(first, len, (uint32_t)of->numbers[0], out.at, count, needed);
        note_bytes(out.at, count);
        break;
    case CID_FROM_TEXT:
    case CID_OF_BLOCK: {
        kombilad_cid cid;
        memset(&cid, 0x4d, sizeof cid);
        if (of->call == CID_OF_BLOCK)
            kombilad_cid_of_block(of->numbers[0], first, len, &cid);
        else
            status = kombilad_cid_from_text(first, len, &cid, &offset);
        note_cids(&cid, 1);
        break;
    }
    case BLOCK_CHECK: status = kombilad_block_check(first, len, levels, values, &offset); break;
    case BLOCK_CHECK_CANONICAL:
        status = kombilad_block_check_canonical(first, len, levels, values, &offset);
        break;
    case BLOCK_CANONICALIZE:
        out = make_room(count);
        status = kombilad_block_canonicalize(first, len, levels, values, out.at, count, needed,
                                             &offset);
        note_bytes(out.at, count);
        break;
    case BLOCK_AT: {
        kombilad_span value = {UNWRITTEN, UNWRITTEN};
        size_t rest = UNWRITTEN;
        status = kombilad_block_at(first, len, levels, values, of->second.at, of->second.size,
                                   &value, &rest, &offset);
        note_spans(&value, 1);
        note(rest);
        break;
    }
    case BLOCK_TO_JSON:
        out = make_room(count);
        status = kombilad_block_to_json(first, len, levels, values, out.at, count, needed, &offset);
        note_bytes(out.at, count);
        break;
    case BLOCK_OF_JSON:
        out = make_room(count);
        status = kombilad_block_of_json(first, len, levels, values, out.at, count, needed, &offset);
        note_bytes(out.at, count);
        break;
    case LINKS_COUNT: {
        size_t links = UNWRITTEN;
        status = kombilad_links_count(first, len, levels, values, &links, &offset);
        note(links);
        break;
    }
    case LINKS:
        out = make_room(count * sizeof(kombilad_cid));
        status = kombilad_links(first, len, levels, values, (kombilad_cid *)(void *)out.at, count,
                                needed, &offset);
        note_cids((kombilad_cid *)(void *)out.at, count);
        break;
    case LINK_POSITIONS:
        out = make_room(count * sizeof(kombilad_span));
        status = kombilad_link_positions(first, len, levels, values,
                                         (kombilad_span *)(void *)out.at, count, needed, &offset);
        note_spans((kombilad_span *)(void *)out.at, count);
        break;
    case TAPE:
        out = make_room(count * sizeof(kombilad_entry));
        status = kombilad_tape(first, len, levels, values, (kombilad_entry *)(void *)out.at, count,
                               needed, &offset);
        note_entries((kombilad_entry *)(void *)out.at, count);
        break;
    case PB_TAPE:
        out = make_room(count * sizeof(kombilad_entry));
        status = kombilad_pb_tape(first, len, (kombilad_entry *)(void *)out.at, count, needed,
                                  &offset);
        note_entries((kombilad_entry *)(void *)out.at, count);
        break;
    case ENCODE: {
        size_t entries_len = len / 16, at;
        room entries = make_room(entries_len * sizeof(kombilad_entry));
        for (at = 0; at < entries_len; at++) {
            kombilad_entry entry = {0, 0, 0};
            int byte;
            for (byte = 0; byte < 4; byte++) {
                entry.kind |= (uint32_t)first[16 * at + (size_t)byte] << 8 * byte;
                entry.len |= (uint32_t)first[16 * at + 4 + (size_t)byte] << 8 * byte;
            }
            for (byte = 0; byte < 8; byte++)
                entry.value |= (uint64_t)first[16 * at + 8 + (size_t)byte] << 8 * byte;
            memcpy(entries.at + at * sizeof entry, &entry, sizeof entry);
        }
        out = make_room(count);
        status = kombilad_encode((kombilad_entry *)(void *)entries.at, entries_len, of->second.at,
                                 of->second.size, out.at, count, needed, &offset);
        note_bytes(out.at, count);
        note_entries((kombilad_entry *)(void *)entries.at, entries_len);
        free_room(entries);
        break;
    }
    case CAR_OPEN_PART: {
        kombilad_car_place place;
        uint64_t more = UNWRITTEN, at = UNWRITTEN;
        memset(&place, 0x4d, sizeof place);
        out = make_room(count * sizeof(kombilad_cid));
        status = kombilad_car_open_part(first, len, (uint32_t)of->numbers[1], levels, &place,
                                        (kombilad_cid *)(void *)out.at, count, needed, &more, &at);
        note(place.version);
        note(place.at);
        note(place.end);
        note(more);
        note(at);
        note_cids((kombilad_cid *)(void *)out.at, count);
        break;
    }
    case CAR_NEXT_PART: status = walk(of); break;
    case VERIFY: status = kombilad_verify(first, len, of->second.at, of->second.size); break;
    case STATUS_TEXT:
        out = make_room(count);
        status = kombilad_status_text((uint32_t)of->numbers[0], out.at, count, needed);
        note_bytes(out.at, count);
        break;
    case VERSION: status = kombilad_version(); break;
    default: abort();
    }
    note(*needed);
    note(offset);
    if (out.at) free_room(out);
    return status;
}

/* Runs a case in one way, and prints the outcome. */
static uint32_t outcome(unsigned number, const char *way, long refused, const input *of,
                        size_t count, size_t *needed) {
    uint32_t status;
    digest = 0xcbf29ce484222325u;
    refused_at = refused;
    allocations = blocks = 0;
    status = run(of, count, needed);
#ifdef ENCODE_COPIES
    if (of->call == ENCODE && of->first.size >= 16) allocations--;
#endif
    printf("%u %u %s %ld %u %ld %016llx\n", number, of->call, way, refused, (unsigned)status,
           allocations, (unsigned long long)digest);
    if (blocks) {
        printf("blocks are left\n");
        exit(1);
    }
    return status;
}

static void run_case(unsigned number, const input *of) {
    size_t needed, same, count = 0;
    uint32_t status = outcome(number, "none", -1, of, 0, &needed);
    uint64_t first = 0, second = 0;
    long refused;
    digest = 0;
    note_bytes(of->first.at, of->first.size);
    first = digest;
    note_bytes(of->second.at, of->second.size);
    second = digest;
    if (status <= KOMBILAD_TOO_SHORT && needed != UNWRITTEN) {
        count = needed;
        outcome(number, "exact", -1, of, count, &same);
        outcome(number, "more", -1, of, count + 3, &same);
        if (count) outcome(number, "less", -1, of, count - 1, &same);
    }
    if (of->numbers[3]) {
#ifdef ENCODE_COPIES
        /* The first allocation would be the copy of the entries. */
        if (of->call == ENCODE) return;
#endif
        for (refused = 0; refused < MOST_REFUSALS; refused++) {
            outcome(number, "refused", refused, of, count, &same);
            if (refused_at >= 0) break;
        }
    }
    digest = 0;
    note_bytes(of->first.at, of->first.size);
    same = digest == first;
    note_bytes(of->second.at, of->second.size);
    if (!same || digest != second) {
        printf("an input was written\n");
        exit(1);
    }
}

int main(int count, char **words) {
    static char buffer[1 << 16];
    unsigned number = 0;
    int call;
    if (count != 2 || !(file = fopen(words[1], "rb"))) return 2;
    setvbuf(stdout, buffer, _IOFBF, sizeof buffer);
    for (; (call = getc(file)) != EOF; number++) {
        input of;
        int at;
        of.call = (unsigned)call;
        for (at = 0; at < 4; at++) of.numbers[at] = read_number(8);
        of.first = read_bytes();
        of.second = read_bytes();
        run_case(number, &of);
        free_room(of.first);
        free_room(of.second);
    }
    fclose(file);
    return 0;
}
