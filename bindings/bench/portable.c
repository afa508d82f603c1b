/* The times of each call in several builds of libkombilad, in turns, the least of many short runs.
 *
 * usage: portable FOLDER LIBRARY.so..
 *
 * FOLDER is that of the data. Each line is the name of a piece of work, and its nanoseconds in each
 * library. */
#include <kombilad.h>

#include <dlfcn.h>
#include <stdio.h>
#include <stdlib.h>
#include <string.h>
#include <time.h>

enum { ROUNDS = 60, ROUND = 500000, MOST_LIBRARIES = 8, CIDS = 1000, CID_LEN = 36, TEXT_LEN = 59 };

#define CALLS(do)                                                                                                                                        \
    do                                                                                                                                                   \
    (cid_check) do(cid_parts_of) do(cid_to_text) do(cid_from_text) do(cid_of_block) do(block_check) do(block_check_canonical) do(block_canonicalize) do( \
        links_count) do(links) do(link_positions) do(tape) do(encode) do(pb_tape) do(car_open_part) do(car_next_part) do(verify)

#define POINTER(name) __typeof__(kombilad_##name) *name;
struct library {
    CALLS(POINTER)
};

/* What a piece of work reads, and room for what it writes: as many records as there are bytes. */
struct input {
    uint8_t *bytes;
    size_t len;
    kombilad_entry *entries;
    size_t entries_len;
    kombilad_cid *cids;
    kombilad_span *spans;
    uint8_t *out;
};

static void ends(const char *what, const char *which) {
    fprintf(stderr, "portable: %s %s\n", what, which);
    exit(1);
}

static void *room(size_t count, size_t size) {
    void *made = calloc(count + 1, size);
    if (made == NULL) ends("there is no memory for", "the data");
    return made;
}

static struct input read_input(const char *folder, const char *name) {
    char path[4096];
    snprintf(path, sizeof path, "%s/%s", folder, name);
    FILE *file = fopen(path, "rb");
    if (file == NULL || fseek(file, 0, SEEK_END) != 0) ends("can't read", path);
    struct input in = {.len = (size_t)ftell(file)};
    rewind(file);
    in.bytes = room(in.len, 1);
    in.out = room(in.len, 2);
    in.entries = room(in.len, sizeof *in.entries);
    in.cids = room(in.len / CID_LEN, sizeof *in.cids);
    in.spans = room(in.len, sizeof *in.spans);
    if (fread(in.bytes, 1, in.len, file) != in.len) ends("can't read", path);
    fclose(file);
    return in;
}

/* ---- The pieces of work: each returns the sum of the statuses, which are all KOMBILAD_OK */

#define BLOCK in->bytes, in->len, KOMBILAD_LEVELS, KOMBILAD_VALUES

static uint32_t block_check(const struct library *of, const struct input *in) {
    size_t offset;
    return of->block_check(BLOCK, &offset);
}

static uint32_t block_check_canonical(const struct library *of, const struct input *in) {
    size_t offset;
    return of->block_check_canonical(BLOCK, &offset);
}

static uint32_t block_canonicalize(const struct library *of, const struct input *in) {
    size_t needed, offset;
    return of->block_canonicalize(BLOCK, in->out, in->len, &needed, &offset);
}

static uint32_t links_count(const struct library *of, const struct input *in) {
    size_t count, offset;
    return of->links_count(BLOCK, &count, &offset);
}

static uint32_t links(const struct library *of, const struct input *in) {
    size_t needed, offset;
    return of->links(BLOCK, in->cids, in->len / CID_LEN, &needed, &offset);
}

static uint32_t link_positions(const struct library *of, const struct input *in) {
    size_t needed, offset;
    return of->link_positions(BLOCK, in->spans, in->len, &needed, &offset);
}

static uint32_t tape(const struct library *of, const struct input *in) {
    size_t needed, offset;
    return of->tape(BLOCK, in->entries, in->len, &needed, &offset);
}

static uint32_t encode(const struct library *of, const struct input *in) {
    size_t needed, at;
    return of->encode(in->entries, in->entries_len, in->bytes, in->len, in->out, in->len, &needed,
                      &at);
}

static uint32_t pb_tape(const struct library *of, const struct input *in) {
    size_t needed, offset;
    return of->pb_tape(in->bytes, in->len, in->entries, in->len, &needed, &offset);
}

static uint32_t cid_of_block(const struct library *of, const struct input *in) {
    of->cid_of_block(0x71, in->bytes, in->len, in->cids);
    return KOMBILAD_OK;
}

/* All sections of a CAR; with the digest of each block if that is asked for. */
static uint32_t sections(const struct library *of, const struct input *in, int verified) {
    kombilad_car_place place;
    kombilad_span cid, data;
    size_t needed;
    uint64_t more, offset;
    uint32_t status = of->car_open_part(in->bytes, in->len, 1, in->len, &place, in->cids, 1,
                                        &needed, &more, &offset);
    while (status == KOMBILAD_OK) {
        const uint8_t *bytes = in->bytes + place.at;
        status = of->car_next_part(bytes, in->len - (size_t)place.at, 1, in->len, &place, &cid,
                                   &data, &more, &offset);
        if (status == KOMBILAD_OK && verified)
            status = of->verify(bytes + cid.offset, cid.len, bytes + data.offset, data.len);
    }
    return status - KOMBILAD_CAR_DONE;
}

static uint32_t car(const struct library *of, const struct input *in) {
    return sections(of, in, 0);
}

static uint32_t car_verified(const struct library *of, const struct input *in) {
    return sections(of, in, 1);
}

static uint32_t cid_check(const struct library *of, const struct input *in) {
    uint32_t sum = 0;
    for (size_t at = 0; at < CIDS; at++) sum += of->cid_check(in->bytes + at * CID_LEN, CID_LEN);
    return sum;
}

static uint32_t cid_parts_of(const struct library *of, const struct input *in) {
    kombilad_cid_parts parts;
    uint32_t sum = 0;
    for (size_t at = 0; at < CIDS; at++)
        sum += of->cid_parts_of(in->bytes + at * CID_LEN, CID_LEN, &parts);
    return sum;
}

static uint32_t to_text(const struct library *of, const struct input *in, uint32_t base) {
    size_t needed;
    uint32_t sum = 0;
    for (size_t at = 0; at < CIDS; at++)
        sum += of->cid_to_text(in->bytes + at * CID_LEN, CID_LEN, base, in->out, 200, &needed);
    return sum;
}

static uint32_t cid_to_base32(const struct library *of, const struct input *in) {
    return to_text(of, in, KOMBILAD_BASE32);
}

static uint32_t cid_to_base58(const struct library *of, const struct input *in) {
    return to_text(of, in, KOMBILAD_BASE58BTC);
}

static uint32_t cid_from_base32(const struct library *of, const struct input *in) {
    size_t place;
    uint32_t sum = 0;
    for (size_t at = 0; at < CIDS; at++)
        sum += of->cid_from_text(in->bytes + at * TEXT_LEN, TEXT_LEN, in->cids, &place);
    return sum;
}

struct work {
    const char *name;
    uint32_t (*run)(const struct library *, const struct input *);
};

#define WORK(name) \
    { #name, name }
static const struct work ON_BLOCKS[] = {
    WORK(block_check),
    WORK(block_check_canonical),
    WORK(block_canonicalize),
    WORK(links_count),
    WORK(links),
    WORK(link_positions),
    WORK(tape),
    WORK(encode),
    WORK(cid_of_block),
};
static const struct work ON_CIDS[] = {
    WORK(cid_check),
    WORK(cid_parts_of),
    WORK(cid_to_base32),
    WORK(cid_to_base58),
};
static const struct work ON_TEXTS[] = {WORK(cid_from_base32)};
static const struct work ON_CARS[] = {WORK(car), WORK(car_verified)};
static const struct work ON_NODES[] = {WORK(pb_tape)};

/* ---- Measuring */

static double now(void) {
    struct timespec time;
    clock_gettime(CLOCK_MONOTONIC, &time);
    return (double)time.tv_sec * 1e9 + (double)time.tv_nsec;
}

static double one_run(const struct work *work, const struct library *of, const struct input *in,
                      long times) {
    double begin = now();
    for (long at = 0; at < times; at++)
        if (work->run(of, in) != KOMBILAD_OK) ends("a call rejects the data:", work->name);
    return (now() - begin) / (double)times;
}

static void measure(const struct work *work, const char *data, const struct library *libraries,
                    int count, const struct input *in) {
    double least[MOST_LIBRARIES];
    long times[MOST_LIBRARIES];
    for (int at = 0; at < count; at++) {
        least[at] = one_run(work, &libraries[at], in, 1);
        double wanted = ROUND / least[at];
        times[at] = wanted < 1 ? 1 : wanted > 100000 ? 100000 : (long)wanted;
    }
    for (int round = 0; round < ROUNDS; round++)
        for (int at = 0; at < count; at++) {
            double took = one_run(work, &libraries[at], in, times[at]);
            if (took < least[at]) least[at] = took;
        }
    printf("%s\t%s", work->name, data);
    for (int at = 0; at < count; at++) printf("\t%.1f", least[at]);
    putchar('\n');
    fflush(stdout);
}

#define LOAD(name)                                         \
    *(void **)&of.name = dlsym(loaded, "kombilad_" #name); \
    if (of.name == NULL) ends("there is no call kombilad_" #name " in", path);
static struct library load(const char *path) {
    struct library of;
    void *loaded = dlopen(path, RTLD_NOW | RTLD_LOCAL);
    if (loaded == NULL) ends("can't load", dlerror());
    CALLS(LOAD)
    return of;
}

#define EACH(works, data)                                           \
    for (size_t at = 0; at < sizeof(works) / sizeof *(works); at++) \
    measure(&(works)[at], data, libraries, count, &in)

int main(int words, char **word) {
    static const char *const BLOCKS[] = {"record",  "file",   "hamt", "integers", "keys",
                                         "strings", "person", "post", "message"};
    struct library libraries[MOST_LIBRARIES];
    int count = words - 2;
    if (count < 1 || count > MOST_LIBRARIES) ends("usage:", "portable FOLDER LIBRARY.so..");
    for (int at = 0; at < count; at++) libraries[at] = load(word[at + 2]);
    for (size_t of = 0; of < sizeof BLOCKS / sizeof *BLOCKS; of++) {
        char name[64];
        size_t offset;
        snprintf(name, sizeof name, "%s.cbor", BLOCKS[of]);
        struct input in = read_input(word[1], name);
        if (libraries[0].tape(in.bytes, in.len, KOMBILAD_LEVELS, KOMBILAD_VALUES, in.entries,
                              in.len, &in.entries_len, &offset) != KOMBILAD_OK)
            ends("not a block:", name);
        EACH(ON_BLOCKS, BLOCKS[of]);
    }
    struct input in = read_input(word[1], "cids.bin");
    EACH(ON_CIDS, "1,000 CIDs");
    in = read_input(word[1], "cids.txt");
    EACH(ON_TEXTS, "1,000 texts");
    in = read_input(word[1], "blocks.car");
    EACH(ON_CARS, "500 blocks");
    in = read_input(word[1], "node.pb");
    EACH(ON_NODES, "node");
    return 0;
}
