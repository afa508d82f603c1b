/* Calls of libkombilad that record whether their thread holds the interpreter's lock. If a test
 * requests it, they wait for each other. The extension module contains them, and in it the
 * library's own calls have the prefix `real_`. */
#include <pthread.h>
#include <stdbool.h>
#include <time.h>

#include <kombilad.h>

static int (*holds_lock)(void);
static size_t seen[2];

static pthread_mutex_t mutex = PTHREAD_MUTEX_INITIALIZER;
static pthread_cond_t changed = PTHREAD_COND_INITIALIZER;
static size_t wanted, inside;

/* Begins to count calls. `holds` is CPython's function that reports whether the thread holds the
 * lock. Each of the next `threads` calls waits until all of them have begun, for at most 20 s. */
void kombilad_test_watch(int (*holds)(void), size_t threads) {
    holds_lock = holds;
    seen[0] = seen[1] = inside = 0;
    wanted = threads;
}

/* Returns the number of calls without the lock (0) or with it (1). */
size_t kombilad_test_seen(int with_lock) { return seen[with_lock]; }

/* Returns the number of calls that were inside at the same time, up to `threads`. */
size_t kombilad_test_inside(void) { return inside; }

static void look(void) {
    struct timespec end;
    if (holds_lock == NULL) return;
    bool holds = holds_lock() != 0;
    clock_gettime(CLOCK_REALTIME, &end);
    end.tv_sec += 20;
    pthread_mutex_lock(&mutex);
    seen[holds]++;
    if (inside < wanted) {
        inside++;
        pthread_cond_broadcast(&changed);
        while (inside < wanted && pthread_cond_timedwait(&changed, &mutex, &end) == 0) continue;
        if (inside < wanted) wanted = 0;
    }
    pthread_mutex_unlock(&mutex);
}

#define WATCHED(name, parameters, arguments) \
    uint32_t real_##name parameters;         \
    uint32_t name parameters;                \
    uint32_t name parameters {               \
        look();                              \
        return real_##name arguments;        \
    }

WATCHED(kombilad_tape,
        (const uint8_t *block, size_t len, size_t levels, size_t values, kombilad_entry *entries,
         size_t entries_len, size_t *needed, size_t *offset),
        (block, len, levels, values, entries, entries_len, needed, offset))
WATCHED(kombilad_block_at,
        (const uint8_t *block, size_t len, size_t levels, size_t values, const uint8_t *path,
         size_t path_len, kombilad_span *value, size_t *rest, size_t *place),
        (block, len, levels, values, path, path_len, value, rest, place))
WATCHED(kombilad_block_check,
        (const uint8_t *block, size_t len, size_t levels, size_t values, size_t *offset),
        (block, len, levels, values, offset))
WATCHED(kombilad_block_check_canonical,
        (const uint8_t *block, size_t len, size_t levels, size_t values, size_t *offset),
        (block, len, levels, values, offset))
WATCHED(kombilad_verify, (const uint8_t *cid, size_t cid_len, const uint8_t *block, size_t len),
        (cid, cid_len, block, len))
WATCHED(kombilad_file_take,
        (kombilad_walk * walk, const uint8_t *block, size_t len, uint8_t *bytes, size_t bytes_len,
         size_t *needed, size_t *offset),
        (walk, block, len, bytes, bytes_len, needed, offset))
WATCHED(kombilad_folder_take,
        (kombilad_walk * walk, const uint8_t *block, size_t len, kombilad_folder_entry *entries,
         size_t entries_len, uint8_t *names, size_t names_len, size_t *needed, size_t *place),
        (walk, block, len, entries, entries_len, names, names_len, needed, place))
WATCHED(kombilad_folder_lookup,
        (const uint8_t *folder, size_t folder_len, const uint8_t *name, size_t name_len,
         const uint8_t *bytes, size_t bytes_len, const kombilad_span *blocks, size_t blocks_len,
         kombilad_cid *cid, size_t *place),
        (folder, folder_len, name, name_len, bytes, bytes_len, blocks, blocks_len, cid, place))
WATCHED(kombilad_unixfs_node,
        (const uint8_t *cid, size_t cid_len, const uint8_t *block, size_t len, kombilad_node *node,
         uint8_t *target, size_t target_len, size_t *needed, size_t *place),
        (cid, cid_len, block, len, node, target, target_len, needed, place))
WATCHED(kombilad_pack_chunk, (kombilad_packing * packing, const uint8_t *chunk, size_t len),
        (packing, chunk, len))
WATCHED(kombilad_pack_last_chunk,
        (kombilad_packing * packing, const uint8_t *chunk, size_t len,
         const kombilad_node *attributes),
        (packing, chunk, len, attributes))
WATCHED(kombilad_pack_folder,
        (uint32_t version, const kombilad_node *attributes, uint64_t sharded_above,
         const kombilad_folder_entry *entries, size_t entries_len, const uint8_t *names,
         size_t names_len, kombilad_packing *packing, size_t *place),
        (version, attributes, sharded_above, entries, entries_len, names, names_len, packing,
         place))
