/* How the proved code allocates: by malloc, realloc and free of the C library. */
#include <stdbool.h>
#include <stdlib.h>

/* A block, or whether there is none. */
struct tried {
    bool found;
    void *block;
};

/* What stands for a block where there is none: a pointer that isn't null, of which no byte is read
 * or written. */
static char nothing[1];

static struct tried tried(void *block) {
    return block ? (struct tried){true, block} : (struct tried){false, nothing};
}

/* A new block. The alignment divides 16, as malloc's does; a block of no bytes is one of some. */
struct tried rattle_alloc(size_t size, size_t align) {
    return tried(malloc(size ? size : align));
}

/* The block with another size; the first `kept` bytes stay. Where this fails the block stays as it
 * is. */
struct tried rattle_realloc(void *block, size_t kept, size_t size, size_t align) {
    (void)kept;
    return tried(realloc(block, size ? size : align));
}

void rattle_dealloc(void *block) { free(block); }
