/* How kombilad.c allocates in WebAssembly, and the room for what JavaScript passes.
 *
 * Memory is [stack, constants][room][heap]. The blocks of the heap lie side by side, each after a
 * head. The last one grows, shrinks and is freed in place. Any other block that is freed becomes one
 * with the free blocks next to it, and goes to the front of a list. A new block takes the first of
 * the list that is long enough, of which it looks at a few, and otherwise is after the last one. The
 * whole heap is free after each call that frees all that it takes. What is walked over or packed
 * keeps blocks from call to call. Memory grows up to the bound, and never shrinks. */
#include <stdint.h>
#include <stdlib.h>

#ifndef HEAP_BOUND
#error "HEAP_BOUND is the greatest size of the memory in bytes"
#endif

enum { PAGE = 65536, ALIGNMENT = 16, HEAD = 16, TRIES = 8 };

/* What lies before a block. */
struct head {
    uint32_t before; /* where the block before it begins, or the heap */
    uint32_t size;
    uint32_t next;  /* the next free block of the list, or 0, or IN_USE if this one isn't free */
    uint32_t prior; /* the free block before it in the list, or 0 */
};

/* No block begins there. */
#define IN_USE 1u

/* Where the stack and the constants end, by the linker. */
extern unsigned char __heap_base;

/* Sums of two sizes and addresses need 33 bits. */
static uint64_t bound = HEAP_BOUND;
static uint64_t heap; /* where the heap begins; 0 before the first call */
static uint64_t top;  /* where its next block begins */
static uint64_t last; /* where its last block begins, or the heap if there is none */
static uint32_t list; /* the first free block, or 0 */
static uint32_t live; /* how many blocks there are */

static uint64_t aligned(uint64_t size) { return (size + (ALIGNMENT - 1)) & -(uint64_t)ALIGNMENT; }

static uint64_t base(void) { return aligned((uintptr_t)&__heap_base); }

static uint64_t memory_size(void) { return (uint64_t)__builtin_wasm_memory_size(0) * PAGE; }

/* Returns whether the memory could grow by so many bytes. */
static int grown(uint64_t size) {
    return __builtin_wasm_memory_grow(0, (size + (PAGE - 1)) / PAGE) != SIZE_MAX;
}

/* Returns whether `size` more bytes from `from` on are memory, and grows it if they are not. */
static int reaches(uint64_t from, uint64_t size) {
    uint64_t end = from + size, now = memory_size();
    if (end > bound) return 0;
    if (end <= now) return 1;
    /* An eighth more than is asked for, so that a growing block asks rarely. */
    uint64_t generous = end + end / 8;
    return grown((generous < bound ? generous : bound) - now) || grown(end - now);
}

static void start(void) {
    if (heap == 0) heap = top = last = base();
}

static struct head *head_of(uint64_t block) { return (struct head *)(uintptr_t)(block - HEAD); }

static uint32_t after(uint32_t block) { return block + head_of(block)->size + HEAD; }

/* Puts a block at the front of the list. */
static void enlist(uint32_t block) {
    head_of(block)->prior = 0;
    head_of(block)->next = list;
    if (list) head_of(list)->prior = block;
    list = block;
}

/* Takes a block out of the list. */
static void unlist(uint32_t block) {
    struct head *head = head_of(block);
    if (head->prior)
        head_of(head->prior)->next = head->next;
    else
        list = head->next;
    if (head->next) head_of(head->next)->prior = head->prior;
    head->next = IN_USE;
}

/* Makes a block one with the block after it. */
static void join(uint32_t block, uint32_t next) {
    head_of(block)->size += HEAD + head_of(next)->size;
    if (next == last)
        last = block;
    else
        head_of(after(block))->before = block;
}

/* Frees a block, which is not NULL. */
void free(void *freed) {
    uint32_t block = (uintptr_t)freed;
    live--;
    if (block != last && head_of(after(block))->next != IN_USE) {
        unlist(after(block));
        join(block, after(block));
    }
    uint32_t before = head_of(block)->before;
    if (before != heap && head_of(before)->next != IN_USE) {
        unlist(before);
        join(before, block);
        block = before;
    }
    if (block == last) {
        top = block - HEAD;
        last = head_of(block)->before;
    } else {
        enlist(block);
    }
}

/* Shortens a block that isn't the last one, and frees what is left if that has room for a block. */
static void shorten(uint32_t block, uint32_t size) {
    struct head *head = head_of(block);
    if (head->size - size < HEAD + ALIGNMENT) return;
    uint32_t rest = block + size + HEAD;
    *head_of(rest) = (struct head){block, head->size - size - HEAD, IN_USE, 0};
    head_of(after(block))->before = rest;
    head->size = size;
    live++;
    free((void *)(uintptr_t)rest);
}

/* Returns a new block, or NULL. */
void *malloc(size_t size) {
    start();
    uint64_t taken = aligned(size ? size : 1);
    uint32_t block = list;
    for (int tries = TRIES; block && tries; tries--) {
        if (head_of(block)->size >= taken) {
            unlist(block);
            live++;
            shorten(block, taken);
            return (void *)(uintptr_t)block;
        }
        block = head_of(block)->next;
    }
    if (!reaches(top, HEAD + taken)) return NULL;
    *head_of(top + HEAD) = (struct head){last, taken, IN_USE, 0};
    last = top + HEAD;
    top += HEAD + taken;
    live++;
    return (void *)(uintptr_t)last;
}

/* Returns the block with another size, or NULL, and then the block stays as it is. The block is not
 * NULL. */
void *realloc(void *block, size_t size) {
    uintptr_t from = (uintptr_t)block;
    uint64_t taken = aligned(size ? size : 1);
    if (from == last) {
        if (!reaches(last, taken)) return NULL;
        head_of(from)->size = taken;
        top = last + taken;
        return block;
    }
    if (taken <= head_of(from)->size) {
        shorten(from, taken);
        return block;
    }
    void *moved = malloc(size);
    if (!moved) return NULL;
    __builtin_memcpy(moved, block, head_of(from)->size);
    free(block);
    return moved;
}

/* Makes room for `size` bytes below the heap, and returns where it begins. Returns 0 if that needs
 * more memory than the bound or the host allows, or if a block is left. What the room had is kept.
 */
uint32_t kombilad_wasm_room(uint32_t size) {
    start();
    if (live != 0 || !reaches(base(), aligned(size))) return 0;
    heap = top = last = base() + aligned(size);
    return (uint32_t)base();
}

/* Sets the bound of the memory in bytes. Memory that there is stays. */
void kombilad_wasm_bound(uint32_t size) { bound = size < HEAP_BOUND ? size : HEAP_BOUND; }

/* Returns a new block for JavaScript, or 0. */
uint32_t kombilad_wasm_take(uint32_t size) { return (uint32_t)(uintptr_t)malloc(size); }

/* Frees a block of JavaScript. */
void kombilad_wasm_free(uint32_t block) { free((void *)(uintptr_t)block); }

/* Returns how many blocks no call has freed: 0 between two calls, except what is kept. */
uint32_t kombilad_wasm_live(void) { return live; }
