/* malloc and realloc for libkombilad, which fail if a test requests it. The extension module
 * contains them, by the linker's --wrap. */
#include <stdlib.h>

void *__real_malloc(size_t size);
void *__real_realloc(void *block, size_t size);

/* The number of allocations that still succeed, or -1 for all. */
static long left = -1;

/* Makes this many more allocations succeed, and the others fail. With -1 all succeed. */
void kombilad_test_fail_after(long allocations) { left = allocations; }

static int fails(void) {
    if (left < 0) return 0;
    if (left == 0) return 1;
    left--;
    return 0;
}

void *__wrap_malloc(size_t size) { return fails() ? NULL : __real_malloc(size); }

void *__wrap_realloc(void *block, size_t size) {
    return fails() ? NULL : __real_realloc(block, size);
}
