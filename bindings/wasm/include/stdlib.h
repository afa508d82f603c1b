/* What kombilad.c needs of C's header: clang has none for WebAssembly. */
#ifndef KOMBILAD_STDLIB_H
#define KOMBILAD_STDLIB_H
#include <stddef.h>
#define abort __builtin_trap
void *malloc(size_t size);
void *realloc(void *block, size_t size);
void free(void *block);
#endif
