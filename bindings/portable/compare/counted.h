/* Included before the code that allocates. Allocations are counted, and one of them may fail. */
#ifndef COUNTED_H
#define COUNTED_H

#include <stddef.h>
#include <stdlib.h>

void *counted_malloc(size_t size);
void *counted_realloc(void *block, size_t size);
void counted_free(void *block);

#ifdef COUNT_ALL
#define malloc counted_malloc
#define realloc counted_realloc
#define free counted_free
#else
#define KOMBILAD_MALLOC counted_malloc
#define KOMBILAD_REALLOC counted_realloc
#define KOMBILAD_FREE counted_free
#endif

#endif
