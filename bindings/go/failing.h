/* With the build tag kombilad_failing this is included before kombilad.c: see failing.go. */
#ifndef KOMBILAD_FAILING_H
#define KOMBILAD_FAILING_H

#include <stddef.h>

#define KOMBILAD_MALLOC kombilad_test_malloc
#define KOMBILAD_REALLOC kombilad_test_realloc
#define KOMBILAD_FREE kombilad_test_free

void *kombilad_test_malloc(size_t size);
void *kombilad_test_realloc(void *before, size_t size);
void kombilad_test_free(void *it);

#endif
