/* What kombilad.c needs of C's header: clang makes instructions of these. */
#ifndef KOMBILAD_STRING_H
#define KOMBILAD_STRING_H
#define memcpy __builtin_memcpy
#define memmove __builtin_memmove
#define memset __builtin_memset
#endif
