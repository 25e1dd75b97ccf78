/* For a build with the kit's clang alone, which has no C headers. */
#pragma once
#include <stddef.h>
void *malloc(size_t);
void *aligned_alloc(size_t, size_t);
void *calloc(size_t, size_t);
void *realloc(void *, size_t);
void free(void *);
_Noreturn void exit(int);
char *realpath(const char *, char *);
