/* For a build with the kit's clang alone, which has no C headers. */
#pragma once
#include <sys/types.h>
ssize_t getrandom(void *, size_t, unsigned);
