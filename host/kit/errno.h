/* For a build with the kit's clang alone, which has no C headers. */
#pragma once
int *__errno_location(void);
#define errno (*__errno_location())
#define ENOENT 2
#define EINTR 4
#define ENOMEM 12
#define EEXIST 17
#define EISDIR 21
#define EINVAL 22
