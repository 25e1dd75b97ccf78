/* For a build with the kit's clang alone, which has no C headers. */
#pragma once
#include <sys/types.h>
#define STDIN_FILENO 0
#define STDERR_FILENO 2
ssize_t read(int, void *, size_t);
ssize_t write(int, const void *, size_t);
int close(int);
int fsync(int);
int unlink(const char *);
int isatty(int);
ssize_t readlink(const char *, char *, size_t);
pid_t getpid(void);
