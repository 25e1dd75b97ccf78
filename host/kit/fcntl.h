/* For a build with the kit's clang alone, which has no C headers. */
#pragma once
#define O_RDONLY 0
#define O_WRONLY 1
#define O_CREAT 0100
#define O_EXCL 0200
#define O_DIRECTORY 0200000
#define O_PATH 010000000
#define O_CLOEXEC 02000000
int open(const char *, int, ...);
