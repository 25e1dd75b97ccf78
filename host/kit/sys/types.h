/* For a build with the kit's clang alone, which has no C headers. */
#pragma once
#include <stddef.h>
typedef long ssize_t, off_t, time_t;
typedef int pid_t;
typedef unsigned mode_t, uid_t, gid_t;
typedef unsigned long dev_t, ino_t, nlink_t;
