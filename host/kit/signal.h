/* For a build with the kit's clang alone, which has no C headers. */
#pragma once
#define SIGPIPE 13
#define SIGXFSZ 25
#define SIG_IGN ((void (*)(int))1)
void (*signal(int, void (*)(int)))(int);
