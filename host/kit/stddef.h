/* For a build with the kit's clang alone, which has no C headers. */
#pragma once
typedef __SIZE_TYPE__ size_t;
#define NULL ((void *)0)
