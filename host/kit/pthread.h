/* For a build with the kit's clang alone, which has no C headers. */
#pragma once
typedef unsigned long pthread_t;
typedef union { char bytes[56]; long number; } pthread_attr_t;
typedef union { char bytes[40]; long number; } pthread_mutex_t;
typedef union { char bytes[48]; long number; } pthread_cond_t;
#define PTHREAD_MUTEX_INITIALIZER {{0}}
#define PTHREAD_COND_INITIALIZER {{0}}
int pthread_create(pthread_t *, const pthread_attr_t *, void *(*)(void *), void *);
int pthread_join(pthread_t, void **);
int pthread_mutex_lock(pthread_mutex_t *);
int pthread_mutex_unlock(pthread_mutex_t *);
int pthread_cond_wait(pthread_cond_t *, pthread_mutex_t *);
int pthread_cond_signal(pthread_cond_t *);
