/* The few functions of C's library that the host's programs use, declared here because the kit has a compiler, a linker
   and a C library for x86-64 Linux, and no headers. */
#ifndef HOST_LIBC_H
#define HOST_LIBC_H

#include "fixgw.h"

#ifndef FIXGW_HAS_HEADERS
#define NULL ((void *)0)
typedef __UINT16_TYPE__ uint16_t;
#endif
#define bool _Bool
#define true 1
#define false 0

void *memchr(const void *, int, size_t);
int memcmp(const void *, const void *, size_t);
void *memcpy(void *, const void *, size_t);
void *memmove(void *, const void *, size_t);
void *memset(void *, int, size_t);
size_t strlen(const char *);
int strcmp(const char *, const char *);

void *realloc(void *, size_t);
void exit(int) __attribute__((noreturn));

long read(int, void *, size_t);
long write(int, const void *, size_t);
int close(int);

struct _IO_FILE;
int printf(const char *, ...) __attribute__((format(printf, 1, 2)));
int snprintf(char *, size_t, const char *, ...) __attribute__((format(printf, 3, 4)));
int fflush(struct _IO_FILE *);

struct timespec {
    long tv_sec, tv_nsec;
};
int clock_gettime(int, struct timespec *);

#endif
