/* What the pages' programs use of C's library. */
#ifndef TESTS_STRING_H
#define TESTS_STRING_H
typedef __SIZE_TYPE__ size_t;
#define NULL ((void *)0)
void *memchr(const void *, int, size_t);
int memcmp(const void *, const void *, size_t);
void *memcpy(void *, const void *, size_t);
void *memset(void *, int, size_t);
size_t strlen(const char *);
int strcmp(const char *, const char *);
#endif
