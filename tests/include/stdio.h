/* What the pages' programs use of C's library, for the kit's compiler, which has no headers of its own. */
#ifndef TESTS_STDIO_H
#define TESTS_STDIO_H
typedef __SIZE_TYPE__ size_t;
typedef struct _IO_FILE FILE;
extern FILE *stdin, *stdout;
size_t fread(void *, size_t, size_t, FILE *);
size_t fwrite(const void *, size_t, size_t, FILE *);
int printf(const char *, ...) __attribute__((format(printf, 1, 2)));
#endif
