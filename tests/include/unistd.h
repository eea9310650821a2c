/* What the pages' programs use of the system. */
#ifndef TESTS_UNISTD_H
#define TESTS_UNISTD_H
int close(int);
#endif
