/* What the pages' programs use of the system. */
#ifndef TESTS_POLL_H
#define TESTS_POLL_H
struct pollfd {
    int fd;
    short events, revents;
};
enum { POLLIN = 1 };
int poll(struct pollfd *, unsigned long, int);
#endif
