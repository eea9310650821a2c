/* What the pages' programs use of the system. */
#ifndef TESTS_SOCKET_H
#define TESTS_SOCKET_H
typedef __SIZE_TYPE__ size_t;
typedef long ssize_t;
enum { MSG_DONTWAIT = 0x40, MSG_NOSIGNAL = 0x4000, SHUT_WR = 1, AF_UNIX = 1, SOCK_STREAM = 1 };
ssize_t recv(int, void *, size_t, int);
ssize_t send(int, const void *, size_t, int);
int shutdown(int, int);
int socketpair(int, int, int, int[2]);
#endif
