/* Sockets at HOST:PORT. */
#ifndef TCP_ADDRESS_H
#define TCP_ADDRESS_H

#include <netdb.h>

/* The addresses of HOST:PORT or [HOST]:PORT, to be freed; null if there are none. */
struct addrinfo *tcp_resolve(const char *where, int flags);

/* A socket at this address, which doesn't listen yet. -1, and why is reported. */
int tcp_take(const char *where);

/* What is sent goes at once; and a connection ends whose other end is away. */
void tcp_keep_alive(int file);

#endif
