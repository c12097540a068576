/* Connections by TLS 1.3, with a certificate on both sides: each side has a name that the authority signed, NAME.CLUSTER of a process
   or of the gateway, and program.CLUSTER of who hands in lines. */
#ifndef TLS_H
#define TLS_H

#include "cluster.h"

#include <stdbool.h>
#include <stddef.h>
#include <stdint.h>
#include <sys/types.h>

/* Of the names of a certificate: bit p is process p's, and this one who hands in lines. */
enum { TLS_PROGRAM = 1 << (PROCESS_LIMIT + 1), TLS_PROCESSES = TLS_PROGRAM - 1 };

struct tls;

/* Reads tls.crt, tls.key and ca.crt of a folder; a status, and why is reported. */
int tls_open(const char *folder, const struct cluster *cluster, int me);

/* Reads them again; false if they wouldn't do: then those stay that were read before. */
bool tls_read_again(void);

/* A connection that came, of somebody with one of these names; one that goes to a process. Null without memory. */
struct tls *tls_accept(int file, uint32_t names);
struct tls *tls_connect(int file, int process);
void tls_end(struct tls *tls);

/* As recv and send: what isn't there yet, or not yet taken, is EAGAIN. Each begins with what is left of the handshake. */
ssize_t tls_receive(struct tls *tls, void *bytes, size_t size);
ssize_t tls_send(struct tls *tls, const void *bytes, size_t size);

/* Goes on with the handshake: 1 when it is done, 0 while it isn't, -1 if it is refused. */
int tls_shake(struct tls *tls);

/* What is to be waited for, as poll has it; whose names the other side has; connections that were refused. */
short tls_awaits(const struct tls *tls);
uint32_t tls_names(const struct tls *tls);
uint64_t tls_refused(void);

#endif
