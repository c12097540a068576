/* The command line, and the signals. */
#ifndef OPTIONS_H
#define OPTIONS_H

#include "address.h"

#include <signal.h>
#include <stdbool.h>
#include <stdint.h>

struct options {
    const char *cluster, *store, *after, *inspected, *exported, *user, *tls;
    struct address listen, metrics; /* without a place if they weren't asked for */
    int me;
    uint32_t checkpoint_every; /* messages */
    uint64_t tick;             /* microseconds */
    bool durable, says_durable, status, looks, sandbox; /* durable unless --volatile is said; whether --durable is */
};

/* Reads the command line; a status, and what isn't taken is reported. */
int options_read(int argc, char **argv, struct options *options);

/* Set by the first SIGTERM or SIGINT, by SIGUSR1, and by SIGHUP, which ends a program that has no certificate. */
extern volatile sig_atomic_t signal_stop, signal_status, signal_reload;

void signals_take(bool reloads);

#endif
