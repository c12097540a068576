/* The answers of requests, in the order of these: of an input once it is durable. */
#ifndef ANSWERS_H
#define ANSWERS_H

#include "client.h"
#include "cluster.h"

#include <stdbool.h>
#include <stddef.h>
#include <stdint.h>

enum { ANSWERS_LIMIT = 1024 }; /* of a turn */

struct answer {
    struct client *client;
    uint64_t serial, number; /* the SSN; of a refused request which one it was */
    uint32_t why;            /* a refusal, or a code of the library */
    int process;
    char id[ID_LIMIT + 1];
};

struct answers {
    struct answer all[ANSWERS_LIMIT];
    size_t count;
};

/* The answer of a program's last request, after the others; there has to be room. If it isn't refused, its SSN is still to be told. */
struct answer *answers_add(struct answers *answers, struct client *client, const struct request *request, uint32_t why);

/* It is given, if the program is still there. What is refused is told the program that wrote it, or of standard input,
   standard error. */
void answer_give(const struct answer *answer, const struct cluster *cluster, bool is_pipe);

#endif
