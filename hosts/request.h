/* What a program asks of the gateway, and what it is told: by lines (docs/CLUSTER.md) or by frames (docs/FORMATS.md). */
#ifndef REQUEST_H
#define REQUEST_H

#include "cluster.h"

#include <stdbool.h>
#include <stddef.h>
#include <stdint.h>

enum { PAYLOAD_LIMIT = SBLOG_PAYLOAD_LIMIT, ID_LIMIT = 64 };

/* Those of frames are their kinds. */
enum verb { VERB_NONE, VERB_INPUT, VERB_LOGGED, VERB_REFUSED, VERB_OUTPUT, VERB_TAKEN };

/* Why a request isn't taken. The first four end the connection; codes of the library stand between those of both forms and those of
   lines alone. */
enum refusal {
    REFUSAL_NONE,
    REFUSAL_VERSION,
    REFUSAL_LENGTH,
    REFUSAL_KIND,
    REFUSAL_FIELD,
    REFUSAL_PROCESS,
    REFUSAL_SSN,
    REFUSAL_OTHER,
    REFUSAL_NO_CONSUMER,
    REFUSAL_NO_OUTPUT,
    REFUSAL_LINE = 64,
    REFUSAL_LONG_LINE,
    REFUSAL_ZERO_BYTE,
    REFUSAL_ODD_HEX,
    REFUSAL_HEX,
    REFUSAL_LONG_MESSAGE,
    REFUSAL_WORD,
    REFUSAL_SSN_WORD,
    REFUSAL_ID,
};

struct request {
    enum verb verb;
    enum refusal why; /* of a refused one */
    int process;
    uint64_t ssn; /* of outputs that were taken; or that the input is to have, 0 for the next */
    size_t size;
    uint8_t payload[PAYLOAD_LIMIT];
    char id[ID_LIMIT + 1]; /* what its answer is to bear; empty if it gave none */
};

/* An answer, or an output. */
struct reply {
    enum verb verb;
    int process;
    uint64_t number; /* an SSN; of a refused request which one it was */
    uint32_t why;    /* a refusal, or a code of the library */
    const char *id;
    const uint8_t *payload;
    size_t size;
};

/* Whether the connection ends with it. */
bool refusal_ends(enum refusal why);

/* In words, also a code of the library. */
const char *refusal_words(uint32_t why);

#endif
