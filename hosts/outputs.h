/* Outputs that the gateway handed out and nobody has taken yet, in their order. */
#ifndef OUTPUTS_H
#define OUTPUTS_H

#include "client.h"
#include "cluster.h"

#include <stdbool.h>
#include <stddef.h>
#include <stdint.h>

enum { OUTPUTS_LIMIT = 1024 }; /* from so many on, none is handed out */

struct output {
    uint8_t process, payload[PAYLOAD_LIMIT];
    uint64_t ssn;
    size_t size;
};

struct outputs {
    struct output *places, *all; /* from which of these on they are */
    size_t room;
    size_t count, written, stored, printed; /* of these are in the log, are durable, and were printed for the program that takes them */
    uint64_t given[PROCESS_LIMIT + 1]; /* SSN of the last output of each process that is durable in this life, 0 for none */
    uint64_t taken[PROCESS_LIMIT + 1]; /* up to which SSN those of each process are taken, and still to be forgotten; 0 for none */
};

bool outputs_are_full(const struct outputs *outputs);

/* The place of the next one, null without memory; and that it was filled. */
struct output *outputs_place(struct outputs *outputs);
void outputs_add(struct outputs *outputs);

/* So many more are durable; and all are, in a log that was written whole. */
void outputs_are_stored(struct outputs *outputs, size_t count);
void outputs_are_kept(struct outputs *outputs);

/* Those of a process are taken up to an SSN; false if none that is durable has it. */
bool outputs_take(struct outputs *outputs, int process, uint64_t ssn);

/* The one that was printed last is taken; false if it is already, or none was. */
bool outputs_take_printed(struct outputs *outputs);

/* Gives one to a program, which has room for it. */
void output_print(const struct output *output, const struct cluster *cluster, struct client *client);

/* Whether some are taken and not forgotten. */
bool outputs_have_taken(const struct outputs *outputs);

/* Those that are taken go. */
void outputs_forget(struct outputs *outputs);

#endif
