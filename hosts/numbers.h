/* The numbers of inputs and outputs that programs are told. The library counts those of one cluster from 1 on; if the cluster follows
   another one, they go on where they were there. */
#ifndef NUMBERS_H
#define NUMBERS_H

#include "cluster.h"

#include <stdbool.h>
#include <stdint.h>

/* How many inputs and outputs each process had in the clusters before. */
struct numbers {
    uint64_t inputs[PROCESS_LIMIT + 1], outputs[PROCESS_LIMIT + 1];
};

/* The number that programs are told of an input, or of an output, to which the library gave this SSN. */
uint64_t numbers_input(const struct numbers *before, int process, uint64_t ssn);
uint64_t numbers_output(const struct numbers *before, int process, uint64_t ssn);

/* Writes a line for each process that had some; where they end. */
char *numbers_write(const struct numbers *before, char *at);

/* Reads such a line, up to its end; false for another one. */
bool numbers_read(const char *line, struct numbers *before);

#endif
