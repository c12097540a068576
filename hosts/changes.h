/* Figures of the gateway's changes (docs/FORMATS.md, "Changes"). */
#ifndef CHANGES_H
#define CHANGES_H

#include "cluster.h"

#include <stdbool.h>
#include <stddef.h>
#include <stdint.h>

/* Of each process, since the program began. */
struct counts {
    uint64_t logged[PROCESS_LIMIT + 1];   /* the last input's SSN, 0 for none yet */
    uint64_t numbered[PROCESS_LIMIT + 1]; /* the greatest SSN that the process has given a number, or had before */
    uint64_t shown[PROCESS_LIMIT + 1];    /* the last output's SSN, 0 for none yet */
    uint64_t incarnation[PROCESS_LIMIT + 1];
};

/* An input got this SSN. */
void counts_input(struct counts *counts, int process, uint64_t ssn);

/* Takes in what changed; false for bytes that are no changes. */
bool counts_take(struct counts *counts, const uint8_t *changes, size_t size);

/* The inputs of this process that have no number yet. */
uint64_t counts_waiting(const struct counts *counts, int process);

#endif
