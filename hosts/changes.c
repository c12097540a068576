#include "changes.h"

#include "bytes.h"

enum { WORD = 8 };

enum change { INPUT = 1, NUMBERED, DROPPED, HEARD, FORGOTTEN, SHOWN, TAKEN };

/* Bytes of kind and fields, without those of a payload, whose length stands last. */
static const size_t SIZES[] = {
    [INPUT] = 4, [NUMBERED] = 18, [DROPPED] = 10, [HEARD] = 11, [FORGOTTEN] = 10, [SHOWN] = 12, [TAKEN] = 5,
};

/* How many bytes the change has; 0 for none. */
static size_t size_of(const uint8_t *change, size_t left) {
    if (change[0] < INPUT || change[0] > TAKEN || left < SIZES[change[0]]) return 0;
    size_t size = SIZES[change[0]];
    if (change[0] == INPUT || change[0] == SHOWN) size += change[size - 2] | (size_t)change[size - 1] << 8;
    bool is_of_one = change[0] == TAKEN || (change[1] >= 1 && change[1] <= PROCESS_LIMIT);
    return is_of_one && size <= left ? size : 0;
}

static void raise_to(uint64_t *number, uint64_t to) {
    if (*number < to) *number = to;
}

static void take_one(struct counts *counts, const uint8_t *change) {
    int process = change[1];
    switch (change[0]) {
    case NUMBERED:
    case DROPPED: raise_to(&counts->numbered[process], number_at(change + 2, WORD)); break;
    case HEARD: raise_to(&counts->incarnation[process], number_at(change + 2, WORD)); break;
    case SHOWN: raise_to(&counts->shown[process], number_at(change + 2, WORD)); break;
    }
}

bool counts_take(struct counts *counts, const uint8_t *changes, size_t size) {
    for (size_t at = 0; at < size;) {
        size_t one = size_of(changes + at, size - at);
        if (one == 0) return false;
        take_one(counts, changes + at);
        at += one;
    }
    return true;
}

void counts_input(struct counts *counts, int process, uint64_t ssn) {
    if (counts->logged[process] == 0) raise_to(&counts->numbered[process], ssn - 1);
    counts->logged[process] = ssn;
}

uint64_t counts_waiting(const struct counts *counts, int process) {
    uint64_t logged = counts->logged[process], numbered = counts->numbered[process];
    return logged > numbered ? logged - numbered : 0;
}
