#include "outputs.h"

#include <stdlib.h>
#include <string.h>

bool outputs_are_full(const struct outputs *outputs) { return outputs->count >= OUTPUTS_LIMIT; }

/* They are at the front of twice as many places. */
static bool make_room(struct outputs *outputs) {
    size_t room = outputs->count < OUTPUTS_LIMIT ? 2 * OUTPUTS_LIMIT : 2 * outputs->count;
    struct output *places = room > outputs->room ? malloc(room * sizeof *places) : outputs->places;
    if (!places) return false;
    if (outputs->count > 0) memmove(places, outputs->all, outputs->count * sizeof *places);
    if (places != outputs->places) {
        free(outputs->places);
        outputs->room = room;
    }
    outputs->all = outputs->places = places;
    return true;
}

struct output *outputs_place(struct outputs *outputs) {
    bool is_at_end = outputs->all + outputs->count == outputs->places + outputs->room;
    return is_at_end && !make_room(outputs) ? NULL : &outputs->all[outputs->count];
}

void outputs_add(struct outputs *outputs) { outputs->count++; }

void outputs_are_stored(struct outputs *outputs, size_t count) {
    for (; count > 0; count--) {
        const struct output *output = &outputs->all[outputs->stored++];
        outputs->given[output->process] = output->ssn;
    }
}

void outputs_are_kept(struct outputs *outputs) {
    outputs->written = outputs->count;
    outputs_are_stored(outputs, outputs->count - outputs->stored);
}

bool outputs_take(struct outputs *outputs, int process, uint64_t ssn) {
    uint64_t given = outputs->given[process];
    if (given == 0) return true; /* in an earlier life, after which none was left */
    if (ssn > given) return false;
    if (ssn > outputs->taken[process]) outputs->taken[process] = ssn;
    return true;
}

bool outputs_take_printed(struct outputs *outputs) {
    if (outputs->printed == 0) return false;
    const struct output *last = &outputs->all[outputs->printed - 1];
    if (outputs->taken[last->process] >= last->ssn) return false;
    outputs->taken[last->process] = last->ssn;
    return true;
}

void output_print(const struct output *output, const struct cluster *cluster, struct client *client) {
    client_reply(client, cluster, &(struct reply){.verb = VERB_OUTPUT, .process = output->process, .number = output->ssn,
                                                  .payload = output->payload, .size = output->size});
}

bool outputs_have_taken(const struct outputs *outputs) {
    for (int p = 1; p <= PROCESS_LIMIT; p++)
        if (outputs->taken[p] > 0) return true;
    return false;
}

static bool is_taken(const struct outputs *outputs, const struct output *output) {
    return output->ssn <= outputs->taken[output->process];
}

void outputs_forget(struct outputs *outputs) {
    size_t first = 0, left = 0, written = 0, stored = 0, printed = 0;
    if (!outputs_have_taken(outputs)) return;
    while (first < outputs->count && is_taken(outputs, &outputs->all[first])) first++;
    for (size_t i = first; i < outputs->count; i++) {
        const struct output *output = &outputs->all[i];
        if (is_taken(outputs, output)) continue;
        written += i < outputs->written;
        stored += i < outputs->stored;
        printed += i < outputs->printed;
        if (first + left < i) outputs->all[first + left] = *output;
        left++;
    }
    if (first > 0) outputs->all += first;
    outputs->count = left;
    outputs->written = written;
    outputs->stored = stored;
    outputs->printed = printed;
    memset(outputs->taken, 0, sizeof outputs->taken);
}
