#include "turns.h"

#include <stdlib.h>
#include <string.h>

/* What comes before packets: whom they go to, and how many bytes they are. */
struct batch {
    int to;
    size_t size;
};

struct turn *turn_new(uint64_t until) {
    struct turn *turn = malloc(sizeof *turn);
    if (turn) *turn = (struct turn){.until = until};
    return turn;
}

void turn_end(struct turn *turn) {
    bytes_end(&turn->answers);
    bytes_end(&turn->packets);
    bytes_end(&turn->heard);
    free(turn);
}

bool turn_is_empty(const struct turn *turn) {
    return !turn->is_tick && turn->outputs == 0 && turn->answers.size + turn->packets.size + turn->heard.size == 0;
}

bool turn_sends(struct turn *turn, int to, struct packets packets) {
    const struct batch batch = {to, packets.size};
    if (!bytes_add(&turn->packets, &batch, sizeof batch)) return false;
    if (bytes_add(&turn->packets, packets.at, packets.size)) return true;
    turn->packets.size -= sizeof batch;
    return false;
}

void turn_goes(const struct turn *turn, struct pace *pace, uint64_t now) {
    struct batch batch;
    if (turn->is_tick) pace_tick_begins(pace, now);
    for (size_t at = 0; at < turn->packets.size; at += sizeof batch + batch.size) {
        memcpy(&batch, turn->packets.at + at, sizeof batch);
        const struct packets packets = {turn->packets.at + at + sizeof batch, batch.size};
        if (turn->is_tick) pace_tick_sends(pace, batch.to, packets, now);
        else pace_send(pace, batch.to, packets, now);
    }
    pace_hear(pace, &turn->heard, now);
}

void turn_answers(const struct turn *turn, const struct cluster *cluster, bool is_pipe) {
    const struct answer *all = (const struct answer *)(const void *)turn->answers.at;
    for (size_t i = 0; i < turn->answers.size / sizeof *all; i++) answer_give(&all[i], cluster, is_pipe);
}

void turns_put(struct turns *turns, struct turn *turn) {
    if (turns->last) turns->last->next = turn;
    else turns->first = turn;
    turns->last = turn;
    turns->count++;
}

struct turn *turns_take(struct turns *turns, uint64_t synced) {
    struct turn *first = turns->first;
    if (!first || first->until > synced) return NULL;
    turns->first = first->next;
    if (!turns->first) turns->last = NULL;
    turns->count--;
    return first;
}
