/* What goes between programs at once, in a datagram, a stretch of a stream or a message: a bundle of packets, or a greeting
   (docs/FORMATS.md, "Bundle" and "Greeting"). */
#ifndef FRAME_H
#define FRAME_H

#include "id.h"
#include "packets.h"

#include <stdbool.h>
#include <stddef.h>
#include <stdint.h>

enum { PACKET_LIMIT = 65535, FRAME_LIMIT = 65561, GREETING_SIZE = 44, FRAME_LENGTH = 4 };

/* One that waits for its way. Its length comes before its bytes, since by tcp both go. */
struct frame {
    struct frame *next;
    size_t size, room; /* with the length */
    int count;         /* packets of a bundle; 0 of a greeting */
    uint8_t bytes[];
};

/* An empty bundle, which has room for any packet; null without memory. */
struct frame *bundle_new(const struct id *cluster, int from, int to);

/* Puts the first of these packets at its end, as many as fit; how many that are. */
size_t bundle_fill(struct frame *bundle, struct packets *packets);

enum kind { KIND_BROKEN, KIND_FOREIGN, KIND_BUNDLE };

/* Judges a bundle whole before its first packet is taken; from is who sent it. Of what isn't one nothing is told. */
enum kind bundle_judge(const uint8_t *frame, size_t size, const struct id *cluster, const struct cluster *processes, int me,
                       struct packets *packets, int *from);

/* A process without a cluster says hello to the gateway, which offers its own; the process joins it, and is welcomed, or refused. */
enum word { WORD_HELLO = 1, WORD_OFFER, WORD_JOIN, WORD_WELCOME, WORD_REFUSAL };

/* The process is the one that joins, whoever speaks. */
struct greeting {
    enum word word;
    int process;
    struct id cluster, store;
};

/* One that waits for its way; null without memory. */
struct frame *greeting_new(const struct greeting *greeting);

/* Whether this is one. */
bool greeting_read(const uint8_t *frame, size_t size, struct greeting *greeting);

#endif
