#include "client_frames.h"

#include "bytes.h"

#include <string.h>

/* The places of a frame's fields, and the bytes of its length and of its SSN. */
enum { KIND = 4, PROCESS = 5, NUMBER = 6, PAYLOAD = 14, LENGTH = 4, WORD = 8 };

enum { LEAST = PAYLOAD - LENGTH, MOST = LEAST + PAYLOAD_LIMIT };

static const char MAGIC[] = "SBF1";

bool frames_begin(const uint8_t *at, size_t left) { return !memcmp(at, MAGIC, left < FRAMES_MAGIC ? left : FRAMES_MAGIC - 1); }

bool frames_are_known(const uint8_t at[FRAMES_MAGIC]) { return !memcmp(at, MAGIC, FRAMES_MAGIC); }

static bool is_length(uint64_t length) { return length >= LEAST && length <= MOST; }

size_t framed_size(const uint8_t *at, size_t left) {
    if (left < LENGTH) return 0;
    uint64_t length = number_at(at, LENGTH);
    size_t size = is_length(length) ? LENGTH + (size_t)length : LENGTH;
    return size <= left ? size : 0;
}

/* Which fields a frame of this kind doesn't have. */
static bool has_others(const struct request *request) {
    bool has_process = request->process != 0, has_ssn = request->ssn != 0, has_payload = request->size != 0;
    switch (request->verb) {
    case VERB_LOGGED: return has_ssn || has_payload;
    case VERB_OUTPUT: return has_process || has_ssn || has_payload;
    case VERB_TAKEN: return has_payload;
    default: return false;
    }
}

void framed_read(const uint8_t *at, size_t size, const struct cluster *cluster, struct request *request) {
    if (size < PAYLOAD) {
        request->why = frames_begin(at, size) ? REFUSAL_VERSION : REFUSAL_LENGTH;
        return;
    }
    request->verb = (enum verb)at[KIND];
    request->process = at[PROCESS];
    request->ssn = number_at(at + NUMBER, WORD);
    request->size = size - PAYLOAD;
    memcpy(request->payload, at + PAYLOAD, request->size);
    if (at[KIND] < VERB_INPUT || at[KIND] > VERB_TAKEN || at[KIND] == VERB_REFUSED) request->why = REFUSAL_KIND;
    else if (has_others(request)) request->why = REFUSAL_FIELD;
    else if (request->verb != VERB_OUTPUT && (request->process == 0 || request->process > cluster->count)) request->why = REFUSAL_PROCESS;
}

size_t framed_write(const struct reply *reply, uint8_t out[LONGEST_FRAME]) {
    const uint8_t why = (uint8_t)reply->why;
    bool is_refused = reply->verb == VERB_REFUSED;
    size_t size = is_refused ? sizeof why : reply->size;
    number_put(out, LEAST + size, LENGTH);
    out[KIND] = (uint8_t)reply->verb;
    out[PROCESS] = (uint8_t)reply->process;
    number_put(out + NUMBER, reply->number, WORD);
    if (size > 0) memcpy(out + PAYLOAD, is_refused ? &why : reply->payload, size);
    return PAYLOAD + size;
}
