#include "client_lines.h"

#include <errno.h>
#include <inttypes.h>
#include <stdbool.h>
#include <stdio.h>
#include <stdlib.h>
#include <string.h>

/* Bytes of a line; words of the longest one, and one more. */
enum { LINE_LIMIT = 1 << 16, WORDS = 5 };

/* What a digit counts, and one more; 0 for what is none. */
static const uint8_t DIGITS[256] = {
    ['0'] = 1, ['1'] = 2, ['2'] = 3, ['3'] = 4, ['4'] = 5, ['5'] = 6, ['6'] = 7, ['7'] = 8, ['8'] = 9, ['9'] = 10,
    ['a'] = 11, ['b'] = 12, ['c'] = 13, ['d'] = 14, ['e'] = 15, ['f'] = 16,
    ['A'] = 11, ['B'] = 12, ['C'] = 13, ['D'] = 14, ['E'] = 15, ['F'] = 16,
};

/* Pairs of digits, or - for none. */
static enum refusal read_hex(const char *hex, struct request *request) {
    size_t digits = strcmp(hex, "-") ? strlen(hex) : 0;
    if (digits % 2) return REFUSAL_ODD_HEX;
    if (digits / 2 > PAYLOAD_LIMIT) return REFUSAL_LONG_MESSAGE;
    for (request->size = 0; request->size < digits / 2; request->size++) {
        int high = DIGITS[(uint8_t)hex[2 * request->size]], low = DIGITS[(uint8_t)hex[2 * request->size + 1]];
        if (high == 0 || low == 0) return REFUSAL_HEX;
        request->payload[request->size] = (uint8_t)((high - 1) << 4 | (low - 1));
    }
    return REFUSAL_NONE;
}

/* Whether it is a number below 2^64. */
static bool read_number(const char *word, uint64_t *number) {
    char *end;
    errno = 0;
    *number = strtoull(word, &end, 10);
    return *word >= '0' && *word <= '9' && !*end && !errno;
}

/* A number below 2^64, as eight bytes, the lowest first. */
static enum refusal read_word(const char *word, struct request *request) {
    uint64_t number;
    if (!read_number(word, &number)) return REFUSAL_WORD;
    for (request->size = 0; request->size < 8; request->size++) request->payload[request->size] = (uint8_t)(number >> 8 * request->size);
    return REFUSAL_NONE;
}

/* The words of a line; one more than it may have, where it has more. */
static int split(char *text, char *words[WORDS]) {
    char *rest = NULL;
    int count = 0;
    for (char *word = strtok_r(text, " \t\r", &rest); word && count < WORDS; word = strtok_r(NULL, " \t\r", &rest))
        words[count++] = word;
    return count;
}

/* The last word may be an id, id=ID. */
static enum refusal read_id(char *const words[WORDS], int *count, struct request *request) {
    const char *last = words[*count - 1];
    if (*count < 3 || strncmp(last, "id=", 3)) return REFUSAL_NONE;
    if (!last[3] || strlen(last + 3) > ID_LIMIT) return REFUSAL_ID;
    strcpy(request->id, last + 3);
    --*count;
    return REFUSAL_NONE;
}

static enum refusal read_words(char *text, const struct cluster *cluster, struct request *request) {
    char *words[WORDS];
    int count = split(text, words);
    if (count == 0 || *words[0] == '#') return REFUSAL_NONE;
    enum refusal why = read_id(words, &count, request);
    if (why != REFUSAL_NONE) return why;
    if (count == 1 && !strcmp(words[0], "outputs")) {
        request->verb = VERB_OUTPUT;
        return REFUSAL_NONE;
    }
    bool is_bytes = !strcmp(words[0], "bytes"), is_input = !strcmp(words[0], "input"), is_took = !strcmp(words[0], "took");
    if (!is_bytes && !is_input && !is_took) return REFUSAL_LINE;
    if (count > 3 || count < (is_bytes ? 2 : 3)) return REFUSAL_LINE;
    request->process = cluster_find(cluster, words[1]);
    if (request->process == 0) return REFUSAL_PROCESS;
    request->verb = is_took ? VERB_TAKEN : VERB_INPUT;
    if (is_took) return read_number(words[2], &request->ssn) ? REFUSAL_NONE : REFUSAL_SSN_WORD;
    return is_bytes ? read_hex(count == 3 ? words[2] : "-", request) : read_word(words[2], request);
}

size_t line_size(const char *text, size_t left) {
    const char *end = memchr(text, '\n', left);
    return end ? (size_t)(end - text) + 1 : left < LINE_LIMIT ? 0 : left;
}

void line_read(char *text, size_t size, const struct cluster *cluster, struct request *request) {
    bool is_ended = text[size - 1] == '\n';
    if (is_ended) text[--size] = 0;
    if (!is_ended || size >= LINE_LIMIT) request->why = REFUSAL_LONG_LINE;
    else if (strlen(text) != size) request->why = REFUSAL_ZERO_BYTE;
    else request->why = read_words(text, cluster, request);
}

static size_t write_output(const struct reply *reply, const char *name, char *out) {
    static const char digits[] = "0123456789abcdef";
    int size = sprintf(out, "output %s %" PRIu64 " %s", name, reply->number, reply->size > 0 ? "" : "-");
    for (size_t i = 0; i < reply->size; i++) {
        out[size++] = digits[reply->payload[i] >> 4];
        out[size++] = digits[reply->payload[i] & 15];
    }
    out[size++] = '\n';
    return (size_t)size;
}

size_t line_write(const struct reply *reply, const struct cluster *cluster, char out[LONGEST_OUTPUT]) {
    const char *name = cluster->processes[reply->process].name, *mark = reply->id && *reply->id ? " id=" : "";
    const char *id = *mark ? reply->id : "";
    if (reply->verb == VERB_OUTPUT) return write_output(reply, name, out);
    int size = reply->verb == VERB_LOGGED ? snprintf(out, LONGEST_ANSWER, "logged %s %" PRIu64 "%s%s\n", name, reply->number, mark, id)
                                          : snprintf(out, LONGEST_ANSWER, "refused %" PRIu64 "%s%s %s\n", reply->number, mark, id,
                                                     refusal_words(reply->why));
    return (size_t)size;
}
