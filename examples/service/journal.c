/* The journal as entries, beside the same journal as text. A session of two processes is led through
   every kind of call that the library makes; behind each step the entries that are new are read, and a
   line is written of each from its numbers. In the end these lines have to be those of the trace, and
   each input's payload the one that was handed in. */
#include "handlers.h"
#include "sblog.h"

#include <stdarg.h>
#include <stdio.h>
#include <stdlib.h>
#include <string.h>

/* A word, and how many numbers stand behind it. */
struct word {
    const char *text;
    int numbers;
};

static const struct word CALLS[14] = {
    {"", 0},       {"input", 2}, {"transmit", 3}, {"copy", 1},  {"lose", 1},
    {"arrive", 1}, {"finish", 1}, {"checkpoint", 1}, {"trim", 1}, {"crash", 1},
    {"recover", 1}, {"alone", 1}, {"replay", 1},   {"resync", 2},
};

static const struct word ANSWERS[20] = {
    {"", 0},          {"logged", 1},   {"packet", 1},    {"lost", 0},  {"started", 1},
    {"numbered", 1},  {"acknowledged", 0}, {"shown", 1}, {"duplicate", 1}, {"duplicate", 0},
    {"early", 0},     {"stale", 0},    {"down", 0},      {"committed", 2}, {"replayed", 1},
    {"saved", 1},     {"trimmed", 1},  {"crashed", 1},   {"kept", 1},  {"restored", 1},
};

enum { MOST = 1000, LINE = 80, AT_ONCE = 5 };

static sblog_entry entries[MOST];
static char lines[MOST * LINE];
static uint32_t ssn, feed, number, calls;
static size_t count, end;

static void fail(const char *what, uint32_t code) {
    fprintf(stderr, "%s: code %u\n", what, code);
    exit(1);
}

static void must(const char *what, uint32_t code) {
    if (code != SBLOG_SESSION_DONE) fail(what, code);
}

static void holds(const char *what, bool is) {
    if (!is) fail(what, 0);
}

static void put(const char *format, ...) {
    va_list arguments;
    va_start(arguments, format);
    end += vsnprintf(lines + end, sizeof lines - end, format, arguments);
    va_end(arguments);
}

static void put_words(const struct word *word, const uint64_t *numbers, int most) {
    put("%s", word->text);
    for (int i = 0; i < word->numbers; i++) put(" %llu", (unsigned long long)numbers[i]);
    for (int i = word->numbers; i < most; i++) holds("a zero behind the numbers", !numbers[i]);
}

/* The line of an entry, from its numbers alone. */
static void put_line(size_t place, const sblog_entry *entry) {
    holds("a call", 1 <= entry->call && entry->call <= 13);
    holds("an answer", 1 <= entry->answer && entry->answer <= 19);
    put("%06zu w%u ", place + 1, entry->worker);
    put_words(&CALLS[entry->call], entry->call_numbers, 3);
    put(" -> ");
    put_words(&ANSWERS[entry->answer], entry->answer_numbers, 2);
    put("\n");
}

/* The payload that goes with a feed number: as many bytes as 64 times it, each the number. */
static size_t payload_of(uint32_t feed, uint8_t *out) {
    memset(out, 0, 256);
    memset(out, feed, 64 * feed);
    return 64 * feed;
}

static void check_payload(const sblog_entry *entry) {
    uint8_t payload[256] = {0};
    size_t size = 0;
    if (entry->call == SBLOG_CALL_INPUT) size = payload_of(entry->call_numbers[1], payload);
    holds("the length of a payload", entry->payload_len == size);
    holds("a payload", !memcmp(entry->payload, payload, 256));
}

/* Reads what is new, a few at a time, and each again by its place. */
static void follow(sblog_session *session) {
    sblog_entry one;
    size_t more;
    do {
        must("entries", sblog_session_entries(session, count, entries + count, AT_ONCE, &more));
        for (size_t i = count; i < count + more; i++) {
            must("entry", sblog_session_entry(session, i, &one));
            holds("an entry by its place", !memcmp(&one, &entries[i], sizeof one));
            check_payload(&one);
            put_line(i, &one);
        }
        count += more;
    } while (more == AT_ONCE);
    must("journal", sblog_session_journal(session, &more));
    holds("the length of the journal", more == count);
    holds("no entry behind it", sblog_session_entry(session, more, &one) == SBLOG_SESSION_ABSENT);
}

static void input(sblog_session *session, uint8_t to) {
    uint8_t payload[256];
    size_t size = payload_of(feed, payload);
    must("input", sblog_session_input(session, to, feed, payload, size, &ssn));
    feed++;
    follow(session);
}

static void drive(sblog_session *session, uint32_t budget) {
    must("drive", sblog_session_drive(session, budget, &calls));
    follow(session);
}

/* Process p is lost, comes back, and replays. */
static void lose(sblog_session *session, uint8_t p) {
    must("crash", sblog_session_crash(session, p, &number));
    drive(session, 2);
    must("recover", sblog_session_recover(session, p, &number));
    drive(session, MOST);
}

static void save(sblog_session *session) {
    for (uint8_t p = 1; p <= 2; p++) {
        must("checkpoint", sblog_session_checkpoint(session, p, &number));
        follow(session);
    }
    for (uint8_t to = 0; to <= 2; to++) {
        must("trim", sblog_session_trim(session, to, &number));
        follow(session);
    }
}

static void compare(sblog_session *session) {
    size_t size;
    uint8_t *text = malloc(sizeof lines);
    if (!text) fail("memory", 0);
    must("trace", sblog_session_trace(session, text, sizeof lines, &size));
    holds("the lines are those of the trace", size == end && !memcmp(text, lines, size));
    free(text);
    bool made[14] = {false}, answered[20] = {false};
    int kinds = 0, answers = 0;
    for (size_t i = 0; i < count; i++) {
        if (!made[entries[i].call]) kinds++;
        if (!answered[entries[i].answer]) answers++;
        made[entries[i].call] = answered[entries[i].answer] = true;
    }
    holds("no copy, no loss, no recovery alone",
          !made[SBLOG_CALL_COPY] && !made[SBLOG_CALL_LOSE] && !made[SBLOG_CALL_ALONE]);
    holds("every other kind of call", kinds == 10);
    printf("%zu entries as their lines of the trace, %d kinds of calls, %d of answers\n", count, kinds,
           answers);
}

int main(int argc, char **argv) {
    uint32_t lengths[2] = {RELAY_SIZE, ECHO_SIZE};
    sblog_session session = {0};
    size_t none = 99;
    (void)argv;
    holds("a size without a gap", sizeof(sblog_entry) == 312);
    holds("a closed handle", sblog_session_journal(&session, &none) == SBLOG_SESSION_HANDLE);
    must("open", sblog_session_open(RELAY_AND_ECHO, 64, lengths, 2, &session));
    follow(&session);
    for (uint8_t to = 1; to <= 2; to++) {
        input(&session, to);
        drive(&session, 2 * to - 1); /* process 1 is lost before its message comes, 2 behind it */
        lose(&session, to);
    }
    save(&session);
    for (uint8_t to = 1; to <= 2; to++) input(&session, to);
    drive(&session, 9);
    lose(&session, 1);
    lose(&session, 2);
    input(&session, 1);
    drive(&session, MOST);
    compare(&session);
    if (argc > 1) fputs(lines, stdout);
    must("close", sblog_session_close(&session));
    return 0;
}
