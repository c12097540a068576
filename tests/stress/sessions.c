/* Makes a list of calls by each export of the C library that is for sessions, again where memory was
   refused, and prints what they answer.

       sessions RELAY ECHO ADDER

   The words name three image files: of process 1, which passes on what it gets to process 2, which shows
   it to the outside, and of process 3. A call that is refused has to leave its arguments as they were, and
   the session as the readings tell it before and after; the same call is made again then. A drive or an
   arrival that was cut off may have made calls, and have left a job open: the process crashes then and comes
   back, the list is gone on with, and made a second time from its beginning, of which the end has to be the
   same. What is printed is that of the last time, and its trace; and lines that begin with note: tell what was
   refused, and what a refused drive or arrival left. The program ends with status 1 where something is wrong, or where memory is
   refused twice. It takes no memory itself, and closes what it opens. */
#include <fcntl.h>
#include <stdio.h>
#include <stdlib.h>
#include <string.h>
#include <unistd.h>

#include "sblog.h"

enum { PROCESSES = 3, MANY = 1 << 16, BUDGET = 1000, UNWRITTEN = 0x5a, NO_PACKET = 4, FEED_TAKEN = 14 };

static uint8_t files[PROCESSES * (8 + 8 * 1024)];
static uint32_t lengths[PROCESSES];
static size_t files_len;
static sblog_session session;

/* All that a call may write. The bytes are written to its end, so that none fits behind them. */
static struct {
    uint32_t number, other;
    uint8_t sender;
    size_t size;
    sblog_entry entry;
    uint8_t bytes[1 << 14];
} out, unwritten;

static uint8_t *room_of(uint32_t room) { return out.bytes + sizeof out.bytes - room; }

static void fail(const char *name, const char *why) {
    printf("%s %s\n", name, why);
    fflush(stdout);
    _exit(1);
}

/* ---- The exports: a call by two numbers, of which the second one of a reading is the room for bytes ---- */

typedef uint32_t exported(uint32_t a, uint32_t b);

static uint32_t open_files(uint32_t a, uint32_t b) {
    (void)a, (void)b;
    sblog_session before = session;
    uint32_t code = sblog_session_open(files, files_len, lengths, PROCESSES, &session);
    if (code && (session.at != before.at || session.held != before.held)) fail("open", "has changed the handle");
    return code;
}

static uint32_t close_session(uint32_t a, uint32_t b) {
    (void)a, (void)b;
    return sblog_session_close(&session);
}

static uint32_t input(uint32_t to, uint32_t feed) {
    uint8_t payload[8] = {4 + feed};
    return sblog_session_input(&session, to, feed, payload, sizeof payload, &out.number);
}

static uint32_t drive(uint32_t budget, uint32_t b) {
    (void)b;
    return sblog_session_drive(&session, budget, &out.number);
}

/* From the outside. */
static uint32_t transmit(uint32_t to, uint32_t ssn) { return sblog_session_transmit(&session, 0, to, ssn, &out.number); }

/* The calls of a packet or a process that answer a number. */
#define ANSWERS_NUMBER(name) \
    static uint32_t name(uint32_t it, uint32_t b) { \
        (void)b; \
        return sblog_session_##name(&session, it, &out.number); \
    }

ANSWERS_NUMBER(copy)
ANSWERS_NUMBER(checkpoint)
ANSWERS_NUMBER(trim)
ANSWERS_NUMBER(crash)
ANSWERS_NUMBER(recover)

static uint32_t lose(uint32_t packet, uint32_t b) {
    (void)b;
    return sblog_session_lose(&session, packet);
}

static uint32_t arrive(uint32_t packet, uint32_t b) {
    (void)b;
    return sblog_session_arrive(&session, packet, &out.entry);
}

static uint32_t standing(uint32_t process, uint32_t room) {
    (void)room;
    return sblog_session_standing(&session, process, &out.number, &out.other);
}

static uint32_t state(uint32_t process, uint32_t room) {
    return sblog_session_state(&session, process, room_of(room), room, &out.size);
}

static uint32_t saved(uint32_t process, uint32_t room) {
    return sblog_session_saved(&session, process, room_of(room), room, &out.size);
}

static uint32_t shown(uint32_t place, uint32_t room) {
    return sblog_session_shown(&session, place, &out.sender, &out.number, room_of(room), room, &out.size);
}

static uint32_t exact(uint32_t at, uint32_t room) {
    (void)at, (void)room;
    return sblog_session_exact(&session, &out.number);
}

static uint32_t places(uint32_t at, uint32_t room) {
    (void)at, (void)room;
    return sblog_session_room(&session, &out.size);
}

static uint32_t trace(uint32_t at, uint32_t room) {
    (void)at;
    return sblog_session_trace(&session, room_of(room), room, &out.size);
}

/* A reading: how it is called, by which last number (0 is the first), whether it may ask for memory, and
   whether a list ends in the same of it however its drives were cut off. A new one is a line here, in front
   of the trace. */
static const struct reading {
    const char *name;
    exported *read;
    uint32_t last;
    bool asks, is_end;
} readings[] = {
    {"standing", standing, PROCESSES + 1, false, true},
    {"state", state, PROCESSES + 1, false, true},
    {"shown", shown, MANY, false, true},
    {"exact", exact, 0, false, true},
    {"saved", saved, PROCESSES + 1, false, false},
    {"room", places, 0, false, false},
    {"trace", trace, 0, true, false},
};

/* The list: a call, its numbers, whether it may ask for memory, and its code with ample memory. A new call
   is a line here, and up to the first close one in sessions.scenario, if it leaves an entry. */
static const struct step {
    const char *name;
    exported *make;
    uint32_t a, b;
    bool asks;
    uint32_t code;
} steps[] = {
    {"open", open_files, 0, 0, true, 0},
    {"input", input, 1, 1, true, 0},
    {"input", input, 3, 2, true, 0},
    {"drive", drive, BUDGET, 0, true, 0},
    {"checkpoint", checkpoint, 1, 0, true, 0},
    {"checkpoint", checkpoint, 3, 0, true, 0},
    {"trim", trim, 1, 0, true, 0},
    {"trim", trim, 3, 0, true, 0},
    {"trim", trim, 0, 0, true, 0},
    {"input", input, 1, 3, true, 0},
    {"input", input, 3, 4, true, 0},
    {"input", input, 1, 5, true, 0},
    {"drive", drive, 5, 0, true, 0},
    {"trim", trim, 1, 0, true, 0}, /* the 33rd entry, for which the journal grows */
    {"drive", drive, 3, 0, true, 0}, /* to where a message is committed, and its number on the wire */
    {"crash", crash, 1, 0, true, 0},
    {"recover", recover, 1, 0, true, 0},
    {"drive", drive, BUDGET, 0, true, 0},
    {"crash", crash, 2, 0, true, 0},
    {"recover", recover, 2, 0, true, 0},
    {"drive", drive, BUDGET, 0, true, 0},
    {"checkpoint", checkpoint, 2, 0, true, 0},
    {"trim", trim, 2, 0, true, 0},
    {"crash", crash, 3, 0, true, 0},
    {"recover", recover, 3, 0, true, 0},
    {"drive", drive, BUDGET, 0, true, 0},
    {"input", input, 3, 6, true, 0},
    {"transmit", transmit, 3, 3, true, 0},
    {"copy", copy, 0, 0, true, 0},
    {"lose", lose, 1, 0, true, 0},
    {"arrive", arrive, 0, 0, true, 0}, /* starts a job, so it is the last one before a drive */
    {"arrive", arrive, 9, 0, true, NO_PACKET},
    {"drive", drive, BUDGET, 0, true, 0},
    {"input", input, 3, 4, true, FEED_TAKEN},
    {"close", close_session, 0, 0, false, 0},
    {"open", open_files, 0, 0, true, 0},
    {"close", close_session, 0, 0, false, 0},
};

enum { STEPS = sizeof steps / sizeof *steps };

/* ---- What a session tells ---- */

/* All answers of the readings, one behind the other, and where those that a list ends in and where those
   of the trace stand. */
struct told {
    size_t len, end, trace;
    uint8_t bytes[1 << 15];
};

static struct told told, before, last;

static void append(const void *bytes, size_t len) {
    if (len > sizeof told.bytes - told.len) fail("a session", "tells more than was thought");
    memcpy(told.bytes + told.len, bytes, len);
    told.len += len;
}

/* How often memory was asked for and refused, which refuse.c counts, where it is loaded. */
extern long refuse_requests(void) __attribute__((weak));
extern long refuse_refused(void) __attribute__((weak));

static long requests(void) { return refuse_requests ? refuse_requests() : 0; }
static long refusals(void) { return refuse_refused ? refuse_refused() : 0; }

/* The call that was refused memory; and the one that was carried out though a request was refused, with less memory. */
static const char *refused, *with_less;

/* Makes a call. Where it isn't done, it has written nothing, but for a size where there is no room. */
static uint32_t made(const char *name, exported *call, uint32_t a, uint32_t b, bool asks) {
    long asked = requests(), refused_before = refusals();
    memset(&out, UNWRITTEN, sizeof out);
    memset(&unwritten, UNWRITTEN, sizeof unwritten);
    uint32_t code = call(a, b);
    if (!asks && requests() != asked) fail(name, "asks for memory");
    if (code == SBLOG_SESSION_MEMORY && refused) fail(name, "answers want of memory twice");
    if (code == SBLOG_SESSION_MEMORY) refused = name;
    if (code != SBLOG_SESSION_MEMORY && refusals() > refused_before) with_less = name;
    if (code == SBLOG_SESSION_ROOM) unwritten.size = out.size;
    if (code != SBLOG_SESSION_DONE && memcmp(&out, &unwritten, sizeof out)) fail(name, "is refused, and has written");
    return code;
}

/* The same of a reading, again where memory was refused. */
static uint32_t read_with(const struct reading *reading, uint32_t at, uint32_t room) {
    uint32_t code = made(reading->name, reading->read, at, room, reading->asks);
    return code == SBLOG_SESSION_MEMORY ? made(reading->name, reading->read, at, room, reading->asks) : code;
}

/* Reads with no room, and then with just enough. */
static uint32_t read_at(const struct reading *reading, uint32_t at) {
    uint32_t code = read_with(reading, at, 0);
    size_t size = 0;
    if (code == SBLOG_SESSION_ROOM) {
        size = out.size;
        if (size > sizeof out.bytes) fail(reading->name, "has more bytes than was thought");
        code = read_with(reading, at, size);
        if (out.size != size) fail(reading->name, "has told another size");
    }
    uint32_t numbers[] = {code, out.number, out.other, out.sender, size};
    append(numbers, sizeof numbers);
    told.trace = told.len;
    append(room_of(size), size);
    return code;
}

/* Reads all that there is. */
static void tell(void) {
    told.len = 0;
    for (size_t which = 0; which < sizeof readings / sizeof *readings; which++) {
        const struct reading *reading = readings + which;
        for (uint32_t at = 0; at <= reading->last; at++) {
            uint32_t code = read_at(reading, at);
            if (code == SBLOG_SESSION_ABSENT || code == SBLOG_SESSION_HANDLE) break;
        }
        if (reading->is_end) told.end = told.len;
    }
}

static uint64_t sum(const uint8_t *bytes, size_t len) {
    uint64_t sum = 0;
    for (size_t at = 0; at < len; at++) sum = (sum ^ bytes[at]) * 0x100000001b3;
    return sum;
}

/* ---- Refused calls ---- */

/* What came of a drive or an arrival that was refused, for those who count it. */
static bool is_whole, is_cut;
static uint32_t left_open;

static void must(const char *name, exported *call, uint32_t a) {
    if (made(name, call, a, 0, true) != SBLOG_SESSION_DONE) fail(name, "is refused behind a drive that was cut off");
}

/* Goes on behind a drive or an arrival that was cut off: its entries stand behind those before. A process
   whose job is left open does nothing more, until it crashes and comes back. */
static void go_on(const struct step *step) {
    const uint8_t *now = told.bytes + told.trace, *old = before.bytes + before.trace;
    size_t old_len = before.len - before.trace;
    if (told.len - told.trace <= old_len) fail(step->name, "has changed the session, and made no call");
    if (memcmp(now, old, old_len)) fail(step->name, "has changed the journal");
    if (step->make == drive) must(step->name, step->make, step->a);
    must("drive", drive, BUDGET);
    for (uint32_t process = 1; process <= PROCESSES; process++) {
        made("standing", standing, process, 0, false);
        if (out.other == SBLOG_SESSION_UP) continue;
        left_open = out.other;
        must("crash", crash, process);
        must("recover", recover, process);
        must("drive", drive, BUDGET);
    }
}

/* Whether a call can be cut off: it makes more than one of the session's. */
static bool cuts(const struct step *step) { return step->make == drive || step->make == arrive; }

/* Makes a call, again where memory was refused, when the session tells what it told before. */
static uint32_t take(const struct step *step) {
    uint32_t code = made(step->name, step->make, step->a, step->b, step->asks);
    if (code != SBLOG_SESSION_MEMORY) return code;
    before = told;
    tell();
    if (told.len == before.len && !memcmp(told.bytes, before.bytes, told.len)) {
        is_whole = cuts(step);
        return made(step->name, step->make, step->a, step->b, step->asks);
    }
    if (!cuts(step)) fail(step->name, "is refused, and has changed the session");
    is_cut = true;
    go_on(step);
    return SBLOG_SESSION_DONE;
}

/* ---- The list ---- */

static char lines[1 << 14];
static size_t lines_len;

/* Makes all calls of the list, and writes a line each. What the first session told last is kept. */
static void play(void) {
    bool is_first = true;
    lines_len = 0;
    tell();
    for (size_t at = 0; at < STEPS; at++) {
        const struct step *step = steps + at;
        if (step->make == close_session && is_first) last = told, is_first = false;
        uint32_t code = take(step), number = out.number;
        if (code != step->code) fail(step->name, "answers another code");
        tell();
        unsigned long long all = sum(told.bytes, told.len);
        lines_len += snprintf(lines + lines_len, sizeof lines - lines_len, "sblog_session_%s %u %u %016llx\n",
                              step->name, code, number, all);
        if (lines_len >= sizeof lines) fail("the list", "has longer lines than was thought");
    }
}

/* Makes them once more behind a list of which a drive was cut off, and compares how both end. */
static void play_again(void) {
    static struct told cut;
    cut = last;
    play();
    if (cut.end != last.end || memcmp(cut.bytes, last.bytes, last.end))
        fail("a drive or an arrival", "is cut off, and all ends otherwise");
}

static int read_files(char **paths) {
    for (int at = 0; at < PROCESSES; at++) {
        int file = open(paths[at], O_RDONLY);
        ssize_t size = file < 0 ? -1 : read(file, files + files_len, sizeof files - files_len);
        if (size <= 0) return 0;
        lengths[at] = size;
        files_len += size;
        close(file);
    }
    return 1;
}

int main(int count, char **words) {
    static char buffer[1 << 14];
    setvbuf(stdout, buffer, _IOFBF, sizeof buffer);
    if (count != 1 + PROCESSES || !read_files(words + 1)) return 2;
    play();
    if (is_cut) play_again();
    fwrite(lines, 1, lines_len, stdout);
    fwrite(last.bytes + last.trace, 1, last.len - last.trace, stdout);
    if (refused) printf("note: %s is refused\n", refused);
    if (with_less) printf("note: %s makes do with less\n", with_less);
    if (is_whole) puts("note: a refused drive or arrival had made no call");
    if (is_cut) puts("note: a refused drive or arrival had made calls");
    if (left_open == SBLOG_SESSION_BUSY) puts("note: it left a process busy");
    if (left_open == SBLOG_SESSION_REPLAYING) puts("note: it left a process replaying");
    return 0;
}
