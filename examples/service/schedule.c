/* A session by a schedule of the program's own: it says which packet is copied, lost or arrives, and when.
   A message passes through two processes and out. Its first packet is lost, copies come twice, and one
   comes to a process that is down. Then the journal of a second session comes to its end: an input is
   refused while its message can still be received, and a drive tells that the end stopped it. The same
   handler is called by itself too, beside the sessions, and has to leave the same state. */
#include "handlers.h"
#include "sblog.h"

#include <stdio.h>
#include <stdlib.h>
#include <string.h>

enum { JOURNAL = 65536, BUDGET = 1000 };

/* Refusals of a session by their numbers (docs/FORMATS.md). */
enum { NOT_UP = 2, NO_PACKET = 4, SAME_PROCESS = 5, NOT_RELEASED = 6 };

static sblog_session session;

static void holds(const char *what, bool is) {
    if (is) return;
    fprintf(stderr, "%s: not so\n", what);
    exit(1);
}

/* The code of a call, and the number that it wrote, 99 where it wrote none. */
static void is(const char *what, uint32_t code, uint32_t number, uint32_t expected_code, uint32_t expected) {
    if (code == expected_code && number == expected) return;
    fprintf(stderr, "%s: code %u and %u in place of %u and %u\n", what, code, number, expected_code, expected);
    exit(1);
}

static void open_session(const uint8_t *files, size_t size, const uint32_t *lengths, size_t count) {
    is("open", sblog_session_open(files, size, lengths, count, &session), 0, 0, 0);
}

static void input(uint8_t to, uint32_t feed, uint8_t first, uint32_t code, uint32_t ssn) {
    uint8_t payload[8] = {first};
    uint32_t number = 99, got = sblog_session_input(&session, to, feed, payload, sizeof payload, &number);
    is("input", got, number, code, ssn);
}

static void transmit(uint8_t from, uint8_t to, uint32_t ssn, uint32_t code, uint32_t packet) {
    uint32_t number = 99, got = sblog_session_transmit(&session, from, to, ssn, &number);
    is("transmit", got, number, code, packet);
}

static void copy(uint32_t packet, uint32_t code, uint32_t second) {
    uint32_t number = 99, got = sblog_session_copy(&session, packet, &number);
    is("copy", got, number, code, second);
}

static void lose(uint32_t packet, uint32_t code) { is("lose", sblog_session_lose(&session, packet), 0, code, 0); }

/* A packet arrives: the answer that its entry has, or that of the job's finish, and its numbers. */
static void arrive(uint32_t packet, uint32_t answer, uint64_t first, uint64_t second) {
    sblog_entry entry, last;
    size_t count;
    uint32_t code = sblog_session_arrive(&session, packet, &entry);
    is("arrive", code, entry.answer, 0, answer);
    uint32_t call = answer == SBLOG_ANSWER_COMMITTED ? SBLOG_CALL_FINISH : SBLOG_CALL_ARRIVE;
    holds("the call of an arrival", entry.call == call && entry.worker == 0 && entry.payload_len == 0);
    holds("its numbers", entry.answer_numbers[0] == first && entry.answer_numbers[1] == second);
    is("journal", sblog_session_journal(&session, &count), 0, 0, 0);
    is("entry", sblog_session_entry(&session, count - 1, &last), 0, 0, 0);
    holds("it is the journal's last entry", !memcmp(&entry, &last, sizeof entry));
}

static void arrives_not(uint32_t packet, uint32_t code) {
    sblog_entry entry, before;
    memset(&entry, 99, sizeof entry);
    before = entry;
    is("arrive", sblog_session_arrive(&session, packet, &entry), 0, code, 0);
    holds("no entry is written", !memcmp(&entry, &before, sizeof entry));
}

static void room(size_t places) {
    size_t left = 99;
    uint32_t code = sblog_session_room(&session, &left);
    is("room", code, left, 0, places);
}

static void drive(uint32_t budget, uint32_t code, uint32_t calls) {
    uint32_t number = 99, got = sblog_session_drive(&session, budget, &number);
    is("drive", got, number, code, calls);
}

/* Trims for the outside, which drops nothing here, until so many places are left. */
static void fill(size_t places) {
    size_t left;
    uint32_t dropped;
    for (;;) {
        is("room", sblog_session_room(&session, &left), 0, 0, 0);
        if (left <= places) return;
        uint32_t code = sblog_session_trim(&session, 0, &dropped);
        is("trim", code, dropped, 0, 0);
    }
}

static void crash(uint8_t process, uint32_t code, uint32_t incarnation) {
    uint32_t number = 99, got = sblog_session_crash(&session, process, &number);
    is("crash", got, number, code, incarnation);
}

static void by_own_schedule(void) {
    uint32_t lengths[2] = {RELAY_SIZE, ECHO_SIZE}, exact, code;
    size_t count;
    open_session(RELAY_AND_ECHO, RELAY_SIZE + ECHO_SIZE, lengths, 2);
    room(JOURNAL);
    input(1, 1, 7, 0, 1);
    room(JOURNAL - 1);
    transmit(0, 1, 1, 0, 0);
    copy(0, 0, 1);
    lose(0, 0);
    lose(0, NO_PACKET);
    transmit(0, 1, 2, NOT_RELEASED, 99);
    transmit(1, 1, 1, SAME_PROCESS, 99);
    arrive(1, SBLOG_ANSWER_COMMITTED, 1, 1);
    arrives_not(9, NO_PACKET);
    arrive(1, SBLOG_ANSWER_NUMBERED, 1, 0);
    arrive(1, SBLOG_ANSWER_ACKNOWLEDGED, 0, 0);
    transmit(1, 2, 1, 0, 1);
    copy(1, 0, 0);
    copy(7, NO_PACKET, 99);
    arrive(1, SBLOG_ANSWER_COMMITTED, 1, 1);
    arrive(0, SBLOG_ANSWER_DUPLICATE, 0, 0);
    arrive(0, SBLOG_ANSWER_NUMBERED, 0, 0);
    arrive(1, SBLOG_ANSWER_NUMBERED, 1, 0);
    arrive(0, SBLOG_ANSWER_ACKNOWLEDGED, 0, 0);
    arrive(1, SBLOG_ANSWER_ACKNOWLEDGED, 0, 0);
    transmit(2, 0, 1, 0, 1);
    copy(1, 0, 0);
    arrive(1, SBLOG_ANSWER_SHOWN, 1, 0);
    arrive(0, SBLOG_ANSWER_SHOWN_BEFORE, 0, 0);
    crash(2, 0, 2);
    transmit(1, 2, 1, 0, 0);
    arrive(0, SBLOG_ANSWER_UNREACHABLE, 0, 0);
    transmit(2, 0, 1, NOT_UP, 99);
    room(JOURNAL - 24);
    code = sblog_session_exact(&session, &exact);
    is("exact", code, exact, 0, 1);
    code = sblog_session_journal(&session, &count);
    is("journal", code, count, 0, 24);
    is("close", sblog_session_close(&session), 0, 0, 0);
    puts("24 calls by a schedule of its own");
}

/* The state of the adder after its one message, by the session and by a call of its handler. */
static void compare_state(uint8_t first) {
    uint8_t state[8], alone[8] = {0}, message[SBLOG_MESSAGE_SIZE] = {first}, report[SBLOG_REPORT_LIMIT];
    size_t size;
    uint32_t code = sblog_session_state(&session, 1, state, sizeof state, &size);
    is("state", code, size, 0, 8);
    is("call", sblog_call(ADDER, ADDER_SIZE, alone, 8, message, sizeof message, 1, 0, 1, report, sizeof report), 0, 0, 0);
    holds("the state", sblog_number(state) == first && !memcmp(state, alone, 8));
}

static void to_the_end(void) {
    uint32_t length = ADDER_SIZE;
    open_session(ADDER, ADDER_SIZE, &length, 1);
    fill(4);
    input(1, 1, 5, 0, 1);
    input(1, 2, 6, SBLOG_SESSION_FULL, 99); /* three places are left, those of the first message */
    input(2, 2, 6, SBLOG_SESSION_NO_PROCESS, 99);
    drive(BUDGET, SBLOG_SESSION_FULL, 3); /* it is put on the wire, arrives, and is received; its number stays on the way */
    compare_state(5);
    drive(0, 0, 0);
    drive(1, SBLOG_SESSION_FULL, 0);
    room(0);
    crash(1, SBLOG_SESSION_FULL, 99);
    is("close", sblog_session_close(&session), 0, 0, 0);

    open_session(ADDER, ADDER_SIZE, &length, 1);
    fill(0);
    drive(BUDGET, 0, 0); /* full, and nothing is left to do */
    is("close", sblog_session_close(&session), 0, 0, 0);
    puts("an input that finds the journal's last four places is received");
}

int main(void) {
    size_t places = 99;
    transmit(0, 1, 1, SBLOG_SESSION_HANDLE, 99);
    copy(0, SBLOG_SESSION_HANDLE, 99);
    lose(0, SBLOG_SESSION_HANDLE);
    arrives_not(0, SBLOG_SESSION_HANDLE);
    uint32_t code = sblog_session_room(&session, &places);
    is("room", code, places, SBLOG_SESSION_HANDLE, 99);
    by_own_schedule();
    to_the_end();
    return 0;
}
