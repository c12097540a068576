/* Image files of BPF handlers, checked once and called with no test for a fault while they run; and sessions
   of them, which survive the loss of a process inside the program that holds them; and the gateway and the nodes
   of a cluster whose processes are programs of their own. docs/EMBEDDING.md describes each function, its codes,
   and the bytes of a report and of an entry. */
#ifndef SBLOG_H
#define SBLOG_H

#ifdef __bpf__
#error a handler includes sblog_handler.h: sblog.h is for programs that call the library
#else

#include <stdbool.h>
#include <stddef.h>
#include <stdint.h>

#ifdef __cplusplus
extern "C" {
#endif

/* Every slice is a pointer, which is never null, and a length. One that is written overlaps no other. */

/* The version of the library that the program runs with, as 0.1.0. This function, and those that put a code in words, are
   C that tools/dist writes of this header: nothing of them is proved. */
const char *sblog_version(void);

enum {
    SBLOG_PROCESS_LIMIT = 15, /* the highest number of a process */
    SBLOG_STATE_LIMIT = 1024, /* bytes of a state */
    SBLOG_PAYLOAD_LIMIT = 256 /* bytes of a message; of form 1 there are 64 */
};

/* ---- handlers */

enum sblog_code {
    SBLOG_DONE = 0,
    SBLOG_MEMORY = 1,  /* no memory */
    SBLOG_HEADER = 2,  /* the file's header or length */
    SBLOG_CODE = 3,    /* an instruction's encoding */
    SBLOG_RULES = 4,   /* a rule of the verifier, V1 to V10 */
    SBLOG_STATE = 5,   /* the state isn't as long as the file says */
    SBLOG_MESSAGE = 6, /* no whole messages of 64 bytes */
    SBLOG_WHO = 7,     /* numbers of processes out of range */
    SBLOG_ROOM = 8,    /* the buffer for the answer is too short */
    SBLOG_FORM = 9,    /* the image is an SBI2, which is checked and compiled, and not called */
    SBLOG_HANDLE = 10, /* the handle is null */
    SBLOG_RECORD = 12  /* no call of form 1 leaves such a record */
};

/* A code in words, for logs; "no such code" of any other number. */
const char *sblog_code_text(uint32_t code);

/* A message has 64 bytes; to a handler of form 3 r3 is 64, and zeros lie behind it. A report shows 64 bytes of each
   payload: of a longer one the first, and zeros behind a shorter one. */
enum { SBLOG_MESSAGE_SIZE = 64, SBLOG_FAULT_SIZE = 16, SBLOG_REPORT_LIMIT = 1064 };

uint32_t sblog_check(const uint8_t *file, size_t file_len, uint8_t *fault, size_t fault_len);

uint32_t sblog_call(const uint8_t *file, size_t file_len, uint8_t *state, size_t state_len,
                    const uint8_t *message, size_t message_len, uint8_t me, uint8_t from,
                    uint8_t count, uint8_t *report, size_t report_len);

uint32_t sblog_call_many(const uint8_t *file, size_t file_len, uint8_t *state, size_t state_len,
                         const uint8_t *messages, size_t messages_len, uint8_t me, uint8_t from,
                         uint8_t count, uint8_t *reports, size_t reports_len);

/* An image that was checked once. A handle is null, or came out of sblog_open and wasn't closed since. It
   is given to one call at a time. */
typedef struct sblog_handle sblog_handle;

/* Checks a file, and makes the handle stand for its image; null where the file is refused. */
uint32_t sblog_open(const uint8_t *file, size_t file_len, sblog_handle **handle);

/* How many bytes the state has; 0 for a null handle. */
size_t sblog_state_len(sblog_handle *handle);

uint32_t sblog_run(sblog_handle *handle, uint8_t *state, size_t state_len, const uint8_t *messages,
                   size_t messages_len, uint8_t me, uint8_t from, uint8_t count, uint8_t *reports,
                   size_t reports_len);

/* Writes the machine code of the image, for x86-64, and how many bytes it has; where the buffer has fewer
   (8), it is left as it was, and the size is written all the same. */
uint32_t sblog_compile(sblog_handle *handle, uint8_t *out, size_t out_len, size_t *size);

/* The report of a call of machine code, from what it answered and the record that it left, of form 1. */
uint32_t sblog_native_report(uint64_t r0, const uint8_t *record, size_t record_len, uint8_t *report,
                             size_t report_len);

/* Gives the memory of the image back; of a null handle there is none. */
void sblog_close(sblog_handle *handle);

/* A number of a report or of a fault: eight bytes, the lowest first. */
static inline uint64_t sblog_number(const uint8_t *at) {
    uint64_t number = 0;
    for (int i = 7; i >= 0; i--) number = number << 8 | at[i];
    return number;
}

/* How many bytes a report has, so where the next one begins. */
static inline size_t sblog_report_size(const uint8_t *report) {
    return 32 + 65 * (size_t)sblog_number(report + 16) + 64 * (size_t)sblog_number(report + 24);
}

/* ---- calls of machine code, where SBLOG_CALLS_CODE is defined before this file is read: on x86-64, with the
   pages of <sys/mman.h>. These functions are C of the program's own, and nothing of them is proved. What is proved of
   machine code holds of calls whose numbers of processes and whose lengths are in their ranges; of form 3 a call with
   another one writes outside of its array. So each function here tests them, and makes no such call. Pointers, and that
   the state is as long as the image says, can't be tested. */

#ifdef SBLOG_CALLS_CODE
#include <string.h>
#include <sys/mman.h>

enum {
    SBLOG_ARRAY_SIZE = 1792, /* the message from 0 on, the state, the stack behind the state; zeros elsewhere */
    SBLOG_STATE_AT = 256,
    SBLOG_SPAN_ARRAY_SIZE = 2048, /* the same of form 3, whose message region is longer */
    SBLOG_SPAN_STATE_AT = 512,
    SBLOG_STACK_SIZE = 512,
    SBLOG_RECORD_SIZE = 4416
};

/* Machine code: it is given an array, a record, and the message's length, and answers r0. */
typedef uint64_t (*sblog_native_code)(uint8_t *array, uint8_t *record, uint64_t message_len);

/* Copies machine code into pages of its own, which are never writable and executable at once; null where
   there are none. */
static inline sblog_native_code sblog_map(const uint8_t *code, size_t size) {
    void *pages = mmap(NULL, size, PROT_READ | PROT_WRITE, MAP_PRIVATE | MAP_ANONYMOUS, -1, 0);
    if (pages == MAP_FAILED) return NULL;
    memcpy(pages, code, size);
    if (mprotect(pages, size, PROT_READ | PROT_EXEC) == 0) return (sblog_native_code)(uintptr_t)pages;
    munmap(pages, size);
    return NULL;
}

/* Gives the pages of so much code back. */
static inline void sblog_unmap(sblog_native_code code, size_t size) {
    if (code != NULL) munmap((void *)(uintptr_t)code, size);
}

/* As whom a handler is called, by whose message, of how many processes. sblog_who_of makes one. */
typedef struct {
    uint8_t me, from, count;
} sblog_who;

/* Tests the numbers as sblog_run does, SBLOG_WHO, and writes them: of 64 bits, so that none is cut off unseen. */
static inline uint32_t sblog_who_of(uint64_t me, uint64_t from, uint64_t count, sblog_who *who) {
    if (me < 1 || me > count || count > SBLOG_PROCESS_LIMIT || from > count || from == me) return SBLOG_WHO;
    who->me = (uint8_t)me;
    who->from = (uint8_t)from;
    who->count = (uint8_t)count;
    return SBLOG_DONE;
}

/* Why machine code isn't called by these: no code, SBLOG_HANDLE; SBLOG_WHO, SBLOG_MESSAGE, SBLOG_STATE; else SBLOG_DONE. */
static inline uint32_t sblog_native_fault(sblog_native_code code, uint64_t me, uint64_t from, uint64_t message_len,
                                          uint64_t state_len) {
    if (code == NULL) return SBLOG_HANDLE;
    if (me > SBLOG_PROCESS_LIMIT || from > SBLOG_PROCESS_LIMIT) return SBLOG_WHO;
    if (message_len > SBLOG_PAYLOAD_LIMIT) return SBLOG_MESSAGE;
    return state_len > SBLOG_STATE_LIMIT ? SBLOG_STATE : SBLOG_DONE;
}

/* Lays an array and a record out, whose state begins there, and calls machine code. Where an argument isn't in its range it
   calls nothing, leaves the array as it was, and answers a code in place of r0: the record has 0 steps then, as after no call. */
static inline uint64_t sblog_native_call_at(sblog_native_code code, uint8_t *array, size_t state_at,
                                            size_t state_len, const uint8_t *message,
                                            size_t message_len, uint8_t me, uint8_t from,
                                            uint8_t count, uint8_t *record) {
    const uint64_t front[6] = {0, 0, 0, me, from, count}; /* sends, outputs, steps; who is called */
    const uint32_t fault = sblog_native_fault(code, me, from, message_len, state_len);
    memcpy(record, front, sizeof front);
    if (fault != SBLOG_DONE) return fault;
    if (state_at != SBLOG_STATE_AT && state_at != SBLOG_SPAN_STATE_AT) return SBLOG_FORM;
    memcpy(array, message, message_len);
    memset(array + message_len, 0, state_at - message_len);
    memset(array + state_at + state_len, 0, SBLOG_STACK_SIZE);
    return code(array, record, message_len);
}

/* Calls machine code by one message, of 64 bytes in form 1 and of at most 256 in form 2, and answers r0, or a code as
   above. The array was zeros before its first call, and has the state from SBLOG_STATE_AT on, which a call changes in
   place. The record has the steps, sends and outputs then. */
static inline uint64_t sblog_native_call(sblog_native_code code, uint8_t *array, size_t state_len,
                                         const uint8_t *message, size_t message_len, uint8_t me,
                                         uint8_t from, uint8_t count, uint8_t *record) {
    return sblog_native_call_at(code, array, SBLOG_STATE_AT, state_len, message, message_len, me, from,
                                count, record);
}

/* The same of an image of form 3, by a message of at most 256 bytes, as 0 to 15 and from 0 to 15. The array has
   SBLOG_SPAN_ARRAY_SIZE bytes, and the state from SBLOG_SPAN_STATE_AT on. */
static inline uint64_t sblog_native_call_span(sblog_native_code code, uint8_t *array, size_t state_len,
                                              const uint8_t *message, size_t message_len, uint8_t me,
                                              uint8_t from, uint8_t count, uint8_t *record) {
    return sblog_native_call_at(code, array, SBLOG_SPAN_STATE_AT, state_len, message, message_len, me,
                                from, count, record);
}

/* Calls machine code of an image of this form, 1, 2 or 3: the number at byte 3 of its file. It writes r0, or answers
   SBLOG_FORM or a code as above, and then calls nothing, and r0 and the array are as they were. */
static inline uint32_t sblog_native_run(sblog_native_code code, int form, uint8_t *array, size_t state_len,
                                        const uint8_t *message, size_t message_len, sblog_who who,
                                        uint8_t *record, uint64_t *r0) {
    const uint32_t fault = sblog_native_fault(code, who.me, who.from, message_len, state_len);
    if (fault != SBLOG_DONE) return fault;
    if (form < 1 || form > 3) return SBLOG_FORM;
    if (form == 1 && message_len != SBLOG_MESSAGE_SIZE) return SBLOG_MESSAGE;
    *r0 = sblog_native_call_at(code, array, form == 3 ? SBLOG_SPAN_STATE_AT : SBLOG_STATE_AT, state_len, message,
                               message_len, who.me, who.from, who.count, record);
    return SBLOG_DONE;
}
#endif

/* ---- sessions */

/* This name keeps this part and a copy of the header that sessions had before apart. */
#ifndef SBLOG_SESSION_H
#define SBLOG_SESSION_H

/* 1 to 15 are the refusals of a session, by number (docs/FORMATS.md) */
enum sblog_session_code {
    SBLOG_SESSION_DONE = 0,
    SBLOG_SESSION_NO_PROCESS = 1,   /* there is no such process; to open one, 1 to 15 files */
    SBLOG_SESSION_NOT_UP = 2,       /* the process is not up */
    SBLOG_SESSION_OPEN_JOB = 3,     /* the process has an open job */
    SBLOG_SESSION_NO_PACKET = 4,    /* no packet has this key */
    SBLOG_SESSION_SAME_PROCESS = 5, /* a process is no peer of its own */
    SBLOG_SESSION_NOT_RELEASED = 6, /* the message isn't released yet */
    SBLOG_SESSION_NOT_LOGGED = 7,   /* the message isn't in its sender's log */
    SBLOG_SESSION_PEER_NOT_UP = 8,  /* another process is not up */
    SBLOG_SESSION_STALE_JOB = 9,    /* the result isn't that of the open job */
    SBLOG_SESSION_NOT_DOWN = 10,    /* the process is not down */
    SBLOG_SESSION_WRONG_PHASE = 11, /* the process is in another phase */
    SBLOG_SESSION_FULL = 12,        /* the journal is full; of drive, its end stopped it */
    SBLOG_SESSION_WIRE_FULL = 13,   /* the wire is full */
    SBLOG_SESSION_FEED_TAKEN = 14,  /* the feed number is taken */
    SBLOG_SESSION_MEMORY = 15,      /* memory ran out */
    SBLOG_SESSION_HANDLE = 16,      /* the handle is closed; to open one, it is open */
    SBLOG_SESSION_FILE = 17,        /* a file is none of an image, or the lengths don't fit */
    SBLOG_SESSION_PAYLOAD = 18,     /* a payload has more than 256 bytes */
    SBLOG_SESSION_ROOM = 19,        /* the buffer is too short; the size says what it takes */
    SBLOG_SESSION_ABSENT = 20       /* there is none of this number */
};

const char *sblog_session_code_text(uint32_t code);

enum sblog_session_phase {
    SBLOG_SESSION_UP = 0,
    SBLOG_SESSION_BUSY = 1,
    SBLOG_SESSION_DOWN = 2,
    SBLOG_SESSION_REPLAYING = 3,
    SBLOG_SESSION_RESYNC = 4
};

/* Which call an entry of the journal is; behind each its numbers. */
enum sblog_session_call {
    SBLOG_CALL_INPUT = 1,      /* destination, feed number; it alone has a payload */
    SBLOG_CALL_TRANSMIT = 2,   /* sender, destination, number of the message */
    SBLOG_CALL_COPY = 3,       /* packet */
    SBLOG_CALL_LOSE = 4,       /* packet */
    SBLOG_CALL_ARRIVE = 5,     /* packet */
    SBLOG_CALL_FINISH = 6,     /* process */
    SBLOG_CALL_CHECKPOINT = 7, /* process */
    SBLOG_CALL_TRIM = 8,       /* destination */
    SBLOG_CALL_CRASH = 9,      /* process */
    SBLOG_CALL_RECOVER = 10,   /* process */
    SBLOG_CALL_ALONE = 11,     /* process */
    SBLOG_CALL_REPLAY = 12,    /* process */
    SBLOG_CALL_RESYNC = 13     /* process, peer */
};

/* Which answer it got; behind each its numbers. */
enum sblog_session_answer {
    SBLOG_ANSWER_LOGGED = 1,       /* number of the message */
    SBLOG_ANSWER_PACKET = 2,       /* packet */
    SBLOG_ANSWER_LOST = 3,
    SBLOG_ANSWER_STARTED = 4,      /* job */
    SBLOG_ANSWER_NUMBERED = 5,     /* packet of the acknowledgement */
    SBLOG_ANSWER_ACKNOWLEDGED = 6,
    SBLOG_ANSWER_SHOWN = 7,        /* number of the message */
    SBLOG_ANSWER_DUPLICATE = 8,    /* packet of the number */
    SBLOG_ANSWER_SHOWN_BEFORE = 9,
    SBLOG_ANSWER_EARLY = 10,
    SBLOG_ANSWER_STALE = 11,
    SBLOG_ANSWER_UNREACHABLE = 12, /* the target is not up */
    SBLOG_ANSWER_COMMITTED = 13,   /* number at the receiver, packet that tells it */
    SBLOG_ANSWER_REPLAYED = 14,    /* number at the receiver */
    SBLOG_ANSWER_SAVED = 15,       /* messages covered */
    SBLOG_ANSWER_TRIMMED = 16,     /* messages dropped */
    SBLOG_ANSWER_CRASHED = 17,     /* incarnation */
    SBLOG_ANSWER_KEPT = 18,        /* messages kept */
    SBLOG_ANSWER_RESTORED = 19     /* numbers that came back */
};

/* An entry of the journal: 312 bytes without a gap (docs/FORMATS.md, "Entry"). */
typedef struct {
    uint32_t worker;      /* who made the call: 0, nobody */
    uint32_t call;        /* enum sblog_session_call */
    uint32_t answer;      /* enum sblog_session_answer */
    uint32_t payload_len; /* 0 to 256 */
    uint64_t call_numbers[3];
    uint64_t answer_numbers[2];
    uint8_t payload[256]; /* zeros behind payload_len bytes */
} sblog_entry;

/* What a program holds of a session: zeros are a closed handle, sblog_session handle = {0}. A program
   writes no other bytes into it, and makes no copy of an open one. */
typedef struct {
    void *at;
    bool held;
} sblog_session;

/* The library reads and writes these structs by place: a compiler that lays them out otherwise is
   refused here. */
#ifdef __cplusplus
#define SBLOG_SESSION_ASSERT(holds, why) static_assert(holds, why)
#else
#define SBLOG_SESSION_ASSERT(holds, why) _Static_assert(holds, why)
#endif
SBLOG_SESSION_ASSERT(sizeof(sblog_entry) == 312, "size of sblog_entry");
SBLOG_SESSION_ASSERT(offsetof(sblog_entry, worker) == 0, "place of worker");
SBLOG_SESSION_ASSERT(offsetof(sblog_entry, call) == 4, "place of call");
SBLOG_SESSION_ASSERT(offsetof(sblog_entry, answer) == 8, "place of answer");
SBLOG_SESSION_ASSERT(offsetof(sblog_entry, payload_len) == 12, "place of payload_len");
SBLOG_SESSION_ASSERT(offsetof(sblog_entry, call_numbers) == 16, "place of call_numbers");
SBLOG_SESSION_ASSERT(offsetof(sblog_entry, answer_numbers) == 40, "place of answer_numbers");
SBLOG_SESSION_ASSERT(offsetof(sblog_entry, payload) == 56, "place of payload");
SBLOG_SESSION_ASSERT(sizeof(sblog_session) == 16, "size of sblog_session");
SBLOG_SESSION_ASSERT(offsetof(sblog_session, at) == 0, "place of at");
SBLOG_SESSION_ASSERT(offsetof(sblog_session, held) == 8, "place of held");
#undef SBLOG_SESSION_ASSERT

/* The images may be of form 1, 2 or 3, and of different forms side by side. */
uint32_t sblog_session_open(const uint8_t *files, size_t files_len, const uint32_t *lengths,
                            size_t count, sblog_session *handle);
uint32_t sblog_session_close(sblog_session *handle);

/* Leaves three places of the journal for its message, or is refused (12). */
uint32_t sblog_session_input(sblog_session *handle, uint8_t to, uint32_t feed,
                             const uint8_t *payload, size_t payload_len, uint32_t *ssn);
/* Writes how many calls were accepted, also where the journal's end stopped it (12). */
uint32_t sblog_session_drive(sblog_session *handle, uint32_t budget, uint32_t *accepted);

/* For a schedule of the program's own: packets go by keys, below 4,096. from and to are 0 for the outside. */
uint32_t sblog_session_transmit(sblog_session *handle, uint8_t from, uint8_t to, uint32_t ssn,
                                uint32_t *packet);
uint32_t sblog_session_copy(sblog_session *handle, uint32_t packet, uint32_t *copy);
uint32_t sblog_session_lose(sblog_session *handle, uint32_t packet);
/* Calls the handler where the packet starts a job. Writes the last entry of the journal then. */
uint32_t sblog_session_arrive(sblog_session *handle, uint32_t packet, sblog_entry *entry);

uint32_t sblog_session_checkpoint(sblog_session *handle, uint8_t process, uint32_t *covered);
uint32_t sblog_session_trim(sblog_session *handle, uint8_t to, uint32_t *dropped);
uint32_t sblog_session_crash(sblog_session *handle, uint8_t process, uint32_t *incarnation);
uint32_t sblog_session_recover(sblog_session *handle, uint8_t process, uint32_t *kept);
uint32_t sblog_session_recover_alone(sblog_session *handle, uint8_t process, uint32_t *kept);

uint32_t sblog_session_standing(sblog_session *handle, uint8_t process, uint32_t *length,
                                uint32_t *phase);
uint32_t sblog_session_state(sblog_session *handle, uint8_t process, uint8_t *out, size_t out_len,
                             size_t *size);
uint32_t sblog_session_saved(sblog_session *handle, uint8_t process, uint8_t *out, size_t out_len,
                             size_t *size);
uint32_t sblog_session_shown(sblog_session *handle, size_t place, uint8_t *sender, uint32_t *ssn,
                             uint8_t *out, size_t out_len, size_t *size);
uint32_t sblog_session_exact(sblog_session *handle, uint32_t *exact);
/* How many sends and outputs its helpers refused a process's handler, by the code that the handler got: 1, to no other
   process; 2, more than 8 of a call; 3, of more than 256 bytes. 0 for any other code or process, and of a closed handle.
   A replay counts none again. */
uint64_t sblog_session_refused(sblog_session *handle, uint8_t process, uint32_t code);
uint32_t sblog_session_trace(sblog_session *handle, uint8_t *out, size_t out_len, size_t *size);

/* How many places the journal has left; a call takes one, and where it starts a job, two. */
uint32_t sblog_session_room(sblog_session *handle, size_t *places);
uint32_t sblog_session_journal(sblog_session *handle, size_t *count);
uint32_t sblog_session_entry(sblog_session *handle, size_t place, sblog_entry *entry);
uint32_t sblog_session_entries(sblog_session *handle, size_t from, sblog_entry *out,
                               size_t out_len, size_t *count);

#endif

/* ---- packets, that nodes and the gateway of a cluster send each other. Their bytes: docs/FORMATS.md. */

#ifndef SBLOG_PACKET_H
#define SBLOG_PACKET_H

enum sblog_packet_kind {
    SBLOG_PACKET_DELIVERY = 1,        /* a message */
    SBLOG_PACKET_NUMBER = 2,          /* which number its receiver gave it */
    SBLOG_PACKET_ACKNOWLEDGEMENT = 3, /* that number is recorded */
    SBLOG_PACKET_ASK = 4,             /* what does your log hold for me? */
    SBLOG_PACKET_TOLD = 5,            /* a page of that */
    SBLOG_PACKET_RESUME = 6,          /* I am back: which of my messages do you have? */
    SBLOG_PACKET_RESTORED = 7,        /* a page of these */
    SBLOG_PACKET_SAVED = 8            /* so many of your messages are covered for good */
};

/* What a host has to know of a packet, to say when it goes, and what it answers. */
typedef struct {
    uint64_t kind;   /* enum sblog_packet_kind */
    uint64_t from;   /* the process that sent it, */
    uint64_t to;     /* and the one that it goes to; 0 is the gateway */
    uint64_t ssn;    /* of its message; of a Saved, of the last message that is covered; else 0 */
    uint64_t number; /* that it tells or acknowledges; else 0 */
} sblog_label;

/* How the packets of a bundle fared that a node or the gateway was handed. */
typedef struct {
    uint64_t taken;
    uint64_t refused; /* they are no packets */
    uint64_t lost;    /* there was no memory for them */
} sblog_tally;

#ifdef __cplusplus
#define SBLOG_PACKET_ASSERT(holds, why) static_assert(holds, why)
#else
#define SBLOG_PACKET_ASSERT(holds, why) _Static_assert(holds, why)
#endif
SBLOG_PACKET_ASSERT(sizeof(sblog_label) == 40, "size of sblog_label");
SBLOG_PACKET_ASSERT(offsetof(sblog_label, kind) == 0, "place of kind");
SBLOG_PACKET_ASSERT(offsetof(sblog_label, from) == 8, "place of from");
SBLOG_PACKET_ASSERT(offsetof(sblog_label, to) == 16, "place of to");
SBLOG_PACKET_ASSERT(offsetof(sblog_label, ssn) == 24, "place of ssn");
SBLOG_PACKET_ASSERT(offsetof(sblog_label, number) == 32, "place of number");
SBLOG_PACKET_ASSERT(sizeof(sblog_tally) == 24, "size of sblog_tally");
SBLOG_PACKET_ASSERT(offsetof(sblog_tally, taken) == 0, "place of taken");
SBLOG_PACKET_ASSERT(offsetof(sblog_tally, refused) == 8, "place of refused");
SBLOG_PACKET_ASSERT(offsetof(sblog_tally, lost) == 16, "place of lost");
#undef SBLOG_PACKET_ASSERT

/* The label of a packet. The codes are those of nodes: 21, the bytes are no packet's, by fault 1 to 8, or 15, memory ran out. */
uint32_t sblog_packet_label(const uint8_t *packet, size_t packet_len, sblog_label *label, uint32_t *fault);

#endif

/* ---- the gateway of a cluster, whose processes are programs of their own: its way in and out, node 0. The
   bytes of packets, store and changes: docs/FORMATS.md. */

#ifndef SBLOG_GATEWAY_H
#define SBLOG_GATEWAY_H

enum sblog_gateway_code {
    SBLOG_GATEWAY_DONE = 0,
    SBLOG_GATEWAY_MEMORY = 15,  /* memory ran out */
    SBLOG_GATEWAY_HANDLE = 16,  /* the handle is closed; to open one, it is open */
    SBLOG_GATEWAY_PAYLOAD = 18, /* a payload has more than 256 bytes */
    SBLOG_GATEWAY_ROOM = 19,    /* the buffer is too short; the size says what it takes, and nothing is taken */
    SBLOG_GATEWAY_ABSENT = 20,  /* there is none */
    SBLOG_GATEWAY_BYTES = 21,   /* the bytes are refused; the fault says by what */
    SBLOG_GATEWAY_EARLY = 22,   /* not now: something waits to be sent or to be made durable */
    SBLOG_GATEWAY_RANGE = 23    /* a limit or a number of a process is out of range */
};

const char *sblog_gateway_code_text(uint32_t code);

/* Why changes are refused (21). */
enum sblog_gateway_fault {
    SBLOG_GATEWAY_NOT_CHANGES = 1, /* the bytes are not those of changes */
    SBLOG_GATEWAY_UNFIT = 2        /* a change can't happen to the store as it is then */
};

/* What a program holds of a gateway: zeros are a closed handle, sblog_gateway gateway = {0}. A program
   writes no other bytes into it, and makes no copy of an open one. */
typedef struct {
    void *at;
    bool held;
} sblog_gateway;

#ifdef __cplusplus
#define SBLOG_GATEWAY_ASSERT(holds, why) static_assert(holds, why)
#else
#define SBLOG_GATEWAY_ASSERT(holds, why) _Static_assert(holds, why)
#endif
SBLOG_GATEWAY_ASSERT(sizeof(sblog_gateway) == 16, "size of sblog_gateway");
SBLOG_GATEWAY_ASSERT(offsetof(sblog_gateway, at) == 0, "place of at");
SBLOG_GATEWAY_ASSERT(offsetof(sblog_gateway, held) == 8, "place of held");
#undef SBLOG_GATEWAY_ASSERT

/* n processes, 1 to 15. A packet has at most `page` bytes, 512 to 65,535; one tick makes at most `tick`
   messages for a process, 1 or more. */
uint32_t sblog_gateway_open(uint8_t n, uint32_t page, uint32_t tick, sblog_gateway *gateway);
/* A gateway that comes back with a store; where the bytes are refused, by fault 1 to 7. */
uint32_t sblog_gateway_revive(const uint8_t *store, size_t store_len, uint32_t page, uint32_t tick,
                              sblog_gateway *gateway, uint32_t *fault);
/* The changes that were made durable behind that store happen; before anything else is asked of it. */
uint32_t sblog_gateway_apply(sblog_gateway *gateway, const uint8_t *changes, size_t changes_len,
                             uint32_t *fault);
uint32_t sblog_gateway_close(sblog_gateway *gateway);

/* A message of 0 to 256 bytes for a process. */
uint32_t sblog_gateway_input(sblog_gateway *gateway, uint8_t process, const uint8_t *payload,
                             size_t payload_len, uint64_t *ssn);
/* Bytes came; where they are no packet's, by fault 1 to 8. */
uint32_t sblog_gateway_receive(sblog_gateway *gateway, const uint8_t *packet, size_t packet_len,
                               uint32_t *fault);
/* Each packet of a bundle came, in their order. A bundle is here what is after its head, each packet after its length (2 bytes).
   Other bytes are refused whole (21). */
uint32_t sblog_gateway_receive_all(sblog_gateway *gateway, const uint8_t *bundle, size_t bundle_len,
                                   sblog_tally *tally);
/* The next packet that is to be sent, and to which process; 20 where none waits. */
uint32_t sblog_gateway_take(sblog_gateway *gateway, uint8_t *out, size_t out_len, size_t *size,
                            uint8_t *to);
/* The first packets that are to be sent, as many as go to one process and fit, as a bundle without its head: how many bytes and
   packets, and to which process; 20 where none waits, 19 where the first one doesn't fit. */
uint32_t sblog_gateway_take_all(sblog_gateway *gateway, uint8_t *out, size_t out_len, size_t *size,
                                uint8_t *to, uint64_t *count);
/* What isn't answered is sent again. */
uint32_t sblog_gateway_tick(sblog_gateway *gateway);
/* The next output; 20 where there is none. */
uint32_t sblog_gateway_output(sblog_gateway *gateway, uint8_t *process, uint64_t *ssn, uint8_t *out,
                              size_t out_len, size_t *size);
uint32_t sblog_gateway_store(sblog_gateway *gateway, uint8_t *out, size_t out_len, size_t *size);
/* What happened to the store since this was asked, 0 bytes where nothing did. It is to be durable before what
   the calls put out is sent. */
uint32_t sblog_gateway_changes(sblog_gateway *gateway, uint8_t *out, size_t out_len, size_t *size);

#endif

/* ---- nodes: one process of a cluster, as a value that its host calls (docs/EMBEDDING.md, "A node"). */

#ifndef SBLOG_NODE_H
#define SBLOG_NODE_H

enum sblog_node_code {
    SBLOG_NODE_DONE = 0,
    SBLOG_NODE_MEMORY = 15, /* memory ran out */
    SBLOG_NODE_HANDLE = 16, /* the handle is closed; to open one, it is open */
    SBLOG_NODE_IMAGE = 17,  /* the image is none */
    SBLOG_NODE_ROOM = 19,   /* the buffer is too short; the size says what it takes */
    SBLOG_NODE_ABSENT = 20, /* there is none */
    SBLOG_NODE_BYTES = 21,  /* the bytes are refused; the fault says by what */
    SBLOG_NODE_UNREADY = 22, /* not now */
    SBLOG_NODE_LIMIT = 23,  /* a limit, me, n or an incarnation is out of its range; of tick, too many messages */
    SBLOG_NODE_LEFT = 24    /* no call of the handler leaves this array and record */
};

const char *sblog_node_code_text(uint32_t code);

enum sblog_node_stage {
    SBLOG_NODE_UP = 0,
    SBLOG_NODE_BUSY = 1,
    SBLOG_NODE_FROZEN = 2,
    SBLOG_NODE_COLLECTING = 3,
    SBLOG_NODE_REPLAYING = 4,
    SBLOG_NODE_RESUMING = 5
};

/* How a node stands. However long it runs, receipts and replays together are at most 65536, packets at most 4096, and
   entries at most 64425558016: 16 for each of the receipts, besides 2^32 for each of 15 peers. */
typedef struct {
    uint64_t length;      /* messages that it received */
    uint64_t base;        /* of these, that its checkpoint covers */
    uint64_t incarnation;
    uint64_t stage;       /* enum sblog_node_stage */
    uint64_t exact;       /* 1 where failures came one at a time, as far as it knows, else 0 */
    uint64_t receipts;    /* messages behind the checkpoint */
    uint64_t entries;     /* messages that its log keeps */
    uint64_t packets;     /* packets that wait to be taken */
    uint64_t replays;     /* messages that it still has to replay */
    uint64_t waited_for;  /* peers whose answers it waits for: bit q of peer q */
} sblog_standing;

/* A call of the handler that is next, for whoever makes it outside. */
typedef struct {
    uint64_t incarnation; /* which call it is: of this incarnation, */
    uint64_t received;    /* with so many messages received before */
    uint64_t message_len; /* bytes of the message, at the array's front: of form 1 64, else at most 256 */
    uint64_t me;          /* as which process it is called, */
    uint64_t from;        /* by whose message, */
    uint64_t count;       /* of how many processes */
} sblog_job;

/* What a program holds of a node: zeros are a closed handle, sblog_node node = {0}. A program writes no other
   bytes into it, and makes no copy of an open one. */
typedef struct {
    void *at;
    bool held;
} sblog_node;

#ifdef __cplusplus
#define SBLOG_NODE_ASSERT(holds, why) static_assert(holds, why)
#else
#define SBLOG_NODE_ASSERT(holds, why) _Static_assert(holds, why)
#endif
SBLOG_NODE_ASSERT(sizeof(sblog_standing) == 80, "size of sblog_standing");
SBLOG_NODE_ASSERT(offsetof(sblog_standing, length) == 0, "place of length");
SBLOG_NODE_ASSERT(offsetof(sblog_standing, base) == 8, "place of base");
SBLOG_NODE_ASSERT(offsetof(sblog_standing, incarnation) == 16, "place of incarnation");
SBLOG_NODE_ASSERT(offsetof(sblog_standing, stage) == 24, "place of stage");
SBLOG_NODE_ASSERT(offsetof(sblog_standing, exact) == 32, "place of exact");
SBLOG_NODE_ASSERT(offsetof(sblog_standing, receipts) == 40, "place of receipts");
SBLOG_NODE_ASSERT(offsetof(sblog_standing, entries) == 48, "place of entries");
SBLOG_NODE_ASSERT(offsetof(sblog_standing, packets) == 56, "place of packets");
SBLOG_NODE_ASSERT(offsetof(sblog_standing, replays) == 64, "place of replays");
SBLOG_NODE_ASSERT(offsetof(sblog_standing, waited_for) == 72, "place of waited_for");
SBLOG_NODE_ASSERT(sizeof(sblog_job) == 48, "size of sblog_job");
SBLOG_NODE_ASSERT(offsetof(sblog_job, incarnation) == 0, "place of incarnation");
SBLOG_NODE_ASSERT(offsetof(sblog_job, received) == 8, "place of received");
SBLOG_NODE_ASSERT(offsetof(sblog_job, message_len) == 16, "place of message_len");
SBLOG_NODE_ASSERT(offsetof(sblog_job, me) == 24, "place of me");
SBLOG_NODE_ASSERT(offsetof(sblog_job, from) == 32, "place of from");
SBLOG_NODE_ASSERT(offsetof(sblog_job, count) == 40, "place of count");
SBLOG_NODE_ASSERT(sizeof(sblog_node) == 16, "size of sblog_node");
SBLOG_NODE_ASSERT(offsetof(sblog_node, at) == 0, "place of at");
SBLOG_NODE_ASSERT(offsetof(sblog_node, held) == 8, "place of held");
#undef SBLOG_NODE_ASSERT

/* The image may be of form 1, 2 or 3. The node keeps these limits until it is closed; another is refused (23):
   page      512 to 65535, the bytes of its largest packet; 60000 unless there is a reason
   tick      at least 1: how many packets for a peer one tick or one release makes; 8
   numbers   1 to 256: with so many that aren't acknowledged it takes no message; 256
   receipts  1 to 65536: nor with so many messages behind its checkpoint; 65536
   durable   0; or 1: what it sends leaves when a checkpoint that covers it is durable, and not before. */
uint32_t sblog_node_open(const uint8_t *image, size_t image_len, uint8_t me, uint8_t n, uint32_t page,
                         uint32_t tick, uint32_t numbers, uint32_t receipts, uint32_t durable,
                         sblog_node *node);
/* The same with this opening state in place of zeros; 21, if it isn't as long as the image's. */
uint32_t sblog_node_open_with(const uint8_t *image, size_t image_len, uint8_t me, uint8_t n, uint32_t page,
                              uint32_t tick, uint32_t numbers, uint32_t receipts, uint32_t durable,
                              const uint8_t *state, size_t state_len, sblog_node *node);
/* From what was kept, in an incarnation that is higher than any before it. */
uint32_t sblog_node_revive(const uint8_t *image, size_t image_len, const uint8_t *kept, size_t kept_len,
                           uint64_t incarnation, uint32_t page, uint32_t tick, uint32_t numbers,
                           uint32_t receipts, uint32_t durable, sblog_node *node, uint32_t *fault);
uint32_t sblog_node_close(sblog_node *node);
uint32_t sblog_node_receive(sblog_node *node, const uint8_t *packet, size_t packet_len, uint32_t *fault);
/* Each packet of a bundle came, in their order, and after each that is taken the handler runs, as by sblog_node_work: a node that
   works on a message takes no other one. A bundle is here what is after its head; other bytes are refused whole (21). */
uint32_t sblog_node_receive_all(sblog_node *node, const uint8_t *bundle, size_t bundle_len, sblog_tally *tally);
/* A packet to be sent, and to whom (0: the gateway); 20, if none waits. */
uint32_t sblog_node_take(sblog_node *node, uint8_t *out, size_t out_len, size_t *size, uint8_t *to);
/* The first packets to be sent, as many as go to one process and fit, as a bundle without its head: how many bytes and packets, and
   to whom; 20, if none waits, and 19, if the first one doesn't fit. */
uint32_t sblog_node_take_all(sblog_node *node, uint8_t *out, size_t out_len, size_t *size, uint8_t *to,
                             uint64_t *count);
/* The handler runs; 20, if there is nothing to work on. */
uint32_t sblog_node_work(sblog_node *node);
/* Or it runs outside of the node, as machine code. The array of the call that sblog_node_work would make (20: there is
   none), as machine code is called with it, how many bytes it has, and which call it is; the node stays as it was. */
uint32_t sblog_node_job(sblog_node *node, uint8_t *array, size_t array_len, size_t *size, sblog_job *job);
/* What that call left in its array and its record is taken in, whoever made it: nothing tests that it is what the handler
   answers. 22 where another call is next; 24 where no call leaves such bytes: the array or the record is too short, there
   are more than 8 messages or outputs, one is longer than 256 bytes or to no other process, or it was called as another. */
uint32_t sblog_node_done(sblog_node *node, uint64_t incarnation, uint64_t received, const uint8_t *array,
                         size_t array_len, const uint8_t *record, size_t record_len);
/* What isn't answered is sent again. If the node should have passed on to its next stage and can't, the answer is 15
   (memory was refused; the next tick tries again) or 23 (it would keep more messages than a node takes). */
uint32_t sblog_node_tick(sblog_node *node);
/* Bytes to be kept durably; 22 where it isn't up, works on a message, or waits for another checkpoint. */
uint32_t sblog_node_checkpoint(sblog_node *node, uint8_t *out, size_t out_len, size_t *size);
/* They are kept; 22 where it doesn't wait for that. */
uint32_t sblog_node_saved(sblog_node *node);
/* The whole node, to be kept while its program ends; 22 unless it is up, its last checkpoint is durable, and it received
   nothing since. The node stays open: close it, and don't send what it has still to give. */
uint32_t sblog_node_suspend(sblog_node *node, uint8_t *out, size_t out_len, size_t *size);
/* The node from these bytes as it was, in the same incarnation: it asks no peer, and none waits for it. Resume it once,
   and only if it did nothing since. Its limits are given anew. 21 with fault 1: these are the bytes of no suspended node;
   2: its state isn't as long as the image's. */
uint32_t sblog_node_resume(const uint8_t *image, size_t image_len, const uint8_t *suspended, size_t suspended_len,
                           uint32_t page, uint32_t tick, uint32_t numbers, uint32_t receipts, uint32_t durable,
                           sblog_node *node, uint32_t *fault);
uint32_t sblog_node_standing(sblog_node *node, sblog_standing *out);
/* How many sends and outputs its helpers refused in this life, by the code that the handler got: 1, to no other process; 2,
   more than 8 of a call; 3, of more than 256 bytes. 0 for any other code, and of a closed handle. Not counted are those of a
   replay, and of calls that sblog_node_done takes in, whose record doesn't tell. */
uint64_t sblog_node_refused(sblog_node *node, uint32_t code);
uint32_t sblog_node_state(sblog_node *node, uint8_t *out, size_t out_len, size_t *size);

#ifdef SBLOG_CALLS_CODE
/* Calls machine code on a job's array, which sblog_node_job wrote, and answers r0, or a code as above: C of the program's
   own. */
static inline uint64_t sblog_native_call_job(sblog_native_code code, uint8_t *array, const sblog_job *job,
                                             uint8_t *record) {
    const uint64_t front[6] = {0, 0, 0, job->me, job->from, job->count};
    const uint32_t fault = sblog_native_fault(code, job->me, job->from, job->message_len, 0);
    memcpy(record, front, sizeof front);
    return fault == SBLOG_DONE ? code(array, record, job->message_len) : fault;
}
#endif

#endif

#ifdef __cplusplus
}
#endif

#endif
#endif
