#include "request.h"

#include "report.h"

static const char *const WORDS[] = {
    [REFUSAL_VERSION] = "the frames are of another version",
    [REFUSAL_LENGTH] = "a frame has 10 to 266 bytes after its length",
    [REFUSAL_KIND] = "a program sends no such frame",
    [REFUSAL_FIELD] = "what such a frame doesn't have isn't zero",
    [REFUSAL_PROCESS] = "no process has this name",
    [REFUSAL_SSN] = "the SSN is above the next one",
    [REFUSAL_OTHER] = "another program takes the outputs",
    [REFUSAL_NO_CONSUMER] = "this program takes no outputs",
    [REFUSAL_NO_OUTPUT] = "no output has this SSN yet",
    [REFUSAL_LINE] = "a line is: bytes NAME HEX, input NAME WORD, outputs, or: took NAME SSN",
    [REFUSAL_LONG_LINE] = "a line is too long",
    [REFUSAL_ZERO_BYTE] = "a line has a zero byte",
    [REFUSAL_ODD_HEX] = "HEX has two digits a byte",
    [REFUSAL_HEX] = "HEX has the digits 0 to 9 and a to f",
    [REFUSAL_LONG_MESSAGE] = "a message has at most 256 bytes",
    [REFUSAL_WORD] = "WORD is a number below 2^64",
    [REFUSAL_SSN_WORD] = "SSN is a number below 2^64",
    [REFUSAL_ID] = "an id has 1 to 64 bytes",
};

bool refusal_ends(enum refusal why) { return why >= REFUSAL_VERSION && why <= REFUSAL_FIELD; }

const char *refusal_words(uint32_t why) {
    const char *words = why < sizeof WORDS / sizeof *WORDS ? WORDS[why] : NULL;
    return words ? words : code_words(why);
}
