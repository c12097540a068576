/* Sentences for people, on standard error, and what the program ends with. */
#ifndef REPORT_H
#define REPORT_H

#include "log.h"

#include <stdint.h>

enum status {
    STATUS_DONE = 0,
    STATUS_UNDER_WAY = 1, /* a state was exported, or another cluster is to go on, and messages are under way */
    STATUS_COMMAND = 2, /* a command line that isn't taken */
    STATUS_IMAGE = 3,   /* a refused image */
    STATUS_CLUSTER = 4, /* a refused cluster file */
    STATUS_MEMORY = 5,
    STATUS_IO = 6,   /* input and output: files, sockets, the store */
    STATUS_STORE = 7 /* the store isn't this process's, is in use, or was claimed by another life */
};

/* The status stays the first one that isn't done. */
void status_first(int *status, int next);

/* Who speaks, once that is known; and in which form. */
void report_as(const char *name);
void report_in(enum log_form form);

/* Says a sentence of what ends the program, or makes a call fail. */
void report(const char *format, ...) __attribute__((format(printf, 1, 2)));

/* The same, and what the system says of the last fault. */
void report_fault(const char *format, ...) __attribute__((format(printf, 1, 2)));

/* Says that something came to pass, by a word that stays the same, and a sentence. */
void report_event(enum level level, const char *event, const char *format, ...) __attribute__((format(printf, 3, 4)));

/* The same, by figures: with a sentence for people, or as a line of their own if that is null. */
void report_figures(const char *event, const char *sentence, const struct figure *figures, size_t count);

/* What a code of the library says, in words. */
const char *code_words(uint32_t code);

/* The status that a code of the library ends the program with. */
enum status code_status(uint32_t code);

/* Says why a call of the library that has to be taken isn't; a status. */
int code_refused(const char *call, uint32_t code, uint32_t fault);

#endif
