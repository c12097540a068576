/* Lines on standard error: for people, or for programs that gather them. */
#ifndef LOG_H
#define LOG_H

#include <stdbool.h>
#include <stddef.h>
#include <stdint.h>

/* For people; key=value pairs; an object of JSON. */
enum log_form { LOG_PEOPLE, LOG_PAIRS, LOG_JSON };

/* What ends the program or a call; what it goes on after, and a person may look at; what is as it should be. */
enum level { LEVEL_ERROR, LEVEL_WARNING, LEVEL_INFO };

struct figure {
    const char *name;
    uint64_t value;
    const char *word; /* in a line, where a word says more than the value */
    const char *help;
    bool is_total; /* it only grows */
};

struct log_line {
    enum level level;
    const char *event;    /* a word that stays the same */
    const char *process;  /* null while that isn't known */
    const char *sentence; /* null: the figures say all */
    const struct figure *figures;
    size_t count;
};

/* Writes it at once. */
void log_write(enum log_form form, const struct log_line *line);

#endif
