#include "log.h"

#include "text.h"

#include <inttypes.h>
#include <stdbool.h>
#include <stdio.h>
#include <string.h>
#include <time.h>
#include <unistd.h>

enum { THOUSAND = 1000 };

static const char *const LEVELS[] = {"error", "warning", "info"};

/* How many bytes the next character has as UTF-8 spells it; 0 where none is spelled. */
static int character(const unsigned char *at) {
    int size = at[0] < 0x80 ? 1 : at[0] < 0xc2 ? 0 : at[0] < 0xe0 ? 2 : at[0] < 0xf0 ? 3 : at[0] < 0xf5 ? 4 : 0;
    for (int i = 1; i < size; i++)
        if ((at[i] & 0xc0) != 0x80) return 0;
    bool is_short = (at[0] == 0xe0 && at[1] < 0xa0) || (at[0] == 0xf0 && at[1] < 0x90);
    bool is_beyond = (at[0] == 0xed && at[1] >= 0xa0) || (at[0] == 0xf4 && at[1] >= 0x90);
    return is_short || is_beyond ? 0 : size;
}

/* A text in quotes, as JSON has it. A byte that is no character's is one that says so. */
static void add_quoted(struct text *text, const char *word) {
    text_add(text, "\"");
    for (const unsigned char *at = (const unsigned char *)word; *at;) {
        int size = character(at);
        if (size == 0) text_add(text, "\\ufffd");
        else if (*at < ' ' || *at == 127) text_add(text, "\\u%04x", *at);
        else if (*at == '"' || *at == '\\') text_add(text, "\\%c", *at);
        else text_add(text, "%.*s", size, (const char *)at);
        at += size > 0 ? size : 1;
    }
    text_add(text, "\"");
}

/* The name of a field, after those before it. */
static void add_name(struct text *text, enum log_form form, const char *name) {
    if (form == LOG_JSON) text_add(text, "%s\"%s\":", text->size > 1 ? "," : "", name);
    else text_add(text, "%s%s=", text->size > 0 ? " " : "", name);
}

static void add_word(struct text *text, enum log_form form, const char *name, const char *word) {
    bool is_plain = form == LOG_PAIRS && *word && strcspn(word, " =\"\\") == strlen(word) && strlen(word) <= 32;
    for (const char *at = word; is_plain && *at; at++) is_plain = *at > ' ' && *at < 127;
    add_name(text, form, name);
    if (is_plain) text_add(text, "%s", word);
    else add_quoted(text, word);
}

static void add_time(struct text *text, enum log_form form) {
    char day[32], all[64];
    struct timespec now;
    struct tm parts;
    clock_gettime(CLOCK_REALTIME, &now);
    strftime(day, sizeof day, "%Y-%m-%dT%H:%M:%S", gmtime_r(&now.tv_sec, &parts));
    snprintf(all, sizeof all, "%s.%06ldZ", day, now.tv_nsec / THOUSAND);
    add_word(text, form, "time", all);
}

static void for_programs(struct text *text, enum log_form form, const struct log_line *line) {
    if (form == LOG_JSON) text_add(text, "{");
    add_time(text, form);
    add_word(text, form, "level", LEVELS[line->level]);
    if (line->process) add_word(text, form, "process", line->process);
    add_word(text, form, "event", line->event);
    if (line->sentence) add_word(text, form, "message", line->sentence);
    for (size_t i = 0; i < line->count; i++) {
        const struct figure *figure = &line->figures[i];
        if (figure->word) {
            add_word(text, form, figure->name, figure->word);
            continue;
        }
        add_name(text, form, figure->name);
        text_add(text, "%" PRIu64, figure->value);
    }
    if (form == LOG_JSON) text_add(text, "}");
}

/* A sentence says what its figures say; figures alone are a line of words and numbers. */
static void for_people(struct text *text, const struct log_line *line) {
    if (line->sentence) {
        text_add(text, "sblog-node: %s%s%s", line->process ? line->process : "", line->process ? ": " : "", line->sentence);
        return;
    }
    text_add(text, "%s %s", line->event, line->process);
    for (size_t i = 0; i < line->count; i++) {
        const struct figure *figure = &line->figures[i];
        if (figure->word) text_add(text, " %s %s", figure->name, figure->word);
        else text_add(text, " %s %" PRIu64, figure->name, figure->value);
    }
}

void log_write(enum log_form form, const struct log_line *line) {
    struct text text;
    text.size = 0;
    if (form == LOG_PEOPLE) for_people(&text, line);
    else for_programs(&text, form, line);
    text.bytes[text.size++] = '\n';
    for (size_t from = 0; from < text.size;) {
        ssize_t count = write(STDERR_FILENO, text.bytes + from, text.size - from);
        if (count <= 0) return;
        from += (size_t)count;
    }
}
