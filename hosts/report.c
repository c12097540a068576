#include "report.h"

#include <errno.h>
#include <sblog.h>
#include <stdarg.h>
#include <stdio.h>
#include <string.h>

static const char *speaker;
static enum log_form form;

void report_as(const char *name) { speaker = name; }

void report_in(enum log_form wanted) { form = wanted; }

static void sentence(enum level level, const char *event, const char *cause, const char *format, va_list arguments) {
    char text[1024];
    int size = vsnprintf(text, sizeof text, format, arguments);
    if (size >= (int)sizeof text) size = sizeof text - 1;
    if (cause) snprintf(text + size, sizeof text - (size_t)size, ": %s", cause);
    log_write(form, &(struct log_line){.level = level, .event = event, .process = speaker, .sentence = text});
}

void report(const char *format, ...) {
    va_list arguments;
    va_start(arguments, format);
    sentence(LEVEL_ERROR, "fault", NULL, format, arguments);
    va_end(arguments);
}

void report_fault(const char *format, ...) {
    const char *cause = strerror(errno);
    va_list arguments;
    va_start(arguments, format);
    sentence(LEVEL_ERROR, "fault", cause, format, arguments);
    va_end(arguments);
}

void report_event(enum level level, const char *event, const char *format, ...) {
    va_list arguments;
    va_start(arguments, format);
    sentence(level, event, NULL, format, arguments);
    va_end(arguments);
}

void report_figures(const char *event, const char *text, const struct figure *figures, size_t count) {
    log_write(form, &(struct log_line){.level = LEVEL_INFO, .event = event, .process = speaker, .sentence = text, .figures = figures,
                                       .count = count});
}

void status_first(int *status, int next) {
    if (*status == STATUS_DONE) *status = next;
}

const char *code_words(uint32_t code) {
    switch (code) {
    case SBLOG_NODE_MEMORY: return "there is no memory";
    case SBLOG_NODE_HANDLE: return "the handle is closed, or open already";
    case SBLOG_NODE_IMAGE: return "the file is no image, as sblog check says";
    case SBLOG_GATEWAY_PAYLOAD: return "a payload has more than 256 bytes";
    case SBLOG_NODE_ROOM: return "a buffer is too short";
    case SBLOG_NODE_ABSENT: return "there is none";
    case SBLOG_NODE_BYTES: return "the bytes are refused";
    case SBLOG_NODE_UNREADY: return "not now";
    case SBLOG_NODE_LIMIT: return "a limit is out of this library's range";
    default: return "an unknown code";
    }
}

enum status code_status(uint32_t code) {
    if (code == SBLOG_NODE_MEMORY) return STATUS_MEMORY;
    if (code == SBLOG_NODE_IMAGE) return STATUS_IMAGE;
    return code == SBLOG_NODE_BYTES ? STATUS_STORE : STATUS_COMMAND;
}

int code_refused(const char *call, uint32_t code, uint32_t fault) {
    if (code == SBLOG_NODE_BYTES) report("%s: %s: fault %u", call, code_words(code), fault);
    else report("%s: %s", call, code_words(code));
    return code_status(code);
}
