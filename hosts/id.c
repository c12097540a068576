#include "id.h"

#include "report.h"

#include <stdio.h>
#include <string.h>
#include <sys/random.h>

int id_draw(struct id *id) {
    if (getrandom(id->bytes, sizeof id->bytes, 0) == sizeof id->bytes) return STATUS_DONE;
    report_fault("random bytes");
    return STATUS_IO;
}

bool id_is(const struct id *one, const struct id *other) { return !memcmp(one->bytes, other->bytes, ID_BYTES); }

bool id_is_none(const struct id *id) { return id_is(id, &(struct id){{0}}); }

void id_text(const struct id *id, char text[ID_TEXT]) {
    for (int i = 0; i < ID_BYTES; i++) sprintf(text + 2 * i, "%02x", id->bytes[i]);
}

bool id_read(const char *text, struct id *id) {
    if (strlen(text) != ID_TEXT - 1 || strspn(text, "0123456789abcdef") != ID_TEXT - 1) return false;
    for (int i = 0; i < ID_BYTES; i++) sscanf(text + 2 * i, "%2hhx", &id->bytes[i]);
    return !id_is_none(id);
}
