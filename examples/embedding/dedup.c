/* Opens the image of a handler in ordinary C, examples/handlers/dedup.c, and calls it by one number after another:
   a number below one that was there before is dropped, and any other put out. */
#include <inttypes.h>
#include <stdio.h>
#include <stdlib.h>

#include "sblog.h"

static size_t read_file(const char *name, uint8_t *bytes, size_t most) {
    FILE *file = fopen(name, "rb");
    if (file == NULL) return 0;
    size_t len = fread(bytes, 1, most, file);
    fclose(file);
    return len;
}

int main(int argc, char **argv) {
    static uint8_t file[8 + 8 * 1024], state[1024];
    size_t len = argc > 1 ? read_file(argv[1], file, sizeof file) : 0;
    sblog_handle *handle = NULL;
    uint32_t code = sblog_open(file, len, &handle);
    for (int i = 2; i < argc && code == SBLOG_DONE; i++) {
        uint64_t number = strtoull(argv[i], NULL, 10);
        uint8_t message[SBLOG_MESSAGE_SIZE] = {0}, report[SBLOG_REPORT_LIMIT];
        for (int k = 0; k < 8; k++) message[k] = (uint8_t)(number >> 8 * k);
        code = sblog_run(handle, state, sblog_state_len(handle), message, sizeof message, 1, 0, 1, report, sizeof report);
        if (code == SBLOG_DONE)
            printf("%" PRIu64 " is %s, the next is %" PRIu64 "\n", number,
                   sblog_number(report + 24) == 0 ? "dropped" : "put out", sblog_number(state));
    }
    sblog_close(handle);
    if (code != SBLOG_DONE) fprintf(stderr, "code %" PRIu32 "\n", code);
    return code != SBLOG_DONE;
}
