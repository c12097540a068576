/* Opens an image that adds numbers, and calls its handler by each number that it is given. */
#include <inttypes.h>
#include <stdio.h>
#include <stdlib.h>

#include "sblog.h"

/* r3 = message[0..8]; r4 = state[0..8]; r4 += r3; state[0..8] = r4; r0 = 0; exit */
static const uint8_t adder[] = {
    'S', 'B', 'I', '1', 8, 0, 6, 0,
    0x79, 0x13, 0, 0, 0, 0, 0, 0,
    0x79, 0x24, 0, 0, 0, 0, 0, 0,
    0x0f, 0x34, 0, 0, 0, 0, 0, 0,
    0x7b, 0x42, 0, 0, 0, 0, 0, 0,
    0xb7, 0x00, 0, 0, 0, 0, 0, 0,
    0x95, 0x00, 0, 0, 0, 0, 0, 0,
};

/* Says why a file is refused. */
static void explain(const uint8_t *file, size_t file_len) {
    uint8_t fault[SBLOG_FAULT_SIZE];
    uint32_t code = sblog_check(file, file_len, fault, sizeof fault);
    if (code == SBLOG_CODE || code == SBLOG_RULES)
        printf("rule %" PRIu64 " at slot %" PRIu64 "\n", sblog_number(fault), sblog_number(fault + 8));
}

int main(int argc, char **argv) {
    sblog_handle *handle = NULL;
    if (sblog_open(adder, sizeof adder, &handle) != SBLOG_DONE) {
        explain(adder, sizeof adder);
        return 1;
    }
    size_t state_len = sblog_state_len(handle);
    uint8_t *state = (uint8_t *)calloc(state_len, 1);
    if (state == NULL) return 1;
    uint32_t code = SBLOG_DONE;
    for (int i = 1; i < argc && code == SBLOG_DONE; i++) {
        uint64_t word = strtoull(argv[i], NULL, 10);
        uint8_t message[SBLOG_MESSAGE_SIZE] = {0}, report[SBLOG_REPORT_LIMIT];
        for (int k = 0; k < 8; k++) message[k] = (uint8_t)(word >> 8 * k);
        /* process 1 of 1 is called by the outside */
        code = sblog_run(handle, state, state_len, message, sizeof message, 1, 0, 1, report, sizeof report);
        if (code == SBLOG_DONE)
            printf("state %" PRIu64 ", r0 %" PRIu64 ", %" PRIu64 " instructions\n", sblog_number(state),
                   sblog_number(report), sblog_number(report + 8));
    }
    free(state);
    sblog_close(handle);
    return code != SBLOG_DONE;
}
