#include "numbers.h"

#include <inttypes.h>
#include <stdio.h>

enum { MOST_BITS = 62 }; /* so that no sum comes to 2^63, the library's limit */

uint64_t numbers_input(const struct numbers *before, int process, uint64_t ssn) { return before->inputs[process] + ssn; }

uint64_t numbers_output(const struct numbers *before, int process, uint64_t ssn) { return before->outputs[process] + ssn; }

char *numbers_write(const struct numbers *before, char *at) {
    for (int p = 1; p <= PROCESS_LIMIT; p++)
        if (before->inputs[p] > 0 || before->outputs[p] > 0)
            at += sprintf(at, "before %d %" PRIu64 " %" PRIu64 "\n", p, before->inputs[p], before->outputs[p]);
    return at;
}

bool numbers_read(const char *line, struct numbers *before) {
    uint64_t inputs, outputs;
    int process, end = 0;
    int count = sscanf(line, "before %d %" SCNu64 " %" SCNu64 "%n", &process, &inputs, &outputs, &end);
    if (count != 3 || (line[end] && line[end] != '\n') || process < 1 || process > PROCESS_LIMIT || (inputs | outputs) >> MOST_BITS) return false;
    before->inputs[process] = inputs;
    before->outputs[process] = outputs;
    return true;
}
