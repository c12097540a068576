#include "answers.h"

#include "report.h"

#include <inttypes.h>
#include <string.h>

struct answer *answers_add(struct answers *answers, struct client *client, const struct request *request, uint32_t why) {
    struct answer *answer = &answers->all[answers->count++];
    *answer = (struct answer){.client = client, .serial = client->serial, .number = client->requests, .why = why,
                              .process = request->process};
    strcpy(answer->id, request->id);
    return answer;
}

void answer_give(const struct answer *answer, const struct cluster *cluster, bool is_pipe) {
    struct client *client = answer->client;
    bool is_refused = answer->why != REFUSAL_NONE;
    if (client->serial != answer->serial) return;
    client->promised--;
    if (is_refused && is_pipe) report_event(LEVEL_WARNING, "line", "line %" PRIu64 ": %s", answer->number, refusal_words(answer->why));
    else client_reply(client, cluster, &(struct reply){.verb = is_refused ? VERB_REFUSED : VERB_LOGGED, .process = answer->process,
                                                       .number = answer->number, .why = answer->why, .id = answer->id});
}
