/*
 * A counter on processes 1 and 2. What comes from the outside is added, and the sum sent to the peer; the peer keeps
 * that sum and sends it back as an echo; the echo says that the peer has it. State: 16 bytes, the sum and what the peer has.
 */
#include "sblog.h"

enum { SUM, ECHO };

struct counter {
	u64 sum;
	u64 at_peer;
};

u64 replicated(const struct message *message, struct counter *counter)
{
	u64 from = sender();
	u64 word = message->words[0];
	if (from != 0 && message->words[1] == ECHO) {
		counter->at_peer = word;
		return 0;
	}
	u64 sum = from == 0 ? counter->sum + word : word;
	counter->sum = sum;
	struct message payload = { { sum, from == 0 ? SUM : ECHO } };
	return send(3 - me(), &payload);
}
