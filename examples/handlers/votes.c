/* Votes of up to 15 processes for one of ten candidates, each counted once; the eighth decides. State 96. */
#include "sblog_handler.h"

enum { CANDIDATES = 10, ENOUGH = 8 };

struct votes {
	u64 voted, count[CANDIDATES], done;
};

u64 votes(const u64 *message, struct votes *votes, u64 length)
{
	u64 candidate = message[0];
	u64 voter = 1ull << sender();
	if (candidate >= CANDIDATES || (votes->voted & voter))
		return 1;
	votes->voted |= voter;
	if (++votes->count[candidate] >= ENOUGH && !votes->done) {
		votes->done = 1;
		output(&candidate, sizeof candidate);
	}
	return 0;
}
