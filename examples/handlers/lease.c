/* A lease that one process holds until it ends; who asks is told who holds it. State 24. */
#include "sblog_handler.h"

enum { LONGEST = 1000 };

struct lease {
	u64 holder, until, renewals;
};

struct ask {
	u64 now, span;
};

struct answer {
	u64 granted, holder, until;
};

u64 lease(const struct ask *ask, struct lease *lease, u64 length)
{
	u64 from = sender();
	struct answer answer = { 0 };
	if (ask->span <= LONGEST && (lease->holder == from || ask->now >= lease->until)) {
		if (lease->holder == from)
			lease->renewals++;
		lease->holder = from;
		lease->until = ask->now + ask->span;
		answer.granted = 1;
	}
	answer.holder = lease->holder;
	answer.until = lease->until;
	send(from, &answer, sizeof answer);
	return 0;
}
