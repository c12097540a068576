/* Two-phase commit of eight transactions: collects the votes of processes 2 to 4, and tells all. State 128. */
#include "sblog_handler.h"

enum { TRANSACTIONS = 8, VOTERS = 0x1c };

struct transaction {
	u32 asked, yes;
	u64 value;
};

struct vote {
	u32 transaction, yes;
	u64 value;
};

struct decision {
	u64 transaction, commit;
};

u64 two_phase(const struct vote *vote, struct transaction *transactions, u64 length)
{
	if (length < sizeof *vote || vote->transaction >= TRANSACTIONS)
		return 1;
	struct transaction *it = &transactions[vote->transaction];
	u64 from = sender();
	if (from == 0) {
		it->asked = VOTERS;
		it->yes = 0;
		it->value = vote->value;
		return 0;
	}
	if (vote->yes)
		it->yes |= 1 << from;
	it->asked &= ~(1 << from);
	if (it->asked == 0) {
		struct decision decision = { vote->transaction, it->yes == VOTERS };
		unrolled
		for (int process = 2; process <= 4; process++)
			send(process, &decision, sizeof decision);
		output(&it->value, sizeof it->value);
	}
	return 0;
}
