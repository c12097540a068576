/*
 * Books transfers. One that comes from outside is taken off its account, where that has the funds, and goes to the fraud
 * check; what comes back from there is booked, or returned, and goes to the notifier. State: 64 bytes, eight balances.
 */
#include "bank.h"

u64 ledger(const struct message *transfer, u64 *balances)
{
	struct message next = *transfer;
	u64 from = next.words[FROM], to = next.words[TO], amount = next.words[AMOUNT];
	u64 comes_back = sender() == FRAUD;
	u64 funds = from >= ACCOUNTS ? amount : 0;
#pragma unroll
	for (u64 row = 0; row < ACCOUNTS; row++)
		funds |= balances[row] & mask_of(row, from);
	u64 is_covered = funds >= amount;
	hide(is_covered);
	u64 verdict = comes_back ? next.words[VERDICT] : is_covered ? BOOKED : NO_FUNDS;
	hide(verdict);
	u64 taken = !comes_back && verdict == BOOKED ? amount : 0;
	u64 given = comes_back && verdict != NO_FUNDS ? amount : 0;
	u64 receiver = verdict == SUSPECT ? from : to;
	hide(taken);
	hide(given);
	hide(receiver);
#pragma unroll
	for (u64 row = 0; row < ACCOUNTS; row++)
		balances[row] += (given & mask_of(row, receiver)) - (taken & mask_of(row, from));
	next.words[VERDICT] = verdict;
	settle();
	send(comes_back ? NOTIFIER : FRAUD, &next);
	return 0;
}
