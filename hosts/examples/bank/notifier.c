/*
 * Gives a receipt of each transfer out. State: 24 bytes, how many receipts there were, what was booked, and what wasn't.
 */
#include "bank.h"

u64 notifier(const struct message *transfer, u64 *totals)
{
	struct message receipt = *transfer;
	u64 is_booked = -(u64)(receipt.words[VERDICT] == BOOKED);
	hide(is_booked);
	totals[0]++;
	totals[1] += receipt.words[AMOUNT] & is_booked;
	totals[2] += receipt.words[AMOUNT] & ~is_booked;
	receipt.words[RECEIPT] = totals[0];
	settle();
	output(&receipt);
	return 0;
}
