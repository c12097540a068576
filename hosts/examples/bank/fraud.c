/*
 * Suspects each transfer of 500 or more behind the third of its account. State: 64 bytes, how many each account has made.
 */
#include "bank.h"

enum { LARGE = 500, TRUSTED = 3 };

u64 fraud(const struct message *transfer, u64 *made)
{
	struct message next = *transfer;
	u64 from = next.words[FROM], count = 0;
	u64 is_large = (next.words[AMOUNT] >= LARGE) & (next.words[VERDICT] == BOOKED);
	hide(is_large);
#pragma unroll
	for (u64 row = 0; row < ACCOUNTS; row++) {
		u64 mask = mask_of(row, from);
		made[row] += is_large & mask;
		count |= made[row] & mask;
	}
	u64 is_suspect = is_large & (count > TRUSTED);
	hide(is_suspect);
	next.words[VERDICT] |= is_suspect;
	settle();
	send(LEDGER, &next);
	return 0;
}
