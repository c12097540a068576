/*
 * Lets three messages of each client pass in ten ticks, and gives those as outputs. A message has the client's number,
 * 0 to 7, and the time in ticks. State: 64 bytes, a table of eight words: the latest ten ticks of the client, times four,
 * and how many of its messages passed in them.
 */
#include "sblog.h"

enum { CLIENTS = 8, TICKS = 10, LIMIT = 3 };

/* All ones in the row of the client, else nothing. */
static inline __attribute__((always_inline)) u64 mask_of(u64 row, u64 client)
{
	hide(client);
	u64 mask = -(u64)(row == client);
	hide(mask);
	return mask;
}

u64 limiter(const struct message *message, u64 *table)
{
	u64 client = message->words[0];
	u64 fresh = message->words[1] / TICKS * 4;
	u64 kept = 0;
	/* A place moves by constants alone: so each row is looked at, and each is written, with what it has or what is new. */
#pragma unroll
	for (u64 row = 0; row < CLIENTS; row++)
		kept |= table[row] & mask_of(row, client);
	u64 passed = kept / 4 == fresh / 4 ? kept : fresh;
	u64 passes = client < CLIENTS && passed % 4 < LIMIT;
	u64 next = passed + passes;
#pragma unroll
	for (u64 row = 0; row < CLIENTS; row++) {
		u64 mask = mask_of(row, client);
		table[row] = (next & mask) | (table[row] & ~mask);
	}
	if (passes)
		output(message);
	return 0;
}
