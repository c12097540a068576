/* Adds each message's first 8 bytes to a sum, and puts sum and count out as numbers of 64 bits. Its own have 32. State 8. */
#include "counter.h"

u64 narrow(const u64 *message, struct narrow *state, u64 length)
{
	state->sum += *message;
	state->count++;
	struct wide out = {state->sum, state->count};
	return output(&out, sizeof out);
}
