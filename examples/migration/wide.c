/* Adds each message's first 8 bytes to a sum, and puts sum and count out as numbers of 64 bits. Its own have as many. State 16. */
#include "counter.h"

u64 wide(const u64 *message, struct wide *state, u64 length)
{
	state->sum += *message;
	state->count++;
	return output(state, sizeof *state);
}
