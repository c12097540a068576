/* Makes the state of a counter whose numbers have 32 bits of that of one whose numbers have 64. State 8. */
#include "counter.h"

u64 shrink(const struct wide *old, struct narrow *state, u64 length)
{
	if (length != sizeof *old)
		return 1;
	state->sum = old->sum;
	state->count = old->count;
	return 0;
}
