/* Makes the state of a counter whose numbers have 64 bits of that of one whose numbers have 32. State 16. */
#include "counter.h"

u64 widen(const struct narrow *old, struct wide *state, u64 length)
{
	if (length != sizeof *old)
		return 1;
	state->sum = old->sum;
	state->count = old->count;
	return 0;
}
