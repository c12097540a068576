/*
 * Form 2: adds the first word of each message that has one, and gives the whole message back, of whatever length.
 * State: 8 bytes, the sum.
 */
#include "sblog.h"

u64 sized(const u8 *message, u64 *state, u64 length)
{
	if (length >= 8)
		state[0] += *(const u64 *)message;
	return output_sized(message, length);
}
