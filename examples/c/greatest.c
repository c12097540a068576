/* Keeps the greatest first word of the messages. State: 8 bytes. */
#include "sblog.h"

u64 greatest(const struct message *message, u64 *state)
{
	if (message->words[0] > state[0])
		state[0] = message->words[0];
	return 0;
}
