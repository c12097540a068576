/* Each sender numbers its messages; what came before is dropped, the rest is put out. State 128. */
#include "sblog_handler.h"

u64 dedup(const u64 *message, u64 *next, u64 length)
{
	u64 from = sender();
	if (length < 8 || message[0] < next[from])
		return 1;
	next[from] = message[0] + 1;
	output(message + 1, length - 8);
	return 0;
}
