/* Keeps the greatest version of a value, and tells it to two peers that a hash chooses of ten. State 24. */
#include "sblog_handler.h"

struct item {
	u64 version, value, hops;
};

u64 gossip(const struct item *message, struct item *item, u64 length)
{
	if (length < sizeof *message || message->version <= item->version)
		return 1;
	*item = *message;
	item->hops++;
	u64 hash = message->version * 0x9e3779b97f4a7c15ull ^ me();
	send(1 + hash % 10, item, sizeof *item);
	send(1 + (hash >> 32) % 10, item, sizeof *item);
	return 0;
}
