/* A hash table of 32 entries, probed eight times at most; a key alone asks for its value. State 512. */
#include "sblog_handler.h"

enum { ENTRIES = 32, PROBES = 8 };

struct entry {
	u64 key, value;
};

u64 table(const struct entry *message, struct entry *entries, u64 length)
{
	u64 hash = (message->key * 0x9e3779b97f4a7c15ull) >> 59;
	unrolled
	for (u64 i = 0; i < PROBES; i++) {
		struct entry *entry = &entries[(hash + i) % ENTRIES];
		if (entry->key != message->key && entry->key != 0)
			continue;
		if (length < sizeof *message)
			return output(&entry->value, sizeof entry->value);
		entry->key = message->key;
		entry->value = message->value;
		return 0;
	}
	return 1;
}
