/* A store of 100 values by their keys, each order answered by an output. State 800. */
#include "sblog_handler.h"

enum { KEYS = 100, PUT = 1 };

struct order {
	u32 kind, key;
	u64 value;
};

struct answer {
	u32 key, refused;
	u64 value;
};

u64 store(const struct order *order, u64 *values, u64 length)
{
	struct answer answer = { order->key, 0, 0 };
	if (order->key >= KEYS) {
		answer.refused = 1;
	} else {
		if (order->kind == PUT)
			values[order->key] = order->value;
		answer.value = values[order->key];
	}
	output(&answer, sizeof answer);
	return 0;
}
