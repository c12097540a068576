/* A token bucket for each of 32 clients: what it may have is put out. State 512. */
#include "sblog_handler.h"

enum { CLIENTS = 32, RATE = 5, BURST = 100 };

struct bucket {
	u64 tokens, last;
};

struct request {
	u64 client, now, cost;
};

u64 bucket(const struct request *request, struct bucket *buckets, u64 length)
{
	if (request->client >= CLIENTS)
		return 1;
	struct bucket *bucket = &buckets[request->client];
	u64 now = request->now;
	if (now > bucket->last) {
		u64 tokens = bucket->tokens + (now - bucket->last) * RATE;
		bucket->tokens = tokens > BURST ? BURST : tokens;
		bucket->last = now;
	}
	if (bucket->tokens < request->cost)
		return 2;
	bucket->tokens -= request->cost;
	output(request, length);
	return 0;
}
