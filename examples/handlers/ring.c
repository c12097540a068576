/* A ring of 21 words: the oldest is put out where the ring is full. State 176. */
#include "sblog_handler.h"

enum { PLACES = 21 };

struct ring {
	u32 head, tail;
	u64 word[PLACES];
};

u64 ring(const u64 *message, struct ring *ring, u64 length)
{
	if (ring->head >= PLACES)
		return 1;
	ring->word[ring->head] = message[0];
	u32 next = ring->head + 1;
	if (next == PLACES)
		next = 0;
	ring->head = next;
	if (next == ring->tail) {
		u32 tail = ring->tail;
		if (tail >= PLACES)
			return 2;
		output(&ring->word[tail], sizeof ring->word[tail]);
		ring->tail = tail == PLACES - 1 ? 0 : tail + 1;
	}
	return 0;
}
