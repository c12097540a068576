/* The helpers of form 3 for the processor, in place of sblog3.h, and a program that calls the handler HANDLER on the messages
 * of a file, one after another on one state of STATE bytes of zeros. For each it prints r0, a hash of the state, how much
 * was sent and output, and a hash of that. A message of the file is its sender, its length in two bytes, and its bytes. */
#define SBLOG_HANDLER_H
#include <stdio.h>
#include <string.h>

typedef unsigned char u8;
typedef unsigned short u16;
typedef unsigned int u32;
typedef unsigned long long u64;
typedef long long s64;
typedef int s32;

enum { ME = 1, COUNT = 15, EFFECTS = 8, PAYLOAD = 256 };

static u64 from, sends, outputs, sent, put_out;

static u64 hashed(u64 hash, const void *bytes, u64 length)
{
	for (u64 at = 0; at < length; at++)
		hash = (hash ^ ((const u8 *)bytes)[at]) * 0x100000001b3;
	return hash;
}

static u64 me(void)
{
	return ME;
}

static u64 sender(void)
{
	return from;
}

static u64 send(u64 destination, const void *payload, u64 length)
{
	u8 to = (u8)destination;
	if (destination < 1 || destination > COUNT || destination == ME)
		return 1;
	if (sends == EFFECTS)
		return 2;
	if (length > PAYLOAD)
		return 3;
	sends++;
	sent = hashed(hashed(sent, &to, 1), payload, length);
	return 0;
}

static u64 output(const void *payload, u64 length)
{
	if (outputs == EFFECTS)
		return 2;
	if (length > PAYLOAD)
		return 3;
	outputs++;
	put_out = hashed(put_out, payload, length);
	return 0;
}

#define unrolled
#define turn() asm volatile("")
#define within(index, most) do { if ((index) > (most)) return 0; } while (0)

u64 HANDLER();

int main(int count, char **words)
{
	static u8 message[2 * PAYLOAD] __attribute__((aligned(8))), state[STATE + 1] __attribute__((aligned(8)));
	u8 front[3];
	FILE *file = count == 2 ? fopen(words[1], "rb") : 0;
	if (!file)
		return 2;
	while (fread(front, 1, 3, file) == 3) {
		u64 length = front[1] + 256 * front[2];
		memset(message, 0, sizeof message);
		if (length > PAYLOAD || fread(message, 1, length, file) != length)
			return 2;
		from = front[0];
		sends = outputs = 0;
		sent = put_out = 0xcbf29ce484222325;
		u64 r0 = HANDLER(message, state, length);
		printf("%llu %llu %llu %llu %llu %llu\n", r0, hashed(0xcbf29ce484222325, state, STATE), sends, sent, outputs, put_out);
	}
	return 0;
}
