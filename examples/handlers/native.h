/* Handlers for the processor, in place of sblog_handler.h: cc -include native.h -DHANDLER=bank -DSTATE=1024 bank.c makes a
   program of the handler. It reads a file of calls from standard input, makes each of them on one state, and writes the
   file with what they answer: so a file that is right comes out as it was. */
#ifndef SBLOG_HANDLER_H
#define SBLOG_HANDLER_H
#include <stdio.h>
#include <string.h>

typedef unsigned char u8;
typedef unsigned short u16;
typedef unsigned int u32;
typedef unsigned long long u64;
typedef signed char s8;
typedef short s16;
typedef int s32;
typedef long long s64;

enum { ME = 1, PROCESSES = 15, EFFECTS = 8, PAYLOAD = 256 };

static u64 from, sends, outputs;

/* The lines of what a call sends and puts out; sends stand before outputs. */
static char sent[EFFECTS][600], put_out[EFFECTS][600];

static void write_hex(char *line, const u8 *bytes, u64 length)
{
	if (length == 0)
		strcpy(line, "-");
	for (u64 at = 0; at < length; at++)
		sprintf(line + 2 * at, "%02x", bytes[at]);
}

static inline u64 me(void)
{
	return ME;
}

static inline u64 sender(void)
{
	return from;
}

static inline u64 send(u64 process, const void *payload, u64 length)
{
	if (process < 1 || process > PROCESSES || process == ME)
		return 1;
	if (sends == EFFECTS)
		return 2;
	if (length > PAYLOAD)
		return 3;
	char *line = sent[sends++];
	write_hex(line + sprintf(line, "send %llu ", process), payload, length);
	return 0;
}

static inline u64 output(const void *payload, u64 length)
{
	if (outputs == EFFECTS)
		return 2;
	if (length > PAYLOAD)
		return 3;
	char *line = put_out[outputs++];
	write_hex(line + sprintf(line, "output "), payload, length);
	return 0;
}

#define unrolled
#define turn() asm volatile("")
#define within(index, most) do { if ((u64)(index) > (most)) return 0; } while (0)

u64 HANDLER();

int main(void)
{
	static u8 message[2 * PAYLOAD] __attribute__((aligned(8))), state[STATE + 1] __attribute__((aligned(8)));
	char line[600], hex[520];
	while (fgets(line, sizeof line, stdin)) {
		if (sscanf(line, "call %llu %519s", &from, hex) != 2)
			continue;
		unsigned byte;
		u64 length = 0;
		memset(message, 0, sizeof message);
		while (sscanf(hex + 2 * length, "%2x", &byte) == 1)
			message[length++] = byte;
		sends = outputs = 0;
		u64 r0 = HANDLER(message, state, length);
		printf("call %llu %s\nr0 %llu\n", from, hex, r0);
		for (u64 at = 0; at < sends; at++)
			puts(sent[at]);
		for (u64 at = 0; at < outputs; at++)
			puts(put_out[at]);
	}
	char states[2 * STATE + 2];
	write_hex(states, state, STATE);
	printf("state %s\n", states);
	return 0;
}
#endif
