/* A counter's state: with numbers of 32 bits, and with numbers of 64. */
#include "sblog_handler.h"

struct narrow {
	u32 sum, count;
};

struct wide {
	u64 sum, count;
};
