/* What handlers in C need of sblog (docs/HANDLERS.md). */
typedef unsigned char u8;
typedef unsigned long long u64;

/* A message of form 1, and a payload of helpers 1 and 2: 64 bytes. */
struct message {
	u64 words[8];
};

static u64 (*const send)(u64 destination, const struct message *payload) = (void *)1;
static u64 (*const output)(const struct message *payload) = (void *)2;
static u64 (*const me)(void) = (void *)3;
static u64 (*const sender)(void) = (void *)4;

/* Of form 2 alone. */
static u64 (*const send_sized)(u64 destination, const void *payload, u64 length) = (void *)5;
static u64 (*const output_sized)(const void *payload, u64 length) = (void *)6;

/* Hides from clang how a number came about, so that it makes no branch of it. */
#define hide(number) asm volatile("" : "+r"(number))

/* Has clang finish what it stores before this line, and load anew behind it. */
#define settle() asm volatile("" ::: "memory")
