/* What the three handlers of the bank have in common: a transfer on its way, 64 bytes of eight words. */
#include "../../../examples/c/sblog.h"

enum { LEDGER = 1, FRAUD = 2, NOTIFIER = 3 };
enum { ACCOUNTS = 8 };

/* The words of a transfer. An account of 8 or more is outside of the bank. */
enum { ID, FROM, TO, AMOUNT, VERDICT, RECEIPT };

enum { BOOKED = 0, SUSPECT = 1, NO_FUNDS = 2 };

/* All ones in the row of the account, else nothing: a place moves by constants alone, so each row is looked at. */
static inline __attribute__((always_inline)) u64 mask_of(u64 row, u64 account)
{
	hide(account);
	u64 mask = -(u64)(row == account);
	hide(mask);
	return mask;
}
