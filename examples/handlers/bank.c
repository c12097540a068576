/* Accounts by number: deposits, withdrawals and transfers, each answered by an output. State 1024. */
#include "sblog_handler.h"

enum { ACCOUNTS = 128, DEPOSIT = 1, WITHDRAW, TRANSFER };

struct order {
	u32 kind, from, to, unused;
	u64 amount;
};

struct receipt {
	u64 refused, balance;
};

u64 bank(const struct order *order, u64 *balance, u64 length)
{
	struct receipt receipt = { 1, 0 };
	if (length < sizeof *order || order->from >= ACCOUNTS || order->to >= ACCOUNTS)
		goto out;
	switch (order->kind) {
	case DEPOSIT:
		balance[order->to] += order->amount;
		receipt.balance = balance[order->to];
		break;
	case WITHDRAW:
		if (balance[order->from] < order->amount)
			goto out;
		balance[order->from] -= order->amount;
		receipt.balance = balance[order->from];
		break;
	case TRANSFER:
		if (balance[order->from] < order->amount)
			goto out;
		balance[order->from] -= order->amount;
		balance[order->to] += order->amount;
		receipt.balance = balance[order->from];
		break;
	default:
		goto out;
	}
	receipt.refused = 0;
out:
	output(&receipt, sizeof receipt);
	return 0;
}
