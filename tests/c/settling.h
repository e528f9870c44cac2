/* Calls at one moment on one set of lent tables, each with the answer that it is expected to have. */
#ifndef SETTLING_H
#define SETTLING_H

#include "harness.h"

enum { ADMIN_ACCOUNT = 1, PAYER = 2, BENEFICIARY = 6, NOW = 1763107200 };

/* Tables to work on: a fresh set with a payout caller, or these rows of one pool with these figures in its books. */
void begin_fresh(void);
void begin_lent(uint8_t pool, uint64_t balance, uint64_t unpaid, struct tables rows);

void check_pool(uint8_t pool, uint64_t balance, uint64_t unpaid, struct tables rows);

void stake(uint8_t pool, uint64_t account, uint64_t amount);
void withdraw(uint8_t pool, uint64_t account, uint64_t amount);

/* Raises a stake by less than may be staked at once. */
void stake_little(uint8_t pool, uint64_t account, uint64_t amount);

void pay(uint8_t pool, uint64_t amount, uint64_t payout);

/* Asks for the least amount that pays out so much under the pool's cap. */
void pay_loss(uint8_t pool, uint64_t loss);

void reserve(uint8_t pool, uint64_t offer, uint64_t amount, uint64_t granted);
void claim(uint8_t pool, uint64_t offer, uint64_t amount, uint64_t payout, uint64_t cover);

#endif
