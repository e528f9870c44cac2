#include "settling.h"

static struct lent lent;

static void put_books(struct tables *tables, uint8_t pool, uint64_t balance, uint64_t unpaid)
{
    tables->books[pool] = balance;
    tables->books[UNPAID + pool] = unpaid;
    tables->books[ADMIN] = ADMIN_ACCOUNT;
    tables->books[PAYOUT_CALLER] = PAYER;
}

void begin_lent(uint8_t pool, uint64_t balance, uint64_t unpaid, struct tables rows)
{
    put_books(&rows, pool, balance, unpaid);
    lend(&lent, 10, 4, &rows);
}

void begin_fresh(void)
{
    lend(&lent, 10, 4, &WELL_FORMED);
    check(pasumorip_fresh(TABLES(&lent), ADMIN_ACCOUNT) == PASUMORIP_DONE, "a fresh set is refused");
    apply(&lent, (struct call){.operation = SET_PAYOUT_CALLER, .now = NOW, .signer = ADMIN_ACCOUNT, .subject = PAYER}, done(0, 0));
}

void stake(uint8_t pool, uint64_t account, uint64_t amount)
{
    apply(&lent, (struct call){.operation = STAKE, .pool = pool, .now = NOW, .signer = account, .subject = account, .amount = amount},
          moved(0, 0, IN, account, amount));
}

void withdraw(uint8_t pool, uint64_t account, uint64_t amount)
{
    apply(&lent, (struct call){.operation = WITHDRAW, .pool = pool, .now = NOW, .signer = account, .subject = account, .amount = amount},
          moved(0, 0, OUT, account, amount));
}

void stake_little(uint8_t pool, uint64_t account, uint64_t amount)
{
    stake(pool, account, 1000000);
    withdraw(pool, account, 1000000 - amount);
}

static struct answer paid(uint64_t payout, uint64_t cover)
{
    return payout == 0 ? done(0, cover) : moved(payout, cover, OUT, BENEFICIARY, payout);
}

void pay(uint8_t pool, uint64_t amount, uint64_t payout)
{
    apply(&lent,
          (struct call){.operation = PAY, .pool = pool, .reply = DEFAULTED, .now = NOW, .signer = PAYER, .subject = 5, .other = BENEFICIARY,
                        .amount = amount},
          paid(payout, 0));
}

void pay_loss(uint8_t pool, uint64_t loss)
{
    static const uint64_t CAPS[] = {5000, 7500, 10000, 10000};
    pay(pool, (loss * 10000 + CAPS[pool] - 1) / CAPS[pool], loss);
}

void reserve(uint8_t pool, uint64_t offer, uint64_t amount, uint64_t granted)
{
    apply(&lent, (struct call){.operation = RESERVE, .pool = pool, .now = NOW, .signer = PAYER, .subject = offer, .amount = amount},
          done(granted, 0));
}

void claim(uint8_t pool, uint64_t offer, uint64_t amount, uint64_t payout, uint64_t cover)
{
    apply(&lent,
          (struct call){.operation = CLAIM, .pool = pool, .now = NOW, .signer = PAYER, .subject = offer, .other = BENEFICIARY,
                        .amount = amount},
          paid(payout, cover));
}

void check_pool(uint8_t pool, uint64_t balance, uint64_t unpaid, struct tables rows)
{
    put_books(&rows, pool, balance, unpaid);
    check_tables(&lent, &rows);
}
