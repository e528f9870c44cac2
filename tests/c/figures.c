/* Document 01's figures K4 to K10, by calls from a fresh set on. */
#include "settling.h"

static void k4(uint8_t pool)
{
    begin_fresh();
    for (uint64_t account = 3; account <= 5; account++) stake_little(pool, account, 1);
    pay_loss(pool, 2);
    check_pool(pool, 1, 0, (struct tables){.stakes = {{pool, 3, 1, NOW, 0}, {pool, 4, 1, NOW, 0}, {pool, 5, -1, NOW, 0}}});
}

/* Seven stakes of 1 and a loss of 6 make the stake of -5. */
static void k5(uint8_t pool)
{
    begin_fresh();
    for (uint64_t account = 11; account <= 17; account++) stake_little(pool, account, 1);
    pay_loss(pool, 6);
    for (uint64_t account = 12; account <= 16; account++) withdraw(pool, account, 1);
    stake_little(pool, 11, 4);
    stake_little(pool, 18, 1);
    check_pool(pool, 1, 0, (struct tables){.stakes = {{pool, 11, 5, NOW, 0}, {pool, 17, -5, NOW, 0}, {pool, 18, 1, NOW, 0}}});
    pay_loss(pool, 1);
    check_pool(pool, 0, 0, (struct tables){.stakes = {{pool, 11, 4, NOW, 0}, {pool, 18, -4, NOW, 0}}});
}

static void k6(uint8_t pool)
{
    begin_fresh();
    stake(pool, 21, 3000000);
    stake(pool, 22, 2000000);
    stake(pool, 23, 1000001);
    pay_loss(pool, 1000000);
    check_pool(pool, 5000001, 0,
               (struct tables){.stakes = {{pool, 21, 2500001, NOW, 0}, {pool, 22, 1666667, NOW, 0}, {pool, 23, 833333, NOW, 0}}});
}

static void k7(void)
{
    begin_fresh();
    stake(CONSERVATIVE, 7, 10000000);
    pay(CONSERVATIVE, 1, 0);
    check_pool(CONSERVATIVE, 10000000, 0, (struct tables){.stakes = {{CONSERVATIVE, 7, 10000000, NOW, 0}}});
}

static void reserve_thrice(uint8_t pool, const uint64_t amounts[3], const uint64_t granted[3])
{
    uint64_t reserved = 0;
    begin_fresh();
    stake(pool, 7, 10000000);
    for (int time = 0; time < 3; time++) {
        reserve(pool, 4, amounts[time], granted[time]);
        reserved += granted[time];
        check_pool(pool, 10000000, reserved,
                   (struct tables){.stakes = {{pool, 7, 10000000, NOW, 0}}, .offers = {{pool, 4, reserved, 0}}});
    }
}

static void pay_and_claim(uint8_t pool, uint64_t payout, uint64_t cover)
{
    begin_fresh();
    stake(pool, 7, 10000000);
    reserve(pool, 1, 6000000, 6000000);
    reserve(pool, 2, 4000000, 4000000);
    pay(pool, 5000000, 5000000);
    claim(pool, 1, 6000000, payout, cover);
}

static void k10(void)
{
    pay_and_claim(AGGRESSIVE, 5000000, 1000000);
    check_pool(AGGRESSIVE, 0, 5000000, (struct tables){.offers = {{AGGRESSIVE, 1, 6000000, 5000000}, {AGGRESSIVE, 2, 4000000, 0}}});
    pay_and_claim(FLAT, 1000000, 5000000);
    check_pool(FLAT, 4000000, 9000000,
               (struct tables){.stakes = {{FLAT, 7, 4000000, NOW, 0}}, .offers = {{FLAT, 1, 6000000, 1000000}, {FLAT, 2, 4000000, 0}}});
}

void figures(void)
{
    for (uint8_t pool = CONSERVATIVE; pool <= FLAT; pool++) {
        about("K4 by calls in pool %d", pool);
        k4(pool);
        about("K5 by calls in pool %d", pool);
        k5(pool);
        about("K6 by calls in pool %d", pool);
        k6(pool);
    }
    about("K7");
    k7();
    about("K8");
    reserve_thrice(BALANCED, (uint64_t[]){1000000, 1000000, 2000000}, (uint64_t[]){750000, 0, 750000});
    about("K9");
    reserve_thrice(FLAT, (uint64_t[]){1000000, 1000000, 1000000}, (uint64_t[]){1000000, 1000000, 1000000});
    about("K10");
    k10();
}
