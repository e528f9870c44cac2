/* How a loss is shared: figures K4 to K6 of document 01 on lent tables of each pool, by a payment and by a claim. */
#include "settling.h"

enum { FIRST_ACCOUNT = 3, LENT_OFFER = 8, SINCE = 100 };

static const struct loss { const char *figure; uint64_t stakes[3], loss, left[3]; } LOSSES[] = {
    {"K4", {1, 1, 1}, 2, {1, 1, -1}},
    {"K5", {5, -5, 1}, 1, {4, 0, -4}},
    {"K6", {3000000, 2000000, 1000001}, 1000000, {2500001, 1666667, 833333}},
};

/* Rows of three stakes with an accrual, less those that hold nothing, and one offer. */
static struct tables rows_of(uint8_t pool, const uint64_t stakes[3], uint64_t accrual, uint64_t reserved, uint64_t paid)
{
    struct tables tables = {.offers = {{pool, LENT_OFFER, reserved, paid}}};
    size_t row = 0;
    for (uint64_t place = 0; place < 3; place++) {
        if (stakes[place] == 0 && accrual == 0) continue;
        const uint64_t words[] = {pool, FIRST_ACCOUNT + place, stakes[place], stakes[place] == 0 ? 0 : SINCE, accrual};
        for (size_t word = 0; word < PASUMORIP_STAKE_WORDS; word++) tables.stakes[row][word] = words[word];
        row++;
    }
    return tables;
}

static void share(const struct loss *loss, uint8_t pool, uint64_t accrual, bool by_claim)
{
    uint64_t balance = loss->stakes[0] + loss->stakes[1] + loss->stakes[2], paid = by_claim ? loss->loss : 0;
    begin_lent(pool, balance, loss->loss, rows_of(pool, loss->stakes, accrual, loss->loss, 0));
    if (by_claim)
        claim(pool, LENT_OFFER, loss->loss, loss->loss, 0);
    else
        pay_loss(pool, loss->loss);
    check_pool(pool, balance - loss->loss, loss->loss - paid, rows_of(pool, loss->left, accrual, loss->loss, paid));
}

void losses(void)
{
    for (size_t each = 0; each < sizeof LOSSES / sizeof *LOSSES; each++)
        for (uint8_t pool = CONSERVATIVE; pool <= FLAT; pool++)
            for (uint64_t accrual = 0; accrual <= 9; accrual += 9)
                for (int by_claim = 0; by_claim <= 1; by_claim++) {
                    about("%s lent in pool %d by a %s, accruals %d", LOSSES[each].figure, pool, by_claim ? "claim" : "payment", (int)accrual);
                    share(&LOSSES[each], pool, accrual, by_claim);
                }
}
