/* Questions of each kind: what they answer, and which are malformed. */
#include "harness.h"

enum { YEAR = 31536000 };

static const struct { struct question question; uint64_t first, second; } ANSWERED[] = {
    {{STAKE_OF, CONSERVATIVE, 7, 0}, 2000000, 0},
    {{STAKE_OF, BALANCED, 9, 0}, 0, 0},
    {{STAKE_OF, AGGRESSIVE, 7, 0}, 0, 0},
    {{STAKE_OF, FLAT, 7, 0}, -4, 0},
    {{STAKE_OF, FLAT, 8, 0}, 1000000, 0},
    {{STAKE_OF, FLAT, UINT64_MAX, 0}, 0, 0},
    {{ACCRUED, CONSERVATIVE, 7, 100 + YEAR}, 40005, 0},
    {{ACCRUED, CONSERVATIVE, 7, 99}, 5, 0},
    {{ACCRUED, CONSERVATIVE, 7, 0}, 5, 0},
    {{ACCRUED, BALANCED, 7, 200 + YEAR}, 150000, 0},
    {{ACCRUED, BALANCED, 9, LAST_SECOND}, 40, 0},
    {{ACCRUED, AGGRESSIVE, 7, LAST_SECOND}, 0, 0},
    {{ACCRUED, FLAT, 7, 300}, 6, 0},
    {{ACCRUED, FLAT, 7, 299}, 6, 0},
    {{ACCRUED, FLAT, 7, 0}, 6, 0},
    {{ACCRUED, FLAT, 7, LAST_SECOND}, 6 - 65, 0},
    {{ACCRUED, FLAT, 8, 300 + YEAR}, 30000, 0},
    {{POOL, CONSERVATIVE, 0, 0}, 2000000, 0},
    {{POOL, BALANCED, 0, 0}, 3000000, 500000},
    {{POOL, AGGRESSIVE, 0, 0}, 0, 0},
    {{POOL, FLAT, 0, 0}, 999996, 9},
    {{COUNT, CONSERVATIVE, 0, 0}, 1, 0},
    {{COUNT, BALANCED, 0, 0}, 1, 0},
    {{COUNT, AGGRESSIVE, 0, 0}, 0, 0},
    {{COUNT, FLAT, 0, 0}, 2, 0},
    {{OFFER, CONSERVATIVE, 4, 0}, 0, 0},
    {{OFFER, BALANCED, 4, 0}, 750000, 250000},
    {{OFFER, BALANCED, 5, 0}, 100, 100},
    {{OFFER, BALANCED, 7, 0}, 0, 0},
    {{OFFER, FLAT, 4, 0}, 9, 0},
};

static const struct question MALFORMED[] = {
    {0, 0, 0, 0},
    {0, BALANCED, 7, 0},
    {6, 0, 0, 0},
    {6, BALANCED, 7, 0},
    {UINT64_MAX, BALANCED, 7, 0},
    {256 + STAKE_OF, BALANCED, 7, 0},
    {(UINT64_C(1) << 32) + STAKE_OF, BALANCED, 7, 0},
    {STAKE_OF, 4, 7, 0},
    {STAKE_OF, 256 + BALANCED, 7, 0},
    {STAKE_OF, (UINT64_C(1) << 32) + BALANCED, 7, 0},
    {STAKE_OF, BALANCED, 0, 0},
    {STAKE_OF, BALANCED, 7, 1},
    {ACCRUED, 4, 7, 400},
    {ACCRUED, BALANCED, 0, 400},
    {ACCRUED, BALANCED, 7, LAST_SECOND + 1},
    {ACCRUED, BALANCED, 7, UINT64_MAX},
    {POOL, 4, 0, 0},
    {POOL, UINT64_MAX, 0, 0},
    {POOL, BALANCED, 7, 0},
    {POOL, BALANCED, 0, 1},
    {COUNT, 4, 0, 0},
    {COUNT, BALANCED, 7, 0},
    {COUNT, BALANCED, 0, 1},
    {OFFER, 4, 4, 0},
    {OFFER, BALANCED, 0, 0},
    {OFFER, BALANCED, 4, 1},
};

static void about_question(const struct question *asked)
{
    about("kind %lld, pool %lld, number %lld, time %lld", (long long)asked->kind, (long long)asked->pool, (long long)asked->number,
          (long long)asked->time);
}

/* An accrual that is at its limit is answered, and one past it refused. */
static void ask_at_the_limit(void)
{
    struct lent lent;
    lend(&lent, 1, 1,
         &(struct tables){.stakes = {{AGGRESSIVE, 7, 315360000, 100, LARGEST - 1}}, .books = {[AGGRESSIVE] = 315360000, [ADMIN] = 1}});
    about("an accrual around its limit");
    ask(&lent, (struct question){ACCRUED, AGGRESSIVE, 7, 100}, PASUMORIP_DONE, LARGEST - 1, 0);
    ask(&lent, (struct question){ACCRUED, AGGRESSIVE, 7, 101}, PASUMORIP_DONE, LARGEST, 0);
    ask(&lent, (struct question){ACCRUED, AGGRESSIVE, 7, 102}, PASUMORIP_OVER_LIMIT, 0, 0);
}

/* Code and sum at a time, of accounts in a pool that earns 500. */
static const struct { uint64_t account, time, code, sum; } BELOW_ZERO[] = {
    {1, 0, PASUMORIP_DONE, 0},
    {1, 630, PASUMORIP_DONE, 0},
    {1, 631, PASUMORIP_DONE, -1},
    {2, 630, PASUMORIP_DONE, 5},
    {2, 631, PASUMORIP_DONE, 4},
    {2, 3784, PASUMORIP_DONE, 0},
    {2, 3785, PASUMORIP_DONE, -1},
    {3, 999, PASUMORIP_DONE, 5},
    {3, 1000 + 630, PASUMORIP_DONE, 5},
    {3, 1000 + 631, PASUMORIP_DONE, 4},
    {4, 0, PASUMORIP_DONE, 5},
    {4, 631, PASUMORIP_DONE, 5},
    {4, LAST_SECOND, PASUMORIP_DONE, 5},
    {5, 20 * YEAR, PASUMORIP_DONE, -LARGEST},
    {5, 20 * YEAR + 1, PASUMORIP_OVER_LIMIT, 0},
    {5, LAST_SECOND, PASUMORIP_OVER_LIMIT, 0},
    {6, 20 * YEAR + 1, PASUMORIP_DONE, -LARGEST},
    {7, 20 * YEAR + 1, PASUMORIP_OVER_LIMIT, 0},
    {8, LAST_SECOND, PASUMORIP_DONE, 0},
};

/* A stake below zero lowers its banked sum by a yield truncated toward zero, down to the limit below zero; a stake of 0 does not. */
static void ask_below_zero(uint64_t pool)
{
    struct lent lent;
    struct tables tables = {.stakes = {{pool, 1, -1000000, 0, 0},
                                       {pool, 2, -1000000, 0, 5},
                                       {pool, 3, -1000000, 1000, 5},
                                       {pool, 4, 0, 0, 5},
                                       {pool, 5, -LARGEST, 0, 0},
                                       {pool, 6, -LARGEST, 0, 1585489},
                                       {pool, 7, -LARGEST, 0, 1585488}},
                            .books = {[ADMIN] = 1, [RATE] = 500}};
    tables.books[pool] = -3000000 - 3 * LARGEST;
    lend(&lent, 7, 1, &tables);
    for (size_t each = 0; each < sizeof BELOW_ZERO / sizeof *BELOW_ZERO; each++) {
        struct question question = {ACCRUED, pool, BELOW_ZERO[each].account, BELOW_ZERO[each].time};
        about_question(&question);
        ask(&lent, question, BELOW_ZERO[each].code, BELOW_ZERO[each].sum, 0);
    }
}

void questions(void)
{
    struct lent lent;
    lend_well_formed(&lent);
    for (size_t each = 0; each < sizeof ANSWERED / sizeof *ANSWERED; each++) {
        about_question(&ANSWERED[each].question);
        ask(&lent, ANSWERED[each].question, PASUMORIP_DONE, ANSWERED[each].first, ANSWERED[each].second);
    }
    for (size_t each = 0; each < sizeof MALFORMED / sizeof *MALFORMED; each++) {
        about_question(&MALFORMED[each]);
        ask(&lent, MALFORMED[each], PASUMORIP_MALFORMED, 0, 0);
    }
    ask_at_the_limit();
    ask_below_zero(BALANCED);
    ask_below_zero(FLAT);
}
