#include "harness.h"

const struct call CALLS[] = {
    {.operation = STAKE, .pool = BALANCED, .now = 400, .signer = 7, .subject = 7, .amount = 1000000},
    {.operation = WITHDRAW, .pool = BALANCED, .now = 400, .signer = 7, .subject = 7, .amount = 1},
    {.operation = PAY, .pool = BALANCED, .reply = DEFAULTED, .now = 400, .signer = 2, .subject = 5, .other = 6, .amount = 1000},
    {.operation = RESERVE, .pool = BALANCED, .now = 400, .signer = 2, .subject = 6, .amount = 1000},
    {.operation = CLAIM, .pool = BALANCED, .now = 400, .signer = 2, .subject = 4, .other = 6, .amount = 1000},
    {.operation = SET_RATE, .pool = FLAT, .now = 400, .signer = 1, .amount = 500},
    {.operation = PAUSE, .now = 400, .signer = 1},
    {.operation = UNPAUSE, .now = 400, .signer = 1},
    {.operation = SET_PAYOUT_CALLER, .now = 400, .signer = 1, .subject = 3},
};

static const struct question QUESTIONS[] = {
    {STAKE_OF, BALANCED, 7, 0}, {ACCRUED, BALANCED, 7, 400}, {POOL, BALANCED, 0, 0}, {COUNT, BALANCED, 0, 0}, {OFFER, BALANCED, 4, 0},
};

static const struct lookup LOOKUPS[] = {{IN_STAKES, BALANCED, 7}, {IN_OFFERS, BALANCED, 4}};

void check_bad_tables(struct lent *lent)
{
    for (size_t call = 0; call < sizeof CALLS / sizeof *CALLS; call++) {
        struct call malformed = CALLS[call];
        malformed.now = LAST_SECOND + 1;
        apply(lent, CALLS[call], refusal(PASUMORIP_BAD_TABLES));
        apply(lent, malformed, refusal(PASUMORIP_MALFORMED));
    }
    for (size_t question = 0; question < sizeof QUESTIONS / sizeof *QUESTIONS; question++) {
        struct question malformed = QUESTIONS[question];
        malformed.pool = FLAT + 1;
        ask(lent, QUESTIONS[question], PASUMORIP_BAD_TABLES, 0, 0);
        ask(lent, malformed, PASUMORIP_MALFORMED, 0, 0);
    }
    for (size_t lookup = 0; lookup < sizeof LOOKUPS / sizeof *LOOKUPS; lookup++) {
        struct lookup malformed = LOOKUPS[lookup];
        malformed.number = 0;
        look_up(lent, LOOKUPS[lookup], (struct found){.code = PASUMORIP_BAD_TABLES});
        look_up(lent, malformed, (struct found){.code = PASUMORIP_MALFORMED});
    }
}
