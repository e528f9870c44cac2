/* The risk of an invoice: figure K11 of document 01, each point on its edge, and the largest arguments. */
#include <inttypes.h>

#include "harness.h"

static const struct { uint64_t age; uint32_t repayments, defaults; int64_t amount; uint8_t pool; } RISKS[] = {
    {2592000, 0, 0, 1, BALANCED},
    {2591999, 0, 0, 999999999, CONSERVATIVE},
    {0, 0, 0, 1000000000, BALANCED},
    {0, 5, 5, 1, CONSERVATIVE},
    {0, 5, 6, 1, BALANCED},
    {0, UINT32_MAX, 0, 1, CONSERVATIVE},
    {0, 0, UINT32_MAX, 1, BALANCED},
    {2592000, 0, 1, 1, AGGRESSIVE},
    {2592000, 0, 0, 1000000000, AGGRESSIVE},
    {0, 0, 1, 1000000000, AGGRESSIVE},
    {2592000, 0, 1, 1000000000, AGGRESSIVE},
    {UINT64_MAX, 0, 0, 1, BALANCED},
    {UINT64_MAX, 0, UINT32_MAX, INT64_MAX, AGGRESSIVE},
    {0, 0, 0, 0, AGGRESSIVE},
    {0, 0, 0, -1, AGGRESSIVE},
    {0, 0, 0, INT64_MIN, AGGRESSIVE},
};

void risk(void)
{
    for (size_t each = 0; each < sizeof RISKS / sizeof *RISKS; each++) {
        about("%" PRIu64 " s, %" PRIu32 " repayments, %" PRIu32 " defaults, %" PRId64, RISKS[each].age, RISKS[each].repayments,
              RISKS[each].defaults, RISKS[each].amount);
        uint8_t pool = pasumorip_assess_risk(RISKS[each].age, RISKS[each].repayments, RISKS[each].defaults, RISKS[each].amount);
        check(pool == RISKS[each].pool, "the pool is %d, and %d is expected", pool, RISKS[each].pool);
    }
}
