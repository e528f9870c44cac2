/* Lookups of rows: where they are or would be, and how many rows are read to tell it. W-213: "must read at most the number of binary digits
 * of k, 0 for an empty table." */
#include <string.h>

#include "halving.h"

static struct lent lent, before;

static void about_lookup(struct lookup lookup)
{
    about("%s, pool %lld, number %llu", lookup.table == IN_STAKES ? "stakes" : "offers", (long long)lookup.pool,
          (unsigned long long)lookup.number);
}

/* ---- on small tables, by hand */

struct answered {
    struct lookup lookup;
    uint64_t row, place, reads;
};

/* Of WELL_FORMED's five stakes row 2 is read first, of its three offers row 1. */
static const struct answered ANSWERED[] = {
    {{IN_STAKES, CONSERVATIVE, 1}, 0, 0, 3},
    {{IN_STAKES, CONSERVATIVE, 6}, 0, 0, 3},
    {{IN_STAKES, CONSERVATIVE, 7}, 1, 0, 3},
    {{IN_STAKES, CONSERVATIVE, 8}, 0, 1, 3},
    {{IN_STAKES, CONSERVATIVE, UINT64_MAX}, 0, 1, 3},
    {{IN_STAKES, BALANCED, 1}, 0, 1, 3},
    {{IN_STAKES, BALANCED, 7}, 1, 1, 3},
    {{IN_STAKES, BALANCED, 8}, 0, 2, 2},
    {{IN_STAKES, BALANCED, 9}, 1, 2, 2},
    {{IN_STAKES, BALANCED, 10}, 0, 3, 3},
    {{IN_STAKES, BALANCED, UINT64_MAX}, 0, 3, 3},
    {{IN_STAKES, AGGRESSIVE, 1}, 0, 3, 3},
    {{IN_STAKES, AGGRESSIVE, 7}, 0, 3, 3},
    {{IN_STAKES, AGGRESSIVE, UINT64_MAX}, 0, 3, 3},
    {{IN_STAKES, FLAT, 1}, 0, 3, 3},
    {{IN_STAKES, FLAT, 7}, 1, 3, 3},
    {{IN_STAKES, FLAT, 8}, 1, 4, 3},
    {{IN_STAKES, FLAT, 9}, 0, 5, 2},
    {{IN_STAKES, FLAT, UINT64_MAX}, 0, 5, 2},
    {{IN_OFFERS, CONSERVATIVE, 1}, 0, 0, 2},
    {{IN_OFFERS, CONSERVATIVE, UINT64_MAX}, 0, 0, 2},
    {{IN_OFFERS, BALANCED, 3}, 0, 0, 2},
    {{IN_OFFERS, BALANCED, 4}, 1, 0, 2},
    {{IN_OFFERS, BALANCED, 5}, 1, 1, 2},
    {{IN_OFFERS, BALANCED, 6}, 0, 2, 2},
    {{IN_OFFERS, BALANCED, UINT64_MAX}, 0, 2, 2},
    {{IN_OFFERS, AGGRESSIVE, 1}, 0, 2, 2},
    {{IN_OFFERS, AGGRESSIVE, UINT64_MAX}, 0, 2, 2},
    {{IN_OFFERS, FLAT, 3}, 0, 2, 2},
    {{IN_OFFERS, FLAT, 4}, 1, 2, 2},
    {{IN_OFFERS, FLAT, 5}, 0, 3, 2},
    {{IN_OFFERS, FLAT, UINT64_MAX}, 0, 3, 2},
};

/* The largest numbers, in the first pool and in the last. */
static const struct tables LARGEST_NUMBERS = {
    .stakes = {{CONSERVATIVE, UINT64_MAX, 1, 0, 0}, {FLAT, UINT64_MAX - 1, 1, 0, 0}, {FLAT, UINT64_MAX, 1, 0, 0}},
    .offers = {{CONSERVATIVE, UINT64_MAX, 1, 1}, {FLAT, UINT64_MAX, 1, 1}},
    .books = {[CONSERVATIVE] = 1, [FLAT] = 2, [ADMIN] = 1},
};

static const struct answered ANSWERED_LARGEST[] = {
    {{IN_STAKES, CONSERVATIVE, UINT64_MAX - 1}, 0, 0, 2},
    {{IN_STAKES, CONSERVATIVE, UINT64_MAX}, 1, 0, 2},
    {{IN_STAKES, BALANCED, UINT64_MAX}, 0, 1, 2},
    {{IN_STAKES, FLAT, UINT64_MAX - 2}, 0, 1, 2},
    {{IN_STAKES, FLAT, UINT64_MAX - 1}, 1, 1, 2},
    {{IN_STAKES, FLAT, UINT64_MAX}, 1, 2, 2},
    {{IN_OFFERS, CONSERVATIVE, UINT64_MAX - 1}, 0, 0, 2},
    {{IN_OFFERS, CONSERVATIVE, UINT64_MAX}, 1, 0, 2},
    {{IN_OFFERS, FLAT, UINT64_MAX - 1}, 0, 1, 2},
    {{IN_OFFERS, FLAT, UINT64_MAX}, 1, 1, 2},
};

static void look_up_each(const struct answered *answered, size_t count)
{
    for (const struct answered *each = answered; each < answered + count; each++) {
        about_lookup(each->lookup);
        look_up(&lent, each->lookup, (struct found){PASUMORIP_DONE, each->row, each->place, each->reads});
    }
}

/* ---- refused */

static const struct { uint64_t pool, number; } MALFORMED[] = {
    {4, 7},
    {256 + BALANCED, 7},
    {(UINT64_C(1) << 32) + BALANCED, 7},
    {UINT64_MAX, 7},
    {BALANCED, 0},
    {CONSERVATIVE, 0},
    {4, 0},
};

/* One that is malformed is so on any tables; an answer of another length comes before all else, and nothing is written. */
static void refuse_malformed(const char *tables)
{
    static const uint64_t ANSWERS[] = {0, 3, 5, 9};
    for (size_t each = 0; each < sizeof MALFORMED / sizeof *MALFORMED; each++)
        for (enum table table = IN_STAKES; table <= IN_OFFERS; table++) {
            struct lookup lookup = {table, MALFORMED[each].pool, MALFORMED[each].number};
            about("%s tables, pool %lld, number %lld", tables, (long long)lookup.pool, (long long)lookup.number);
            look_up(&lent, lookup, (struct found){.code = PASUMORIP_MALFORMED});
            memset(lent.answer, 0x5a, sizeof lent.answer);
            before = lent;
            for (size_t answer = 0; answer < sizeof ANSWERS / sizeof *ANSWERS; answer++)
                check_untouched(lookup_code(&lent, lookup, ANSWERS[answer]), PASUMORIP_MALFORMED, &lent, &before);
        }
}

/* Tables whose other table is bad are bad too. */
static void refuse_bad(void)
{
    lend_well_formed(&lent);
    lent.stakes[1] = 0;
    about("an account of 0");
    check_bad_tables(&lent);
    refuse_malformed("bad");
    lend_well_formed(&lent);
    lent.offers[1] = 0;
    about("an offer of 0");
    check_bad_tables(&lent);
}

/* ---- on tables of many rows, against the model */

/* Every row, and every gap before, between and behind the rows of each pool. */
static void look_up_all(const struct rows *rows)
{
    for (uint64_t pool = CONSERVATIVE; pool <= FLAT; pool++) {
        uint64_t count = first_of(rows, pool + 1) - first_of(rows, pool);
        for (uint64_t number = 1; number <= 2 * count + 1; number++) {
            struct lookup lookup = {rows->table, pool, number};
            about("%d of %d rows used, pool %d, number %d", (int)rows->used, (int)rows->rooms, (int)pool, (int)number);
            look_up(&lent, lookup, wanted_of(rows, lookup));
        }
    }
}

/* The first row needs as many reads as its table's rows have binary digits; the gap behind the last row needs these. */
static const struct { enum table table; uint64_t used, first, behind; } SIZES[] = {
    {IN_STAKES, 1, 1, 1},
    {IN_STAKES, 2, 2, 1},
    {IN_STAKES, 3, 2, 2},
    {IN_STAKES, 1023, 10, 10},
    {IN_STAKES, 1024, 11, 10},
    {IN_OFFERS, 1, 1, 1},
    {IN_OFFERS, 2, 2, 1},
    {IN_OFFERS, 511, 9, 9},
    {IN_OFFERS, 512, 10, 9},
};

static void look_up_sizes(void)
{
    for (size_t each = 0; each < sizeof SIZES / sizeof *SIZES; each++) {
        const uint64_t used = SIZES[each].used, most = SIZES[each].table == IN_STAKES ? MOST_STAKES : MOST_OFFERS;
        const uint64_t rooms[] = {used, used < most ? used + 1 : most, most};
        for (size_t room = 0; room < sizeof rooms / sizeof *rooms; room++) {
            const struct rows rows = {SIZES[each].table, used, rooms[room]};
            lend_rows(&lent, &rows);
            about("the ends of %d of %d rows", (int)used, (int)rows.rooms);
            struct lookup first = {rows.table, pool_of(&rows, 0), number_of(&rows, 0)}, front = {rows.table, CONSERVATIVE, 1};
            look_up(&lent, first, (struct found){PASUMORIP_DONE, 1, 0, SIZES[each].first});
            look_up(&lent, front, (struct found){PASUMORIP_DONE, 0, 0, SIZES[each].first});
            look_up(&lent, (struct lookup){rows.table, FLAT, UINT64_MAX}, (struct found){PASUMORIP_DONE, 0, used, SIZES[each].behind});
            check(SIZES[each].first == binary_digits(used), "the first row needs %d reads", (int)SIZES[each].first);
            look_up_all(&rows);
        }
    }
}

static void look_up_in_empty(uint64_t stake_rooms, uint64_t offer_rooms)
{
    lend(&lent, stake_rooms, offer_rooms, &(struct tables){.books = {[ADMIN] = 1}});
    for (uint64_t pool = CONSERVATIVE; pool <= FLAT; pool++)
        for (enum table table = IN_STAKES; table <= IN_OFFERS; table++) {
            about("empty tables, pool %d", (int)pool);
            look_up(&lent, (struct lookup){table, pool, 1}, (struct found){.code = PASUMORIP_DONE});
            look_up(&lent, (struct lookup){table, pool, UINT64_MAX}, (struct found){.code = PASUMORIP_DONE});
        }
}

void lookups(void)
{
    lend_well_formed(&lent);
    look_up_each(ANSWERED, sizeof ANSWERED / sizeof *ANSWERED);
    refuse_malformed("good");
    lend(&lent, 3, 2, &LARGEST_NUMBERS);
    look_up_each(ANSWERED_LARGEST, sizeof ANSWERED_LARGEST / sizeof *ANSWERED_LARGEST);
    refuse_bad();
    look_up_in_empty(1, 1);
    look_up_in_empty(MOST_STAKES, MOST_OFFERS);
    look_up_sizes();
}
