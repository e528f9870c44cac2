/* Tables lent with any words: each rule of document 01's "well formed" broken alone is answered 2; on the edge of each they are taken. */
#include <string.h>

#include "harness.h"

/* A word of struct lent by its place from the beginning, where place 0 is a guard word. */
#define PLACE(part, index) (offsetof(struct lent, part) / sizeof(uint64_t) + (index))
#define STAKE_AT(row, word) PLACE(stakes, PASUMORIP_STAKE_WORDS * (row) + (word))
#define OFFER_AT(row, word) PLACE(offers, PASUMORIP_OFFER_WORDS * (row) + (word))
#define BOOK_AT(index) PLACE(books, index)

enum { ROW_POOL, ROW_NUMBER, AMOUNT, SINCE, ACCRUAL, RESERVED = AMOUNT, PAID };

#define MINUS(number) (-(uint64_t)(number))

/* WELL_FORMED with some words changed. */
struct edit {
    const char *name;
    struct { size_t place; uint64_t value; } words[6];
};

static const struct edit BAD[] = {
    {"accounts descend", {{STAKE_AT(1, ROW_NUMBER), 9}, {STAKE_AT(2, ROW_NUMBER), 7}}},
    {"pools of stakes descend",
     {{STAKE_AT(0, ROW_POOL), BALANCED}, {STAKE_AT(1, ROW_POOL), CONSERVATIVE},
      {BOOK_AT(CONSERVATIVE), 3000000}, {BOOK_AT(BALANCED), 2000000}}},
    {"two rows of an account", {{STAKE_AT(2, ROW_NUMBER), 7}}},
    {"a gap in stakes", {{STAKE_AT(6, ROW_POOL), FLAT}, {STAKE_AT(6, ROW_NUMBER), 9}, {STAKE_AT(6, AMOUNT), 5}, {BOOK_AT(FLAT), 1000001}}},
    {"offers descend", {{OFFER_AT(0, ROW_NUMBER), 5}, {OFFER_AT(1, ROW_NUMBER), 4}}},
    {"pools of offers descend",
     {{OFFER_AT(1, ROW_POOL), FLAT}, {OFFER_AT(2, ROW_POOL), BALANCED}, {OFFER_AT(2, ROW_NUMBER), 6},
      {BOOK_AT(UNPAID + BALANCED), 500009}, {BOOK_AT(UNPAID + FLAT), 0}}},
    {"two rows of an offer", {{OFFER_AT(1, ROW_NUMBER), 4}}},
    {"a gap in offers",
     {{OFFER_AT(4, ROW_POOL), FLAT}, {OFFER_AT(4, ROW_NUMBER), 9},
      {OFFER_AT(4, RESERVED), 5}, {BOOK_AT(UNPAID + FLAT), 14}}},
    {"a stake's pool 4", {{STAKE_AT(4, ROW_POOL), 4}, {BOOK_AT(FLAT), MINUS(4)}}},
    {"account 0", {{STAKE_AT(0, ROW_NUMBER), 0}}},
    {"a stake above its limit", {{STAKE_AT(1, AMOUNT), LARGEST + 1}, {BOOK_AT(BALANCED), LARGEST + 1}}},
    {"a stake below its limit", {{STAKE_AT(1, AMOUNT), MINUS(LARGEST + 1)}, {BOOK_AT(BALANCED), MINUS(LARGEST + 1)}}},
    {"the largest stake of all", {{STAKE_AT(1, AMOUNT), INT64_MAX}, {BOOK_AT(BALANCED), INT64_MAX}}},
    {"the smallest stake of all", {{STAKE_AT(1, AMOUNT), INT64_MIN}, {BOOK_AT(BALANCED), INT64_MIN}}},
    {"since above its limit", {{STAKE_AT(1, SINCE), LAST_SECOND + 1}}},
    {"the largest since of all", {{STAKE_AT(1, SINCE), UINT64_MAX}}},
    {"an accrual above its limit", {{STAKE_AT(1, ACCRUAL), LARGEST + 1}}},
    {"an accrual below 0", {{STAKE_AT(1, ACCRUAL), MINUS(1)}}},
    {"stake and accrual both 0", {{STAKE_AT(2, ACCRUAL), 0}}},
    {"since where the stake is 0", {{STAKE_AT(2, SINCE), 1}}},
    {"an offer's pool 4", {{OFFER_AT(2, ROW_POOL), 4}, {BOOK_AT(UNPAID + FLAT), 0}}},
    {"offer 0", {{OFFER_AT(0, ROW_NUMBER), 0}}},
    {"reserved above its limit", {{OFFER_AT(2, RESERVED), LARGEST + 1}, {BOOK_AT(UNPAID + FLAT), LARGEST + 1}}},
    {"reserved 0", {{OFFER_AT(2, RESERVED), 0}, {BOOK_AT(UNPAID + FLAT), 0}}},
    {"reserved below 0", {{OFFER_AT(2, RESERVED), MINUS(1)}, {BOOK_AT(UNPAID + FLAT), MINUS(1)}}},
    {"paid above reserved", {{OFFER_AT(1, PAID), 101}, {BOOK_AT(UNPAID + BALANCED), 499999}}},
    {"paid below 0", {{OFFER_AT(2, PAID), MINUS(1)}, {BOOK_AT(UNPAID + FLAT), 10}}},
    {"admin 0", {{BOOK_AT(ADMIN), 0}}},
    {"paused 2", {{BOOK_AT(PAUSED), 2}}},
    {"the largest paused of all", {{BOOK_AT(PAUSED), UINT64_MAX}}},
    {"a rate above its limit", {{BOOK_AT(RATE), MOST_RATE + 1}}},
    {"the largest rate of all", {{BOOK_AT(RATE), UINT64_MAX}}},
};

static const struct edit GOOD[] = {
    {"nothing changed", {{0, 0}}},
    {"the largest stake", {{STAKE_AT(1, AMOUNT), LARGEST}, {BOOK_AT(BALANCED), LARGEST}}},
    {"the smallest stake", {{STAKE_AT(1, AMOUNT), MINUS(LARGEST)}, {BOOK_AT(BALANCED), MINUS(LARGEST)}}},
    {"the last second", {{STAKE_AT(1, SINCE), LAST_SECOND}}},
    {"the largest accrual", {{STAKE_AT(1, ACCRUAL), LARGEST}}},
    {"the largest account", {{STAKE_AT(4, ROW_NUMBER), UINT64_MAX}}},
    {"the largest offer", {{OFFER_AT(2, ROW_NUMBER), UINT64_MAX}}},
    {"the largest reserved sum", {{OFFER_AT(2, RESERVED), LARGEST}, {BOOK_AT(UNPAID + FLAT), LARGEST}}},
    {"the smallest reserved sum", {{OFFER_AT(2, RESERVED), 1}, {BOOK_AT(UNPAID + FLAT), 1}}},
    {"all of it paid", {{OFFER_AT(0, PAID), 750000}, {BOOK_AT(UNPAID + BALANCED), 0}}},
    {"no payout caller", {{BOOK_AT(PAYOUT_CALLER), 0}}},
    {"any payout caller", {{BOOK_AT(PAYOUT_CALLER), UINT64_MAX}}},
    {"any admin", {{BOOK_AT(ADMIN), UINT64_MAX}}},
    {"paused", {{BOOK_AT(PAUSED), 1}}},
    {"the largest rate", {{BOOK_AT(RATE), MOST_RATE}}},
};

static struct lent lent;

static void lend_edited(const struct edit *edit)
{
    about("%s", edit->name);
    lend_well_formed(&lent);
    for (size_t word = 0; word < sizeof edit->words / sizeof *edit->words && edit->words[word].place != 0; word++)
        ((uint64_t *)&lent)[edit->words[word].place] = edit->words[word].value;
}

/* The last row of a table is found at its place. */
static void look_last(enum table table, size_t row, uint64_t place, uint64_t reads)
{
    const uint64_t *words = (const uint64_t *)&lent + row;
    look_up(&lent, (struct lookup){table, words[ROW_POOL], words[ROW_NUMBER]}, (struct found){PASUMORIP_DONE, 1, place, reads});
}

/* Good tables answer, and an unpause by their admin writes one word of them. */
static void check_taken(void)
{
    struct lent expected = lent;
    expected.books[PAUSED] = 0;
    ask(&lent, (struct question){POOL, BALANCED, 0, 0}, PASUMORIP_DONE, lent.books[BALANCED], lent.books[UNPAID + BALANCED]);
    look_last(IN_STAKES, STAKE_AT(STAKE_ROWS - 1, ROW_POOL), STAKE_ROWS - 1, 3);
    look_last(IN_OFFERS, OFFER_AT(OFFER_ROWS - 1, ROW_POOL), OFFER_ROWS - 1, 2);
    apply(&lent, (struct call){.operation = UNPAUSE, .now = 400, .signer = lent.books[ADMIN]}, done(0, 0));
    memcpy(expected.answer, lent.answer, sizeof lent.answer);
    memcpy(expected.bytes, lent.bytes, sizeof lent.bytes);
    check_same(&lent, &expected);
}

/* Words that have one right value each, with each of their bits changed. */
static void refuse_each_bit(const char *name, size_t from, size_t to)
{
    for (size_t place = from; place < to; place++)
        for (int bit = 0; bit < 64; bit++) {
            about("bit %d of word %zu of %s", bit, place - from, name);
            lend_well_formed(&lent);
            ((uint64_t *)&lent)[place] ^= UINT64_C(1) << bit;
            check_bad_tables(&lent);
        }
}

/* One table of words without order, the same at every run. */
static void refuse_any_words(void)
{
    uint64_t number = 1;
    for (int time = 0; time < 99; time++) {
        about("words without order, time %d", time);
        lend(&lent, 8 + number % (MOST_STAKES - 8), 4 + number % (MOST_OFFERS - 4), &WELL_FORMED);
        uint64_t *const tables[] = {lent.stakes, lent.offers, lent.books};
        const uint64_t lengths[] = {lent.stakes_words, lent.offers_words, lent.books_words};
        for (uint64_t word = 0; word < lengths[time % 3]; word++) {
            number = number * 6364136223846793005 + 1442695040888963407;
            tables[time % 3][word] = number;
        }
        check_bad_tables(&lent);
    }
}

void lent_words(void)
{
    for (size_t edit = 0; edit < sizeof BAD / sizeof *BAD; edit++) {
        lend_edited(&BAD[edit]);
        check_bad_tables(&lent);
    }
    for (size_t edit = 0; edit < sizeof GOOD / sizeof *GOOD; edit++) {
        lend_edited(&GOOD[edit]);
        check_taken();
    }
    refuse_each_bit("the balances and unpaid sums", BOOK_AT(0), BOOK_AT(ADMIN));
    refuse_each_bit("the unused stake rows", STAKE_AT(STAKE_ROWS, 0), STAKE_AT(STAKE_ROOMS, 0));
    refuse_each_bit("the unused offer rows", OFFER_AT(OFFER_ROWS, 0), OFFER_AT(OFFER_ROOMS, 0));
    refuse_any_words();
}
