#include <string.h>

#include "harness.h"

const struct tables WELL_FORMED = {
    .stakes = {{CONSERVATIVE, 7, 2000000, 100, 5},
               {BALANCED, 7, 3000000, 200, 0},
               {BALANCED, 9, 0, 0, 40},
               {FLAT, 7, -4, 300, 6},
               {FLAT, 8, 1000000, 300, 0}},
    .offers = {{BALANCED, 4, 750000, 250000}, {BALANCED, 5, 100, 100}, {FLAT, 4, 9, 0}},
    .books = {2000000, 3000000, 0, 999996, [UNPAID + BALANCED] = 500000, [UNPAID + FLAT] = 9, [ADMIN] = 1, [PAYOUT_CALLER] = 2,
              [RATE] = 300},
};

struct answer refusal(uint64_t code)
{
    return (struct answer){.code = code};
}

struct answer done(uint64_t first, uint64_t second)
{
    return (struct answer){.first = first, .second = second};
}

struct answer moved(uint64_t first, uint64_t second, uint64_t kind, uint64_t account, uint64_t amount)
{
    return (struct answer){.first = first, .second = second, .transfers = {{kind, account, amount}}};
}

/* A table's words: its used rows, then zeros to the end of what is lent. */
static void put_rows(uint64_t *words, uint64_t length, const uint64_t *rows, size_t bytes)
{
    size_t lent = length * sizeof *words, used = bytes < lent ? bytes : lent;
    memset(words, 0, lent);
    memcpy(words, rows, used);
}

static void put_tables(struct lent *lent, const struct tables *tables)
{
    put_rows(lent->stakes, lent->stakes_words, *tables->stakes, sizeof tables->stakes);
    put_rows(lent->offers, lent->offers_words, *tables->offers, sizeof tables->offers);
    put_rows(lent->books, lent->books_words, tables->books, sizeof tables->books);
}

void lend(struct lent *lent, uint64_t stake_rooms, uint64_t offer_rooms, const struct tables *tables)
{
    lend_words(lent, PASUMORIP_STAKE_WORDS * stake_rooms, PASUMORIP_OFFER_WORDS * offer_rooms, PASUMORIP_BOOKS_WORDS, tables);
}

void lend_words(struct lent *lent, uint64_t stakes_words, uint64_t offers_words, uint64_t books_words, const struct tables *tables)
{
    memset(lent, 0x5a, sizeof *lent);
    lent->stakes_words = stakes_words;
    lent->offers_words = offers_words;
    lent->books_words = books_words;
    lent->answer_words = PASUMORIP_ANSWER_WORDS;
    lent->bytes_length = PASUMORIP_RECORD_BYTES;
    put_tables(lent, tables);
}

void lend_well_formed(struct lent *lent)
{
    lend(lent, STAKE_ROOMS, OFFER_ROOMS, &WELL_FORMED);
}

void check_tables(const struct lent *got, const struct tables *wanted)
{
    struct lent expected;
    lend_words(&expected, got->stakes_words, got->offers_words, got->books_words, wanted);
    memcpy(expected.answer, got->answer, PASUMORIP_ANSWER_WORDS * sizeof *got->answer);
    memcpy(expected.bytes, got->bytes, PASUMORIP_RECORD_BYTES);
    check_same(got, &expected);
}

static void put_number(uint8_t *bytes, uint64_t number)
{
    for (int byte = 0; byte < 8; byte++) bytes[byte] = (uint8_t)(number >> 8 * byte);
}

void make_head(uint8_t head[PASUMORIP_HEAD_BYTES], uint64_t admin)
{
    static const uint8_t FIRST[8] = {'P', 'O', 'L', 1};
    memcpy(head, FIRST, sizeof FIRST);
    put_number(head + 8, admin);
}

void make_record(uint8_t record[PASUMORIP_RECORD_BYTES], struct call call)
{
    const uint64_t numbers[] = {call.now, call.signer, call.subject, call.other, call.amount};
    memset(record, 0, PASUMORIP_RECORD_BYTES);
    record[0] = call.operation;
    record[1] = call.pool;
    record[2] = call.reply;
    for (size_t number = 0; number < 5; number++) put_number(record + 8 + 8 * number, numbers[number]);
}

void put_record(struct lent *lent, struct call call)
{
    make_record(lent->bytes, call);
}

void apply(struct lent *lent, struct call call, struct answer wanted)
{
    put_record(lent, call);
    struct lent expected = *lent;
    uint8_t code = pasumorip_apply(TABLES(lent), lent->bytes, lent->bytes_length, lent->answer, lent->answer_words);
    check(code == wanted.code, "operation %d answers code %d, and %d is expected", call.operation, code, (int)wanted.code);
    if (wanted.code == PASUMORIP_DONE) {
        memcpy(expected.stakes, lent->stakes, lent->stakes_words * sizeof *lent->stakes);
        memcpy(expected.offers, lent->offers, lent->offers_words * sizeof *lent->offers);
        memcpy(expected.books, lent->books, lent->books_words * sizeof *lent->books);
    }
    _Static_assert(sizeof wanted == PASUMORIP_ANSWER_WORDS * sizeof *lent->answer, "an answer is its words");
    memcpy(expected.answer, &wanted, sizeof wanted);
    check_same(lent, &expected);
}

void ask(struct lent *lent, struct question question, uint64_t code, uint64_t first, uint64_t second)
{
    const uint64_t wanted[PASUMORIP_TOLD_WORDS] = {code, first, second};
    struct lent expected = *lent;
    uint8_t told = pasumorip_query(TABLES(lent), question.kind, question.pool, question.number, question.time, lent->answer,
                                   PASUMORIP_TOLD_WORDS);
    check(told == code, "a question of kind %d answers code %d, and %d is expected", (int)question.kind, told, (int)code);
    memcpy(expected.answer, wanted, sizeof wanted);
    check_same(lent, &expected);
}

uint8_t lookup_code(struct lent *lent, struct lookup lookup, uint64_t answer_words)
{
    return (lookup.table == IN_STAKES ? pasumorip_look_up_stake : pasumorip_look_up_offer)(TABLES(lent), lookup.pool, lookup.number,
                                                                                           lent->answer, answer_words);
}

void look_up(struct lent *lent, struct lookup lookup, struct found wanted)
{
    struct lent expected = *lent;
    uint8_t code = lookup_code(lent, lookup, PASUMORIP_LOOKUP_WORDS);
    check(code == wanted.code, "a lookup answers code %d, and %d is expected", code, (int)wanted.code);
    _Static_assert(sizeof wanted == PASUMORIP_LOOKUP_WORDS * sizeof *lent->answer, "an answer is its words");
    memcpy(expected.answer, &wanted, sizeof wanted);
    check_same(lent, &expected);
}
