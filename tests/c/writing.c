/* A log's head and records, written. W-201: "a writer into a lent buffer that refuses, changing nothing: Malformed exactly when the record
 * would be (a head: admin 0), else TableFull exactly when the room left is under 48 bytes (a head: 16)." */
#include "buffers.h"

#define COUNT_OF(list) (sizeof(list) / sizeof *(list))

enum { MOST_LENGTH = 100, MOST_PLACE = 110 };

static const struct place ROOMY = {MOST_BYTES, 8}, FULL = {MOST_BYTES, MOST_BYTES};

/* ---- document 01's sample, as its log has it */

static const uint8_t SAMPLE[] = {
    'P', 'O', 'L', 1, 0, 0, 0, 0,    /* name, version */
    1, 0, 0, 0, 0, 0, 0, 0,          /* admin */

    1, 1, 0, 0, 0, 0, 0, 0,          /* stake, Balanced */
    0, 0, 0, 0, 0, 0, 0, 0,          /* now */
    7, 0, 0, 0, 0, 0, 0, 0,          /* signer */
    7, 0, 0, 0, 0, 0, 0, 0,          /* subject */
    0, 0, 0, 0, 0, 0, 0, 0,          /* other */
    0x80, 0x84, 0x1e, 0, 0, 0, 0, 0, /* amount, 2,000,000 */

    2, 1, 0, 0, 0, 0, 0, 0,          /* withdraw, Balanced */
    0, 0, 0, 0, 0, 0, 0, 0,
    7, 0, 0, 0, 0, 0, 0, 0,
    7, 0, 0, 0, 0, 0, 0, 0,
    0, 0, 0, 0, 0, 0, 0, 0,
    0xc0, 0xc6, 0x2d, 0, 0, 0, 0, 0, /* 3,000,000 */

    1, 1, 0, 0, 0, 0, 0, 0,          /* stake, Balanced */
    0, 0, 0, 0, 0, 0, 0, 0,
    8, 0, 0, 0, 0, 0, 0, 0,
    8, 0, 0, 0, 0, 0, 0, 0,
    0, 0, 0, 0, 0, 0, 0, 0,
    0x3f, 0x42, 0x0f, 0, 0, 0, 0, 0, /* 999,999 */
};

static const struct { struct fields fields; uint8_t code; } SAMPLE_ROWS[] = {
    {{1, 1, 0, 0, 7, 7, 0, 2000000}, PASUMORIP_DONE},
    {{2, 1, 0, 0, 7, 7, 0, 3000000}, PASUMORIP_INSUFFICIENT_BALANCE},
    {{1, 1, 0, 0, 8, 8, 0, 999999}, PASUMORIP_INVALID_INPUT},
};

/* Into a buffer that it fills, and read again: the answers are document 01's. */
static void write_sample(void)
{
    static struct lent lent;
    struct place place = {sizeof SAMPLE, 0};
    about("the sample");
    lend(&lent, 1, 1, &WELL_FORMED);
    check_code(lend_buffer(place, false, SAMPLE, sizeof SAMPLE), PASUMORIP_DONE);
    check_code(put_head(place, 1), PASUMORIP_DONE);
    check_code(pasumorip_open(TABLES(&lent), buffer_at(0), PASUMORIP_HEAD_BYTES), PASUMORIP_DONE);
    place.at += PASUMORIP_HEAD_BYTES;
    for (size_t row = 0; row < COUNT_OF(SAMPLE_ROWS); row++, place.at += PASUMORIP_RECORD_BYTES) {
        check_code(put_fields(place, &SAMPLE_ROWS[row].fields), PASUMORIP_DONE);
        uint8_t code = pasumorip_apply(TABLES(&lent), buffer_at(place.at), PASUMORIP_RECORD_BYTES, lent.answer, lent.answer_words);
        check_code(code, SAMPLE_ROWS[row].code);
    }
    check_code(put_fields(place, &SAMPLE_ROWS[0].fields), PASUMORIP_TABLE_FULL);
    check_buffer();
}

/* ---- every room */

/* Each number has bytes of its own. */
static const struct call WELL_FILLED = {.operation = PAY,
                                        .pool = AGGRESSIVE,
                                        .reply = DEFAULTED,
                                        .now = 0x365666768,
                                        .signer = 0x1112131415161718,
                                        .subject = 0x2122232425262728,
                                        .other = 0x3132333435363738,
                                        .amount = 0xc1c2c3c4c5c6c7c8};

static const struct call ILL_FILLED = {.operation = PAY, .signer = 7, .subject = 7};

static const uint64_t ADMINS[] = {0, 1, 255, 256, 0x1112131415161718, UINT64_MAX};

static void write_all_at(struct place place)
{
    for (size_t admin = 0; admin < COUNT_OF(ADMINS); admin++) write_head(place, ADMINS[admin]);
    write_call(place, &WELL_FILLED, false);
    write_call(place, &ILL_FILLED, true);
}

static void write_at_every_place(void)
{
    for (size_t length = 0; length <= MOST_LENGTH; length++)
        for (size_t at = 0; at <= MOST_PLACE; at++) write_all_at((struct place){length, at});
}

/* Places from which a head or a record would end at a place in the buffer, if places went round; and half of all places. */
static void write_far_away(void)
{
    static const size_t LENGTHS[] = {0, 16, 48, MOST_LENGTH};
    for (size_t length = 0; length < COUNT_OF(LENGTHS); length++) {
        for (size_t off = 0; off <= MOST_PLACE; off++) write_all_at((struct place){LENGTHS[length], SIZE_MAX - off});
        write_all_at((struct place){LENGTHS[length], SIZE_MAX / 2});
        write_all_at((struct place){LENGTHS[length], SIZE_MAX / 2 + 1});
    }
}

/* ---- Malformed exactly when the record would be */

/* The smallest fresh set. */
static bool found_malformed(const struct call *call)
{
    uint64_t stakes[PASUMORIP_STAKE_WORDS] = {0}, offers[PASUMORIP_OFFER_WORDS] = {0}, books[PASUMORIP_BOOKS_WORDS] = {[ADMIN] = 1};
    uint64_t answer[PASUMORIP_ANSWER_WORDS];
    uint8_t record[PASUMORIP_RECORD_BYTES];
    make_record(record, *call);
    return pasumorip_apply(stakes, PASUMORIP_STAKE_WORDS, offers, PASUMORIP_OFFER_WORDS, books, PASUMORIP_BOOKS_WORDS, record, sizeof record,
                           answer, PASUMORIP_ANSWER_WORDS) == PASUMORIP_MALFORMED;
}

static const uint8_t POOLS[] = {CONSERVATIVE, AGGRESSIVE, FLAT, FLAT + 1, UINT8_MAX};
static const uint8_t REPLIES[] = {NOT_CONFIGURED, DEFAULTED, DEFAULTED + 1, UINT8_MAX};
static const uint64_t TIMES[] = {LAST_SECOND, LAST_SECOND + 1}, SIGNERS[] = {0, 1}, NUMBERS[] = {0, 1, UINT64_MAX};
static const int64_t AMOUNTS[] = {INT64_MIN, -1, 0, 1, INT64_MAX};

enum {
    COMBINATIONS = COUNT_OF(POOLS) * COUNT_OF(REPLIES) * COUNT_OF(TIMES) * COUNT_OF(SIGNERS) * COUNT_OF(NUMBERS) * COUNT_OF(NUMBERS) *
                   COUNT_OF(AMOUNTS)
};

/* One of a list, by the last digit of a number, which loses it. */
#define PICK(list, number) (list)[last_digit(number, COUNT_OF(list))]

static size_t last_digit(size_t *number, size_t base)
{
    size_t digit = *number % base;
    *number /= base;
    return digit;
}

static void write_each_limit(uint8_t operation)
{
    size_t refused = 0;
    for (size_t combination = 0; combination < COMBINATIONS; combination++) {
        struct call call = {.operation = operation};
        size_t left = combination;
        call.pool = PICK(POOLS, &left);
        call.reply = PICK(REPLIES, &left);
        call.now = PICK(TIMES, &left);
        call.signer = PICK(SIGNERS, &left);
        call.subject = PICK(NUMBERS, &left);
        call.other = PICK(NUMBERS, &left);
        call.amount = (uint64_t)PICK(AMOUNTS, &left);
        bool malformed = found_malformed(&call);
        write_call(ROOMY, &call, malformed);
        refused += malformed;
    }
    about("operation %d", operation);
    bool known = operation >= STAKE && operation <= SET_PAYOUT_CALLER;
    check(refused > 0 && (refused < COMBINATIONS) == known, "%zu of %d are refused", refused, COMBINATIONS);
}

/* What a byte holds with each bit that it has not, so that a number cut down would make a good call; and the largest number. */
static void refuse_wide(const struct call *call)
{
    for (int field = 0; field < 3; field++)
        for (int bit = 8; bit <= 64; bit++) {
            struct fields wide = fields_of(call);
            uint64_t *number = (uint64_t *[]){&wide.operation, &wide.pool, &wide.reply}[field];
            *number = bit < 64 ? *number + (UINT64_C(1) << bit) : UINT64_MAX;
            refuse_fields(ROOMY, &wide);
            refuse_fields(FULL, &wide);
        }
}

void writing(void)
{
    write_sample();
    write_at_every_place();
    write_far_away();
    for (unsigned operation = 0; operation <= UINT8_MAX; operation++) write_each_limit((uint8_t)operation);
    for (size_t call = 0; call < COUNT_OF(CALLS); call++) {
        write_call(ROOMY, &CALLS[call], false);
        refuse_wide(&CALLS[call]);
    }
}
