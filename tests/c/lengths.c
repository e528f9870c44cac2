/* Lengths outside the limits: of tables, answered 2; of records, answered 1 in the code and in the answer; of heads and answers, answered 1 with
 * nothing written. */
#include <string.h>

#include "harness.h"

static const struct tables EMPTY = {.books = {[ADMIN] = 1}};

static const uint64_t STAKES_WORDS[] = {0, 1, 4, 6, 34, 36, 5 * MOST_STAKES + 1, 5 * (MOST_STAKES + 1)};
static const uint64_t OFFERS_WORDS[] = {0, 1, 3, 5, 18, 22, 4 * MOST_OFFERS + 1, 4 * (MOST_OFFERS + 1)};
static const uint64_t BOOKS_WORDS[] = {0, 11, 13};

static struct lent lent, before;

static void refuse_tables(uint64_t stakes_words, uint64_t offers_words, uint64_t books_words)
{
    about("%d, %d and %d words", (int)stakes_words, (int)offers_words, (int)books_words);
    lend_words(&lent, stakes_words, offers_words, books_words, &EMPTY);
    check_bad_tables(&lent);
    before = lent;
    check_untouched(pasumorip_fresh(TABLES(&lent), 1), PASUMORIP_BAD_TABLES, &lent, &before);
    check_untouched(pasumorip_fresh(TABLES(&lent), 0), PASUMORIP_MALFORMED, &lent, &before);
}

static void take_tables(uint64_t stake_rooms, uint64_t offer_rooms)
{
    about("rooms for %d and %d rows", (int)stake_rooms, (int)offer_rooms);
    lend(&lent, stake_rooms, offer_rooms, &EMPTY);
    apply(&lent, (struct call){.operation = STAKE, .pool = FLAT, .now = 9, .signer = 7, .subject = 7, .amount = 1000000},
          moved(0, 0, IN, 7, 1000000));
    check_tables(&lent, &(struct tables){.stakes = {{FLAT, 7, 1000000, 9, 0}}, .books = {[FLAT] = 1000000, [ADMIN] = 1}});
    ask(&lent, (struct question){COUNT, FLAT, 0, 0}, PASUMORIP_DONE, 1, 0);
    look_up(&lent, (struct lookup){IN_STAKES, FLAT, 7}, (struct found){PASUMORIP_DONE, 1, 0, 1});
    look_up(&lent, (struct lookup){IN_OFFERS, FLAT, 7}, (struct found){PASUMORIP_DONE, 0, 0, 0});
    check(pasumorip_fresh(TABLES(&lent), 1) == PASUMORIP_DONE, "a fresh set is refused");
    check_tables(&lent, &EMPTY);
}

/* The answer before is gone, so that one like it shows where nothing is to be written. */
static void begin(void)
{
    memset(lent.answer, 0x5a, sizeof lent.answer);
    before = lent;
}

static void refuse_record(uint64_t record_bytes)
{
    const struct answer wanted = refusal(PASUMORIP_MALFORMED);
    about("a record of %d bytes", (int)record_bytes);
    begin();
    memcpy(before.answer, &wanted, sizeof wanted);
    uint8_t code = pasumorip_apply(TABLES(&lent), lent.bytes, record_bytes, lent.answer, PASUMORIP_ANSWER_WORDS);
    check_untouched(code, PASUMORIP_MALFORMED, &lent, &before);
}

static void refuse_answer(uint64_t record_bytes, uint64_t answer_words)
{
    about("a record of %d bytes and an answer of %d words", (int)record_bytes, (int)answer_words);
    begin();
    uint8_t code = pasumorip_apply(TABLES(&lent), lent.bytes, record_bytes, lent.answer, answer_words);
    check_untouched(code, PASUMORIP_MALFORMED, &lent, &before);
}

static void refuse_question(uint64_t answer_words)
{
    about("a question's answer of %d words", (int)answer_words);
    begin();
    uint8_t code = pasumorip_query(TABLES(&lent), POOL, BALANCED, 0, 0, lent.answer, answer_words);
    check_untouched(code, PASUMORIP_MALFORMED, &lent, &before);
}

static void refuse_lookup(enum table table, uint64_t answer_words)
{
    about("a lookup's answer of %d words, table %d", (int)answer_words, table);
    begin();
    uint8_t code = lookup_code(&lent, (struct lookup){table, BALANCED, 7}, answer_words);
    check_untouched(code, PASUMORIP_MALFORMED, &lent, &before);
}

static void refuse_records_and_answers(void)
{
    static const uint64_t RECORDS[] = {0, 1, 47, 49}, ANSWERS[] = {0, 3, 8, 10}, TOLD[] = {0, 2, 4, 9}, LOOKUPS[] = {0, 3, 5, 9};
    put_record(&lent, (struct call){.operation = PAUSE, .now = 9, .signer = 1});
    for (size_t each = 0; each < 4; each++) {
        refuse_record(RECORDS[each]);
        refuse_answer(PASUMORIP_RECORD_BYTES, ANSWERS[each]);
        refuse_answer(RECORDS[each], ANSWERS[each]);
        refuse_question(TOLD[each]);
        refuse_lookup(IN_STAKES, LOOKUPS[each]);
        refuse_lookup(IN_OFFERS, LOOKUPS[each]);
    }
}

void lengths(void)
{
    for (size_t each = 0; each < sizeof STAKES_WORDS / sizeof *STAKES_WORDS; each++) refuse_tables(STAKES_WORDS[each], 4, 12);
    for (size_t each = 0; each < sizeof OFFERS_WORDS / sizeof *OFFERS_WORDS; each++) refuse_tables(5, OFFERS_WORDS[each], 12);
    for (size_t each = 0; each < sizeof BOOKS_WORDS / sizeof *BOOKS_WORDS; each++) refuse_tables(5, 4, BOOKS_WORDS[each]);
    take_tables(1, 1);
    take_tables(MOST_STAKES, MOST_OFFERS);

    lend_well_formed(&lent);
    refuse_records_and_answers();
    lend(&lent, 0, 0, &EMPTY);
    refuse_records_and_answers();
}
