/* Document 01's sample, and its answers as they are printed there. */
#include <inttypes.h>
#include <stdio.h>
#include <string.h>

#include "harness.h"

static const char PRINTED[] = "1 0 0 0\n"
                              "in 7 2000000\n"
                              "2 9 0 0\n"
                              "3 6 0 0\n";

static const struct call RECORDS[] = {
    {.operation = STAKE, .pool = BALANCED, .signer = 7, .subject = 7, .amount = 2000000},
    {.operation = WITHDRAW, .pool = BALANCED, .signer = 7, .subject = 7, .amount = 3000000},
    {.operation = STAKE, .pool = BALANCED, .signer = 8, .subject = 8, .amount = 999999},
};

/* The tables after the first record; the others change nothing. */
static const struct tables FIRST_STAKE = {.stakes = {{BALANCED, 7, 2000000, 0, 0}}, .books = {[BALANCED] = 2000000, [ADMIN] = 1}};

static size_t print_answer(char *text, size_t room, size_t number, const uint64_t *answer)
{
    size_t length = (size_t)snprintf(text, room, "%zu %" PRIu64 " %" PRId64 " %" PRId64 "\n", number, answer[0], (int64_t)answer[1],
                                     (int64_t)answer[2]);
    for (const uint64_t *transfer = answer + 3; transfer < answer + PASUMORIP_ANSWER_WORDS; transfer += 3)
        if (transfer[0] != 0)
            length += (size_t)snprintf(text + length, room - length, "%s %" PRIu64 " %" PRId64 "\n", transfer[0] == IN ? "in" : "out",
                                       transfer[1], (int64_t)transfer[2]);
    return length;
}

void sample(void)
{
    static struct lent lent;
    char text[1000];
    size_t length = 0;
    about("the three records");
    lend(&lent, MOST_STAKES, MOST_OFFERS, &WELL_FORMED);
    check(pasumorip_fresh(TABLES(&lent), 1) == PASUMORIP_DONE, "a fresh set is refused");
    check_tables(&lent, &(struct tables){.books = {[ADMIN] = 1}});
    for (size_t record = 0; record < sizeof RECORDS / sizeof *RECORDS; record++) {
        put_record(&lent, RECORDS[record]);
        uint8_t code = pasumorip_apply(TABLES(&lent), lent.bytes, lent.bytes_length, lent.answer, lent.answer_words);
        check(code == lent.answer[0], "record %zu returns %d, and its answer says %d", record + 1, code, (int)lent.answer[0]);
        length += print_answer(text + length, sizeof text - length, record + 1, lent.answer);
        check_tables(&lent, &FIRST_STAKE);
    }
    check(strcmp(text, PRINTED) == 0, "the answers are\n%sand expected are\n%s", text, PRINTED);
}
