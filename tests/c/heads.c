/* The two ways to a fresh set of tables: an admin, and a log's head. */
#include <string.h>

#include "harness.h"

static const uint8_t HEAD[PASUMORIP_HEAD_BYTES] = {'P', 'O', 'L', 1, 0, 0, 0, 0, 1};

static struct lent lent, before;

/* Tables of words that no call would take, with a head beside them. */
static void lend_any(const uint8_t *head, size_t bytes)
{
    lend(&lent, STAKE_ROOMS, OFFER_ROOMS, &WELL_FORMED);
    memset(lent.stakes, 0xa5, lent.stakes_words * sizeof *lent.stakes);
    memset(lent.offers, 0xa5, lent.offers_words * sizeof *lent.offers);
    memset(lent.books, 0xa5, lent.books_words * sizeof *lent.books);
    memcpy(lent.bytes, head, bytes);
    before = lent;
}

static void check_fresh(uint8_t code, uint64_t admin)
{
    check(code == PASUMORIP_DONE, "the code is %d, and 0 is expected", code);
    check_tables(&lent, &(struct tables){.books = {[ADMIN] = admin}});
}

static void begin_with(uint64_t admin)
{
    lend_any(HEAD, sizeof HEAD);
    uint8_t code = pasumorip_fresh(TABLES(&lent), admin);
    if (admin == 0)
        check_untouched(code, PASUMORIP_MALFORMED, &lent, &before);
    else
        check_fresh(code, admin);
}

/* Admin 0 where the head is to be refused. */
static void open_with(const uint8_t *head, uint64_t admin)
{
    lend_any(head, sizeof HEAD);
    uint8_t code = pasumorip_open(TABLES(&lent), lent.bytes, sizeof HEAD);
    if (admin == 0)
        check_untouched(code, PASUMORIP_MALFORMED, &lent, &before);
    else
        check_fresh(code, admin);
}

/* A changed byte of the first eight spoils the head; of the others it changes the admin. */
static void open_with_each_byte_changed(void)
{
    for (size_t place = 0; place < sizeof HEAD; place++)
        for (unsigned byte = 0; byte <= UINT8_MAX; byte++) {
            uint8_t head[sizeof HEAD];
            uint64_t admin = 1;
            memcpy(head, HEAD, sizeof HEAD);
            head[place] = (uint8_t)byte;
            if (place < 8 && byte != HEAD[place]) admin = 0;
            if (place == 8) admin = byte;
            if (place > 8) admin |= (uint64_t)byte << 8 * (place - 8);
            about("a head with %u at byte %zu", byte, place);
            open_with(head, admin);
        }
}

void heads(void)
{
    about("a fresh set");
    begin_with(1);
    begin_with(UINT64_MAX);
    begin_with(0);

    open_with_each_byte_changed();
    static const size_t LENGTHS[] = {0, 1, 8, 15, 17, 48};
    for (size_t each = 0; each < sizeof LENGTHS / sizeof *LENGTHS; each++) {
        about("a head of %zu bytes", LENGTHS[each]);
        lend_any(HEAD, sizeof HEAD);
        check_untouched(pasumorip_open(TABLES(&lent), lent.bytes, LENGTHS[each]), PASUMORIP_MALFORMED, &lent, &before);
    }
    about("a good head and no room for a stake");
    lend_any(HEAD, sizeof HEAD);
    check_untouched(pasumorip_open(lent.stakes, 0, lent.offers, lent.offers_words, lent.books, lent.books_words, lent.bytes, sizeof HEAD),
                    PASUMORIP_BAD_TABLES, &lent, &before);
}
