/* What the checks of tests/link stand on: tables lent between guard words, calls as records, and every lent word compared. */
#ifndef HARNESS_H
#define HARNESS_H

#include <stdbool.h>

#include "pasumorip.h"

enum { CONSERVATIVE, BALANCED, AGGRESSIVE, FLAT };
enum { STAKE = 1, WITHDRAW, PAY, RESERVE, CLAIM, SET_RATE, PAUSE, UNPAUSE, SET_PAYOUT_CALLER };
enum { NOT_CONFIGURED, NOT_DEFAULTED, DEFAULTED };
enum { IN = 1, OUT };
enum { STAKE_OF = 1, ACCRUED, POOL, COUNT, OFFER };

/* Places in the books; the balances come first, by pool. */
enum { UNPAID = 4, ADMIN = 8, PAYOUT_CALLER, PAUSED, RATE };

enum { MOST_STAKES = 1024, MOST_OFFERS = 512, MOST_RATE = 1000000, GUARD = 4 };
#define LARGEST UINT64_C(1000000000000000)
#define LAST_SECOND UINT64_C(17179869183)

/* All that a function is lent. Each part has room for one row or word too many, and what is not lent is filled with a pattern, so that
 * comparing the whole also finds a write outside the lent parts. */
struct lent {
    uint64_t before[GUARD];
    uint64_t stakes[PASUMORIP_STAKE_WORDS * (MOST_STAKES + 1)];
    uint64_t behind_stakes[GUARD];
    uint64_t offers[PASUMORIP_OFFER_WORDS * (MOST_OFFERS + 1)];
    uint64_t behind_offers[GUARD];
    uint64_t books[PASUMORIP_BOOKS_WORDS + 1];
    uint64_t behind_books[GUARD];
    uint64_t answer[PASUMORIP_ANSWER_WORDS + 1];
    uint64_t behind_answer[GUARD];
    uint8_t bytes[PASUMORIP_RECORD_BYTES + 8]; /* a record, or a log's head */
    uint64_t behind_bytes[GUARD];
    uint64_t stakes_words, offers_words, books_words, answer_words, bytes_length;
};

/* The three tables, as every function takes them. */
#define TABLES(lent) \
    (lent)->stakes, (lent)->stakes_words, (lent)->offers, (lent)->offers_words, (lent)->books, (lent)->books_words

/* Tables by their used rows; all other words are 0. */
struct tables {
    uint64_t stakes[8][PASUMORIP_STAKE_WORDS];
    uint64_t offers[4][PASUMORIP_OFFER_WORDS];
    uint64_t books[PASUMORIP_BOOKS_WORDS];
};

/* Rows of most kinds, for checks that want any good tables, and the rooms that they are lent with. */
extern const struct tables WELL_FORMED;
enum { STAKE_ROOMS = 7, OFFER_ROOMS = 5, STAKE_ROWS = 5, OFFER_ROWS = 3 };

struct call {
    uint8_t operation, pool, reply;
    uint64_t now, signer, subject, other, amount;
};

/* One of each operation, all as they should be, and signed by the accounts of WELL_FORMED. */
extern const struct call CALLS[SET_PAYOUT_CALLER];

/* In the order of an answer's words. */
struct answer {
    uint64_t code, first, second;
    struct { uint64_t kind, account, amount; } transfers[2];
};

struct question { uint64_t kind, pool, number, time; };

/* The two tables with rows to look up. */
enum table { IN_STAKES, IN_OFFERS };

struct lookup {
    enum table table;
    uint64_t pool, number;
};

/* In the order of a lookup's words. */
struct found { uint64_t code, row, place, reads; };

struct answer refusal(uint64_t code);
struct answer done(uint64_t first, uint64_t second);
struct answer moved(uint64_t first, uint64_t second, uint64_t kind, uint64_t account, uint64_t amount);

/* What the checks that follow are about: it stands before each difference that they find. */
void about(const char *format, ...) __attribute__((format(printf, 1, 2)));

void check(bool holds, const char *format, ...) __attribute__((format(printf, 2, 3)));

/* Every word is as wanted, and the guard words around them. */
void check_same(const struct lent *got, const struct lent *wanted);
void check_tables(const struct lent *got, const struct tables *wanted);

/* A function refused with this code and wrote nothing at all. */
void check_untouched(uint8_t code, uint8_t wanted, const struct lent *got, const struct lent *before);

/* Lends tables in as many words, or in as many rooms. */
void lend_words(struct lent *lent, uint64_t stakes_words, uint64_t offers_words, uint64_t books_words, const struct tables *tables);
void lend(struct lent *lent, uint64_t stake_rooms, uint64_t offer_rooms, const struct tables *tables);
void lend_well_formed(struct lent *lent);

/* A log's head, and a call's record, byte by byte. */
void make_head(uint8_t head[PASUMORIP_HEAD_BYTES], uint64_t admin);
void make_record(uint8_t record[PASUMORIP_RECORD_BYTES], struct call call);
void put_record(struct lent *lent, struct call call);

/* Each asks the library, and checks the code, every word of the answer, that a refused call changed no word of the tables, a question or a
 * lookup never one, and nothing a word that was not lent. */
void apply(struct lent *lent, struct call call, struct answer wanted);
void ask(struct lent *lent, struct question question, uint64_t code, uint64_t first, uint64_t second);
void look_up(struct lent *lent, struct lookup lookup, struct found wanted);

/* A lookup's code, with an answer of as many words, and nothing checked. */
uint8_t lookup_code(struct lent *lent, struct lookup lookup, uint64_t answer_words);

/* Every call, question and lookup is refused as BAD_TABLES, and one that is malformed as MALFORMED. */
void check_bad_tables(struct lent *lent);

/* Runs a part's checks and prints how many they were. */
void part(const char *name, void (*checks)(void));

/* Prints how many checks there were in all. Whether all held. */
bool all_held(void);

/* The parts, each in the file of its name. */
void sample(void);
void figures(void);
void losses(void);
void lengths(void);
void lent_words(void);
void questions(void);
void lookups(void);
void heads(void);
void writing(void);
void risk(void);

#endif
