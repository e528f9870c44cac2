/* Pasumorip: a proved settlement engine for pools of stakes. The functions of libpasumorip.a, for C.
 *
 * The caller lends three tables of 64-bit words and keeps them; the library keeps nothing and calls nothing but C's memset.
 *
 * What a caller owes, since no function can test it: each pointer is valid for as many elements as the length beside it says, to be read and,
 * where it is not const, written; it is aligned for its type, and not null even where that length is 0; no two of the lent parts overlap; and
 * nobody else uses them until the function is back.
 *
 * Given that, whatever the words, bytes, lengths and arguments are, each function ends and answers a code. A call that answers a code other
 * than PASUMORIP_DONE has changed no bit of the tables. Tables that were lent with any words at all are tested, and refused with
 * PASUMORIP_BAD_TABLES, never trusted.
 *
 * Tables. Rows come first, ascending by pool and then by number; unused rows are all zero. Pools: 0 Conservative, 1 Balanced,
 * 2 Aggressive, 3 flat. Numbers marked (signed) are in two's complement.
 *   stakes  1 to 1,024 rows of 5 words: pool, account, stake (signed), since, accrual
 *   offers  1 to 512 rows of 4 words: pool, offer, reserved, paid
 *   books   12 words: balances of pools 0 to 3 (signed), unpaid reserved sums of pools 0 to 3, admin, payout caller (0: none), paused (0 or
 *           1), rate of the flat pool in basis points
 */
#ifndef PASUMORIP_H
#define PASUMORIP_H

#include <stddef.h>
#include <stdint.h>

#ifdef __cplusplus
extern "C" {
#endif

enum pasumorip_code {
    PASUMORIP_DONE = 0,
    PASUMORIP_MALFORMED = 1,            /* the call itself: a field out of range, or an unused one that is not 0 */
    PASUMORIP_BAD_TABLES = 2,           /* the lent tables are not well formed */
    PASUMORIP_PAUSED = 3,
    PASUMORIP_NO_PAYER = 4,             /* no payout caller is set */
    PASUMORIP_NOT_ALLOWED = 5,          /* the signer is not the staker, payout caller or admin needed */
    PASUMORIP_INVALID_INPUT = 6,        /* amount 0 or less, or a stake that would be below 1,000,000 */
    PASUMORIP_NO_REGISTRY = 7,
    PASUMORIP_INVALID_TRANSITION = 8,   /* the invoice is not Defaulted */
    PASUMORIP_INSUFFICIENT_BALANCE = 9, /* a withdrawal above the stake, or a claim with no cover left */
    PASUMORIP_OVER_LIMIT = 10,
    PASUMORIP_TABLE_FULL = 11           /* no row is free, or a buffer has too few bytes left */
};

enum {
    PASUMORIP_STAKE_WORDS = 5,
    PASUMORIP_OFFER_WORDS = 4,
    PASUMORIP_BOOKS_WORDS = 12,
    PASUMORIP_HEAD_BYTES = 16,
    PASUMORIP_RECORD_BYTES = 48,
    PASUMORIP_ANSWER_WORDS = 9,
    PASUMORIP_TOLD_WORDS = 3,
    PASUMORIP_LOOKUP_WORDS = 4,
    PASUMORIP_PROGRESS_WORDS = 3,
    PASUMORIP_LONGEST_TEXT = 178
};

/* Clears every row and figure: the given admin, no payout caller, unpaused, rate 0. Admin 0 is refused with MALFORMED, lengths outside
 * the limits with BAD_TABLES. */
uint8_t pasumorip_fresh(uint64_t *stakes, size_t stakes_words, uint64_t *offers, size_t offers_words, uint64_t *books, size_t books_words,
                        uint64_t admin);

/* The same with the admin of a log's head: 16 bytes, `POL`, version 1 (16 bits), three zero bytes, admin (64 bits), little-endian. Any
 * other head is refused with MALFORMED. */
uint8_t pasumorip_open(uint64_t *stakes, size_t stakes_words, uint64_t *offers, size_t offers_words, uint64_t *books, size_t books_words,
                       const uint8_t *head, size_t head_bytes);

/* One call, as a log's record of 48 bytes, little-endian: operation, pool, registry's reply (one byte each), five zero bytes, then now,
 * signer, subject, other, amount (signed), 64 bits each. Operations: 1 stake, 2 withdraw (subject the staker), 3 pay (subject the invoice,
 * other the beneficiary), 4 reserve, 5 claim (subject the offer, claim's other the lender), 6 rate (pool 3, amount the rate), 7 pause,
 * 8 unpause, 9 payout caller (subject).
 * Writes 9 words to answer: code, first, second (both signed), then for each of two transfers its kind (0 none, 1 in, 2 out), account and
 * amount. Returns the code. Every refusal writes its code, two zeros and no transfer, and so does a record of another length, which is refused
 * with MALFORMED. An answer of another length is refused with MALFORMED too, and then nothing is written. */
uint8_t pasumorip_apply(uint64_t *stakes, size_t stakes_words, uint64_t *offers, size_t offers_words, uint64_t *books, size_t books_words,
                        const uint8_t *record, size_t record_bytes, uint64_t *answer, size_t answer_words);

/* One question. kind 1: an account's stake in a pool. 2: its accrued yield at a time, banked and running together, which is below zero where
 * a stake below zero has run long enough; beyond plus or minus 10^15 it is refused with OVER_LIMIT. 3: a pool's balance and unpaid reserved
 * sum. 4: its number of stakers. 5: what is reserved for an offer in a pool, and what of it is paid. `number` is the account or the offer;
 * fields that a kind does not use are 0. Writes 3 words to answer: code, first, second (both signed). Returns the code; an answer of another
 * length is refused with MALFORMED and nothing is written. */
uint8_t pasumorip_query(const uint64_t *stakes, size_t stakes_words, const uint64_t *offers, size_t offers_words, const uint64_t *books,
                        size_t books_words, uint64_t kind, uint64_t pool, uint64_t number, uint64_t time, uint64_t *answer,
                        size_t answer_words);

/* Where an account's stake row or an offer's row is in its table, or would be put in, and how many rows were read to tell it: at most as many
 * as the number of used rows has binary digits, none of an empty table. A row's pool and number together are one read. What comes before the
 * lookup is not counted: the test of the tables, and finding how many of their rows are used.
 * Writes 4 words to answer: code; 1 where the row is there, 0 where it is not; its place, or the one at which it would be put in, from 0 on;
 * the number of rows read. Returns the code. A pool above 3 or a number of 0 is refused with MALFORMED, then tables that are not well formed
 * with BAD_TABLES: a refusal writes its code and three zeros. An answer of another length is refused with MALFORMED and nothing is written. */
uint8_t pasumorip_look_up_stake(const uint64_t *stakes, size_t stakes_words, const uint64_t *offers, size_t offers_words,
                                const uint64_t *books, size_t books_words, uint64_t pool, uint64_t account, uint64_t *answer,
                                size_t answer_words);
uint8_t pasumorip_look_up_offer(const uint64_t *stakes, size_t stakes_words, const uint64_t *offers, size_t offers_words,
                                const uint64_t *books, size_t books_words, uint64_t pool, uint64_t offer, uint64_t *answer,
                                size_t answer_words);

/* The records of a part of a log, one after the other. The tables are tested once. Runs whole records while one is there and at least
 * PASUMORIP_LONGEST_TEXT bytes of text are left, and writes what document 01's replay prints of each: its number, code and two numbers, then
 * its transfers. progress has 3 words: records run in all (in: before this part, at most 2^63; out: after it), bytes of the records taken
 * (a multiple of 48), bytes of text written. Bytes of text behind these stay as they were.
 * A progress of another length, or more records before, is refused with MALFORMED; tables that are not well formed with BAD_TABLES: then
 * nothing is written. */
uint8_t pasumorip_replay(uint64_t *stakes, size_t stakes_words, uint64_t *offers, size_t offers_words, uint64_t *books, size_t books_words,
                         const uint8_t *records, size_t record_bytes, uint8_t *text, size_t text_bytes, uint64_t *progress,
                         size_t progress_words);

/* A log's head of PASUMORIP_HEAD_BYTES, and one call's record of PASUMORIP_RECORD_BYTES, written into a lent buffer from byte `at` on as
 * pasumorip_open and pasumorip_apply read them. Returns DONE where it is written; every other byte stays as it was.
 * A refusal writes nothing. It is MALFORMED for a head whose admin is 0, and for a record that pasumorip_apply refuses so whatever the
 * tables. Operation, pool and reply are taken in 64 bits: one that no byte holds is MALFORMED too, and never cut down. Else it is TABLE_FULL
 * where fewer bytes are left from `at` on, which may be anything: behind the buffer's end none are left.
 * No tables are lent, so that no other code is given: whether books would take the call is not asked. docs/GUIDE.md has an example. */
uint8_t pasumorip_write_head(uint8_t *buffer, size_t buffer_bytes, size_t at, uint64_t admin);
uint8_t pasumorip_write_record(uint8_t *buffer, size_t buffer_bytes, size_t at, uint64_t operation, uint64_t pool, uint64_t reply,
                               uint64_t now, uint64_t signer, uint64_t subject, uint64_t other, int64_t amount);

/* The pool that an invoice's risk falls to: 0 Conservative, 1 Balanced, 2 Aggressive. Age in seconds. */
uint8_t pasumorip_assess_risk(uint64_t age, uint32_t repayments, uint32_t defaults, int64_t amount);

#ifdef __cplusplus
}
#endif

#endif
