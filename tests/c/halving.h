/* Tables of many rows, and a plain model of a lookup in them: the rows that it reads, listed, and the place, counted row by row. */
#ifndef HALVING_H
#define HALVING_H

#include "harness.h"

/* A table's used rows, about a quarter of them in each pool, where they have the even numbers from 2 on. */
struct rows {
    enum table table;
    uint64_t used, rooms;
};

/* The first row that is of a pool or a later one. */
uint64_t first_of(const struct rows *rows, uint64_t pool);

uint64_t pool_of(const struct rows *rows, uint64_t row);
uint64_t number_of(const struct rows *rows, uint64_t row);

/* Lends them; the other table is empty. */
void lend_rows(struct lent *lent, const struct rows *rows);

size_t binary_digits(uint64_t number);

/* What a lookup is to answer. Checks of the rows read that each is a used one, that none is read twice, and that they are no more than the
 * used rows have binary digits. */
struct found wanted_of(const struct rows *rows, struct lookup lookup);

#endif
