#include "halving.h"

enum { MOST_READS = 64 };

uint64_t first_of(const struct rows *rows, uint64_t pool)
{
    return pool * rows->used / 4;
}

uint64_t pool_of(const struct rows *rows, uint64_t row)
{
    uint64_t pool = FLAT;
    while (first_of(rows, pool) > row) pool--;
    return pool;
}

uint64_t number_of(const struct rows *rows, uint64_t row)
{
    return 2 * (row - first_of(rows, pool_of(rows, row)) + 1);
}

void lend_rows(struct lent *lent, const struct rows *rows)
{
    const bool stakes = rows->table == IN_STAKES;
    lend(lent, stakes ? rows->rooms : 1, stakes ? 1 : rows->rooms, &(struct tables){.books = {[ADMIN] = 1}});
    for (uint64_t row = 0; row < rows->used; row++) {
        uint64_t pool = pool_of(rows, row);
        uint64_t *words = stakes ? lent->stakes + PASUMORIP_STAKE_WORDS * row : lent->offers + PASUMORIP_OFFER_WORDS * row;
        words[0] = pool;
        words[1] = number_of(rows, row);
        words[2] = 1;
        lent->books[stakes ? pool : UNPAID + pool]++;
    }
}

static bool below(const struct rows *rows, uint64_t row, struct lookup lookup)
{
    uint64_t pool = pool_of(rows, row);
    return pool < lookup.pool || (pool == lookup.pool && number_of(rows, row) < lookup.number);
}

/* The rows that halving reads, in their order, and how many they are. */
static size_t rows_read(const struct rows *rows, struct lookup lookup, uint64_t read[MOST_READS])
{
    size_t count = 0;
    for (uint64_t from = 0, to = rows->used; from < to && count < MOST_READS; count++) {
        read[count] = from + (to - from) / 2;
        if (below(rows, read[count], lookup))
            from = read[count] + 1;
        else
            to = read[count];
    }
    return count;
}

size_t binary_digits(uint64_t number)
{
    size_t digits = 0;
    for (; number > 0; number /= 2) digits++;
    return digits;
}

static void check_reads(const struct rows *rows, const uint64_t *read, size_t count)
{
    bool used = true, once = true;
    for (size_t each = 0; each < count; each++) {
        used &= read[each] < rows->used;
        for (size_t other = 0; other < each; other++) once &= read[other] != read[each];
    }
    check(count <= binary_digits(rows->used), "%zu rows are read", count);
    check(used, "a row is read that is not used");
    check(once, "a row is read twice");
}

struct found wanted_of(const struct rows *rows, struct lookup lookup)
{
    uint64_t read[MOST_READS];
    struct found wanted = {.code = PASUMORIP_DONE, .reads = rows_read(rows, lookup, read)};
    check_reads(rows, read, wanted.reads);
    for (uint64_t row = 0; row < rows->used; row++) {
        wanted.place += below(rows, row, lookup);
        wanted.row |= pool_of(rows, row) == lookup.pool && number_of(rows, row) == lookup.number;
    }
    return wanted;
}
