#include <stdarg.h>
#include <stdio.h>
#include <string.h>

#include "harness.h"

static const unsigned MOST_TOLD = 20;

static unsigned checked, differences;
static const char *part_name;
static char subject[200];

void part(const char *name, void (*checks)(void))
{
    unsigned before = checked;
    part_name = name;
    about("first of all");
    checks();
    printf("tests/link: %s: %u checks\n", name, checked - before);
}

bool all_held(void)
{
    if (differences > MOST_TOLD) fprintf(stderr, "tests/link: and %u more\n", differences - MOST_TOLD);
    printf("tests/link: %u checks in all, %u differences\n", checked, differences);
    return differences == 0;
}

void about(const char *format, ...)
{
    va_list values;
    va_start(values, format);
    vsnprintf(subject, sizeof subject, format, values);
    va_end(values);
}

void check(bool holds, const char *format, ...)
{
    checked++;
    if (holds || ++differences > MOST_TOLD) return;
    va_list values;
    va_start(values, format);
    fprintf(stderr, "tests/link: %s: %s: ", part_name, subject);
    vfprintf(stderr, format, values);
    fputc('\n', stderr);
    va_end(values);
}

static uint64_t word_at(const struct lent *lent, size_t word)
{
    uint64_t value;
    memcpy(&value, (const char *)lent + word * sizeof value, sizeof value);
    return value;
}

/* The part of a struct lent that a word stands in, and its place there. */
static const char *part_of(size_t word, size_t *place)
{
    static const struct { const char *name; size_t begin; } PARTS[] = {
        {"the guard before stakes", offsetof(struct lent, before)},
        {"stakes", offsetof(struct lent, stakes)},
        {"the guard behind stakes", offsetof(struct lent, behind_stakes)},
        {"offers", offsetof(struct lent, offers)},
        {"the guard behind offers", offsetof(struct lent, behind_offers)},
        {"books", offsetof(struct lent, books)},
        {"the guard behind books", offsetof(struct lent, behind_books)},
        {"answer", offsetof(struct lent, answer)},
        {"the guard behind answer", offsetof(struct lent, behind_answer)},
        {"the bytes lent", offsetof(struct lent, bytes)},
        {"the guard behind the bytes", offsetof(struct lent, behind_bytes)},
        {"the lengths", offsetof(struct lent, stakes_words)},
    };
    size_t part = sizeof PARTS / sizeof *PARTS - 1;
    while (PARTS[part].begin > word * sizeof(uint64_t)) part--;
    *place = word - PARTS[part].begin / sizeof(uint64_t);
    return PARTS[part].name;
}

void check_same(const struct lent *got, const struct lent *wanted)
{
    if (memcmp(got, wanted, sizeof *got) == 0) {
        check(true, "the same");
        return;
    }
    size_t word = 0, place;
    while (word_at(got, word) == word_at(wanted, word)) word++;
    const char *name = part_of(word, &place);
    check(false, "word %zu of %s is %lld, and %lld is expected", place, name, (long long)word_at(got, word),
          (long long)word_at(wanted, word));
}

void check_untouched(uint8_t code, uint8_t wanted, const struct lent *got, const struct lent *before)
{
    check(code == wanted, "the code is %d, and %d is expected", code, wanted);
    check_same(got, before);
}
