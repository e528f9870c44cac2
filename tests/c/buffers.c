#include "buffers.h"

#include <inttypes.h>
#include <string.h>

enum { GUARD_BYTES = 64 };

static uint8_t memory[GUARD_BYTES + MOST_BYTES + GUARD_BYTES], expected[sizeof memory];

/* They differ from place to place, so that one moved shows. */
static const uint8_t *untouched(void)
{
    static uint8_t bytes[sizeof memory];
    if (bytes[0] == 0)
        for (size_t byte = 0; byte < sizeof bytes; byte++) bytes[byte] = (uint8_t)(0x81 + byte % 101);
    return bytes;
}

static size_t bytes_left(struct place place)
{
    size_t left = 0;
    for (size_t byte = place.at; byte < place.length; byte++) left++;
    return left;
}

uint8_t lend_buffer(struct place place, bool malformed, const uint8_t *bytes, size_t count)
{
    memcpy(memory, untouched(), sizeof memory);
    memcpy(expected, untouched(), sizeof expected);
    if (malformed) return PASUMORIP_MALFORMED;
    if (bytes_left(place) < count) return PASUMORIP_TABLE_FULL;
    memcpy(expected + GUARD_BYTES + place.at, bytes, count);
    return PASUMORIP_DONE;
}

uint8_t put_head(struct place place, uint64_t admin)
{
    return pasumorip_write_head(memory + GUARD_BYTES, place.length, place.at, admin);
}

uint8_t put_fields(struct place place, const struct fields *f)
{
    return pasumorip_write_record(memory + GUARD_BYTES, place.length, place.at, f->operation, f->pool, f->reply, f->now, f->signer,
                                  f->subject, f->other, f->amount);
}

const uint8_t *buffer_at(size_t at)
{
    return memory + GUARD_BYTES + at;
}

void check_code(uint8_t code, uint8_t wanted)
{
    check(code == wanted, "the code is %d, and %d is expected", code, wanted);
}

void check_buffer(void)
{
    if (memcmp(memory, expected, sizeof memory) == 0) {
        check(true, "the same");
        return;
    }
    size_t byte = 0;
    while (memory[byte] == expected[byte]) byte++;
    check(false, "byte %td of the buffer is %d, and %d is expected", (ptrdiff_t)byte - GUARD_BYTES, memory[byte], expected[byte]);
}

void write_head(struct place place, uint64_t admin)
{
    uint8_t head[PASUMORIP_HEAD_BYTES];
    about("a head of admin %" PRIu64 " at %zu of %zu", admin, place.at, place.length);
    make_head(head, admin);
    uint8_t wanted = lend_buffer(place, admin == 0, head, sizeof head);
    check_code(put_head(place, admin), wanted);
    check_buffer();
}

struct fields fields_of(const struct call *call)
{
    return (struct fields){call->operation, call->pool,    call->reply, call->now,
                           call->signer,    call->subject, call->other, (int64_t)call->amount};
}

/* They are many, so that only those that differ are put in words. */
static void write_fields(struct place place, const struct fields *f, uint8_t wanted)
{
    uint8_t code = put_fields(place, f);
    if (code != wanted || memcmp(memory, expected, sizeof memory) != 0)
        about("%" PRIx64 " %" PRIx64 " %" PRIx64 " %" PRIx64 " %" PRIx64 " %" PRIx64 " %" PRIx64 " %" PRIx64 " at %zx of %zx", f->operation,
              f->pool, f->reply, f->now, f->signer, f->subject, f->other, (uint64_t)f->amount, place.at, place.length);
    check_code(code, wanted);
    check_buffer();
}

void write_call(struct place place, const struct call *call, bool malformed)
{
    struct fields fields = fields_of(call);
    uint8_t record[PASUMORIP_RECORD_BYTES];
    make_record(record, *call);
    write_fields(place, &fields, lend_buffer(place, malformed, record, sizeof record));
}

void refuse_fields(struct place place, const struct fields *fields)
{
    write_fields(place, fields, lend_buffer(place, true, NULL, PASUMORIP_RECORD_BYTES));
}
