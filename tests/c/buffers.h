/* Writes into a lent buffer between guard bytes, each checked: its code, the bytes that it writes, and that all others stay as they were. */
#ifndef BUFFERS_H
#define BUFFERS_H

#include "harness.h"

enum { MOST_BYTES = 160 };

/* As wide as a writer takes them. */
struct fields {
    uint64_t operation, pool, reply, now, signer, subject, other;
    int64_t amount;
};

/* A buffer's length, and a place in it, behind it or far from it. */
struct place { size_t length, at; };

struct fields fields_of(const struct call *call);

/* One write: of a head; of a call's record; of fields that are no record's. */
void write_head(struct place place, uint64_t admin);
void write_call(struct place place, const struct call *call, bool malformed);
void refuse_fields(struct place place, const struct fields *fields);

/* Lends the buffer for these bytes and answers the code that a write of them is to have. Where it is DONE they are expected there. */
uint8_t lend_buffer(struct place place, bool malformed, const uint8_t *bytes, size_t count);

/* Each writes to the buffer and answers the code. */
uint8_t put_head(struct place place, uint64_t admin);
uint8_t put_fields(struct place place, const struct fields *fields);

const uint8_t *buffer_at(size_t at);
void check_code(uint8_t code, uint8_t wanted);
void check_buffer(void);

#endif
