/* The energy account book, for C and C++.
 *
 * A book is ENERGY_BOOK_SIZE bytes that the caller owns and lends to each call. The functions keep nothing between calls, allocate
 * nothing, and read and write no memory but the buffers that they are lent and their own stack.
 *
 * Rules for every call:
 * - A buffer is a pointer and then its length in bytes. The pointer is never null, also where the length is 0, and all bytes are
 *   initialised. No alignment is asked.
 * - A buffer that is not const overlaps no other buffer of the same call.
 * - A book is lent to one call at a time. Readings (is_book, net, exposure, hourly_exposure) of one book may run at the
 *   same time.
 * Beyond these nothing is asked: any bytes and any lengths are answered.
 *
 * Most functions answer an outcome, a verdict with two details in one number; energy_book_verdict, energy_book_first and
 * energy_book_second take it apart. A refusal changes no lent byte. Numbers in bytes are low byte first.
 *
 * Link with libabi.a (docs/EMBEDDING.md). */
#ifndef ENERGY_BOOK_H
#define ENERGY_BOOK_H

#include <stdbool.h>
#include <stddef.h>
#include <stdint.h>

#ifdef __cplusplus
extern "C" {
#endif

/* ---- sizes of buffers, in bytes */

/* A book: exactly this. */
#define ENERGY_BOOK_SIZE 49152
/* A figure, of a net position, an exposure or an hourly exposure: at least this; the first bytes are filled. */
#define ENERGY_BOOK_FIGURE_SIZE 8
/* The fields of a request: exactly this to be written as a record, at least this to be read into. */
#define ENERGY_BOOK_FIELDS_SIZE 34
/* The longest single record: of any kind but a strip. */
#define ENERGY_BOOK_RECORD_MOST 20
/* The longest strip, and so the longest record that a call takes. */
#define ENERGY_BOOK_STRIP_MOST 484
/* The most rows of a strip. */
#define ENERGY_BOOK_STRIP_ROWS_MOST 24
/* The longest set-up. */
#define ENERGY_BOOK_SETUP_MOST 7433
/* The longest price table: 4 bytes for each hour, of PUN and then of each zone. */
#define ENERGY_BOOK_PRICES_MOST 900
/* Room for the results of any settle: 1 byte for each schedule. */
#define ENERGY_BOOK_RESULTS_MOST 256
/* Room for the balances of any settle: 8 bytes for each operator. */
#define ENERGY_BOOK_BALANCES_MOST 128

/* ---- kinds of requests */

/* A strip is a call of several registers with one proposer, all or none. Its record is 01 00 (the map), 11, the count of its rows, 1 to
 * 24, and then the record of each register, 20 bytes each: row i, from 0 on, is at 4 + 20 * i, where energy_book_write can put it. All
 * rows get consecutive numbers, of which the first is given, or none is registered. Only energy_book_call takes a strip:
 * energy_book_read and energy_book_write are for single records, and refuse kind 11 by 3.
 *
 * An ask has the fields of a register and is answered as it would be, with the number that the row would get. An accepted ask stands for
 * its account, in place of that account's earlier one, and changes nothing else; every accepted call but an ask clears all that stand. A
 * commit with all fields of the ask that stands registers it, and is answered as the ask was. */
enum energy_book_kind {
    ENERGY_BOOK_REGISTER = 1,
    ENERGY_BOOK_CONFIRM = 2,
    ENERGY_BOOK_WITHDRAW = 3,
    ENERGY_BOOK_GUARANTEE = 4,
    ENERGY_BOOK_OPEN_BATCH = 5,
    ENERGY_BOOK_UNDO = 6,
    ENERGY_BOOK_KEEP = 7,
    ENERGY_BOOK_CLOSE_GATE = 8,
    ENERGY_BOOK_SCHEDULE = 9,
    ENERGY_BOOK_SETTLE = 10,
    ENERGY_BOOK_STRIP = 11,
    ENERGY_BOOK_ASK = 12,
    ENERGY_BOOK_COMMIT = 13
};

/* ---- verdicts, and the details that go with them */

/* Of several that apply the lowest is given, but that 21 comes after 5 and before 6, 22 after 14 and before 15, and 23 after 13 and
 * before 14. A strip meets its own 2, 4, 5 and 21 first; then each number is looked for in all its rows before the next, and the first
 * such row gives the details. */
enum energy_book_verdict_number {
    ENERGY_BOOK_ACCEPTED = 0,         /* first: the row of register, confirm and commit, the row that an ask would get, the first row
                                         of a strip, the place of schedule, the rows that undo struck */
    ENERGY_BOOK_NOT_A_BOOK = 1,       /* not a book, or not 49,152 bytes */
    ENERGY_BOOK_UNREADABLE = 2,       /* record under 3 bytes, no kind, or a bit past the fields */
    ENERGY_BOOK_UNKNOWN_KIND = 3,     /* kind not 1 to 13; of a single record read or written, 11 too; of a row of a strip, any but 1 */
    ENERGY_BOOK_WRONG_MAP = 4,        /* first: wanted fields that are missing; second: fields that stand unwanted */
    ENERGY_BOOK_WRONG_LENGTH = 5,     /* of the record, the price table or the fields */
    ENERGY_BOOK_OUT_OF_RANGE = 6,     /* first: the lowest bit at fault; 12 for the price table; 1 for another proposer in a strip */
    ENERGY_BOOK_SAME_ACCOUNT = 7,     /* both accounts the same */
    ENERGY_BOOK_SETUP_SHAPE = 8,      /* the length or a count of the set-up is not one that it may have */
    ENERGY_BOOK_SETUP_VALUE = 9,      /* first: the lowest offset at fault in the set-up */
    ENERGY_BOOK_BUFFER_SHORT = 10,    /* a buffer is shorter than what is written */
    ENERGY_BOOK_WRONG_PHASE = 11,
    ENERGY_BOOK_BATCH_OPEN = 12,
    ENERGY_BOOK_NO_BATCH = 13,
    ENERGY_BOOK_ALREADY_PENDING = 14, /* a row alike in proposer, counterparty and code is still pending */
    ENERGY_BOOK_ROWS_FULL = 15,       /* 256 rows have numbers; fewer are left than a strip has */
    ENERGY_BOOK_NO_SUCH_ROW = 16,     /* the row that is named is not there, not pending, or not the caller's to end */
    ENERGY_BOOK_NOT_MIRRORED = 17,    /* the terms of a confirm do not mirror */
    ENERGY_BOOK_MARGIN_BROKEN = 18,   /* first: the lowest hour */
    ENERGY_BOOK_UNCOVERED = 19,       /* exposure would be above what is available */
    ENERGY_BOOK_SCHEDULES_FULL = 20,  /* 256 schedules stand */
    ENERGY_BOOK_STRIP_COUNT = 21,     /* a strip has not 1 to 24 rows */
    ENERGY_BOOK_STRIP_TWINS = 22,     /* two rows of a strip are alike in counterparty and code */
    ENERGY_BOOK_NO_STANDING_ASK = 23  /* no ask with the fields of this commit stands for its account */
};

/* The number of the verdict. */
static inline unsigned energy_book_verdict(uint64_t outcome) { return (unsigned)(outcome & 0xff); }

/* The first detail; 0 where the verdict has none. */
static inline unsigned energy_book_first(uint64_t outcome) { return (unsigned)(outcome >> 8 & 0xffff); }

/* The second detail; 0 where the verdict has none. */
static inline unsigned energy_book_second(uint64_t outcome) { return (unsigned)(outcome >> 24 & 0xffff); }

/* ---- functions */

/* Opens a book from the bytes of a set-up: fills all of `book`, or refuses by 1, 8 or 9. */
uint64_t energy_book_open(const uint8_t *setup, size_t setup_len, uint8_t *book, size_t book_len);

/* Whether bytes are a book. */
bool energy_book_is_book(const uint8_t *book, size_t book_len);

/* A call of any kind on a book: the request that the record says. Only settle looks at the price table and fills the first bytes of
 * `results` (a byte for each schedule, by place) and `balances` (a figure of 8 bytes for each operator). */
uint64_t energy_book_call(const uint8_t *record, size_t record_len, uint8_t *book, size_t book_len, const uint8_t *prices,
                          size_t prices_len, uint8_t *results, size_t results_len, uint8_t *balances, size_t balances_len);

/* The net position in kWh of an account in an hour, as a signed figure in the first 8 bytes of `figure`; refuses by 1, 6 or 10. */
uint64_t energy_book_net(const uint8_t *book, size_t book_len, uint8_t account, uint8_t hour, uint8_t *figure, size_t figure_len);

/* The exposure in thousandths of a cent of an operator, in the first 8 bytes of `figure`; refuses by 1, 6 or 10. */
uint64_t energy_book_exposure(const uint8_t *book, size_t book_len, uint8_t operator_number, uint8_t *figure,
                              size_t figure_len);

/* The exposure in thousandths of a cent of an operator in an hour, in the first 8 bytes of `figure`; refuses by 1, 6 or 10. The
 * figures of all hours sum to the operator's exposure. */
uint64_t energy_book_hourly_exposure(const uint8_t *book, size_t book_len, uint8_t operator_number, uint8_t hour, uint8_t *figure,
                                     size_t figure_len);

/* What a single record says: the fields of its request in the first 34 bytes of `fields`; refuses by 2, 3, 4, 5 or 10. */
uint64_t energy_book_read(const uint8_t *record, size_t record_len, uint8_t *fields, size_t fields_len);

/* Writes the record of the request that 34 bytes of fields say into the first bytes of `record`; refuses by 3, 5 or 10. */
uint64_t energy_book_write(const uint8_t *fields, size_t fields_len, uint8_t *record, size_t record_len);

/* ---- numbers in bytes */

/* Puts `value` into `width` bytes. */
static inline void energy_book_put(uint8_t *bytes, size_t width, uint64_t value) {
    size_t i;
    for (i = 0; i < width; i++) bytes[i] = (uint8_t)(value >> (8 * i) & 0xff);
}

/* The number in `width` bytes, at most 8. */
static inline uint64_t energy_book_get(const uint8_t *bytes, size_t width) {
    uint64_t value = 0;
    size_t i;
    for (i = width; i > 0; i--) value = value << 8 | bytes[i - 1];
    return value;
}

/* The signed figure in 8 bytes: a net position, an exposure, an hourly exposure or a balance. */
static inline int64_t energy_book_figure(const uint8_t bytes[ENERGY_BOOK_FIGURE_SIZE]) {
    uint64_t value = energy_book_get(bytes, ENERGY_BOOK_FIGURE_SIZE);
    return value >> 63 ? -(int64_t)(~value) - 1 : (int64_t)value;
}

/* ---- requests */

/* A request: its kind and its fields. A field that the kind has not is 0 when it is read, and is not looked at when it is written. */
struct energy_book_request {
    uint8_t kind;
    uint8_t account;
    uint8_t other;
    uint64_t code;
    uint8_t side; /* 1 sells or injects, 2 buys or withdraws */
    uint8_t first;
    uint8_t last;
    uint32_t quantity; /* kWh */
    uint16_t number;
    uint8_t operator_number;
    uint64_t guarantee; /* cents */
    uint8_t point;
    uint32_t price; /* cents per MWh */
};

/* The fields of a request in 34 bytes: in this order, each in its width. */
static inline void energy_book_put_fields(const struct energy_book_request *q, uint8_t fields[ENERGY_BOOK_FIELDS_SIZE]) {
    fields[0] = q->kind;
    fields[1] = q->account;
    fields[2] = q->other;
    energy_book_put(fields + 3, 8, q->code);
    fields[11] = q->side;
    fields[12] = q->first;
    fields[13] = q->last;
    energy_book_put(fields + 14, 4, q->quantity);
    energy_book_put(fields + 18, 2, q->number);
    fields[20] = q->operator_number;
    energy_book_put(fields + 21, 8, q->guarantee);
    fields[29] = q->point;
    energy_book_put(fields + 30, 4, q->price);
}

/* The request that 34 bytes of fields say. */
static inline void energy_book_get_fields(const uint8_t fields[ENERGY_BOOK_FIELDS_SIZE], struct energy_book_request *q) {
    q->kind = fields[0];
    q->account = fields[1];
    q->other = fields[2];
    q->code = energy_book_get(fields + 3, 8);
    q->side = fields[11];
    q->first = fields[12];
    q->last = fields[13];
    q->quantity = (uint32_t)energy_book_get(fields + 14, 4);
    q->number = (uint16_t)energy_book_get(fields + 18, 2);
    q->operator_number = fields[20];
    q->guarantee = energy_book_get(fields + 21, 8);
    q->point = fields[29];
    q->price = (uint32_t)energy_book_get(fields + 30, 4);
}

/* The length of a single record of this kind; 0 for a strip, whose length goes by its rows, and for a number that is no kind. */
static inline size_t energy_book_record_length(unsigned kind) {
    static const uint8_t lengths[14] = {0, 20, 20, 6, 12, 3, 3, 3, 3, 14, 3, 0, 20, 20};
    return kind <= 13 ? lengths[kind] : 0;
}

/* A request of any kind but settle and strip, on a book: written as a record and called. These two need energy_book_call. */
static inline uint64_t energy_book_submit(const struct energy_book_request *q, uint8_t *book, size_t book_len) {
    uint8_t fields[ENERGY_BOOK_FIELDS_SIZE], record[ENERGY_BOOK_RECORD_MOST], none[3] = {0, 0, 0};
    uint64_t outcome;
    energy_book_put_fields(q, fields);
    outcome = energy_book_write(fields, sizeof fields, record, sizeof record);
    if (energy_book_verdict(outcome) != ENERGY_BOOK_ACCEPTED) return outcome;
    return energy_book_call(record, energy_book_record_length(q->kind), book, book_len, none, 0, none + 1, 0, none + 2, 0);
}

#ifdef __cplusplus
}
#endif

#endif
