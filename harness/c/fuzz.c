/*
 * A target for libFuzzer over the five C functions, linked with the proved library. An input is eight control bytes and
 * a session: they shorten a buffer by a byte or change a count, a record or a status byte before some pass, and name a
 * surface. Checked after every call: the guard bytes around each buffer are as they were, and a refusal left every byte.
 * The library is not instrumented, so that what the functions answer stands in for coverage: each new pair of number and
 * place, and each new size of a list, is told to the fuzzer as a counter of its own.
 */
#include <stdlib.h>
#include <string.h>

#include "deskcheck.h"

enum { GUARD = 64, CONTROL = 8, MOST_PASSES = 6, SIZES = 16, FUNCTIONS = 4, COUNTERS = 5 * 64 * SIZES };

__attribute__((section("__libfuzzer_extra_counters"))) static volatile uint8_t counters[COUNTERS];

/* A buffer between guard bytes, and what it held before a call. */
struct lent {
    uint8_t bytes[GUARD + DESKCHECK_ACTIONS_LEN + GUARD];
    uint8_t before[DESKCHECK_ACTIONS_LEN];
    size_t length;
};

static struct lent discards, actions, clears, status, rows;

static uint8_t *start(struct lent *b)
{
    return b->bytes + GUARD;
}

static uint32_t number_at(const uint8_t *bytes)
{
    return bytes[0] | (uint32_t)bytes[1] << 8 | (uint32_t)bytes[2] << 16 | (uint32_t)bytes[3] << 24;
}

/* A buffer of zeros between guard bytes. */
static void lend(struct lent *b, size_t length)
{
    memset(b->bytes, 0xa5, GUARD);
    memset(start(b), 0, length);
    memset(start(b) + length, 0xa5, GUARD);
    b->length = length;
}

static void keep(struct lent *b)
{
    memcpy(b->before, start(b), b->length);
}

/* Ends the run unless the guards stand and, after a refusal, every byte does. */
static void hold(struct lent *b, uint32_t number)
{
    for (int i = 0; i < GUARD; i++)
        if (b->bytes[i] != 0xa5 || start(b)[b->length + i] != 0xa5)
            abort();
    if (number && memcmp(b->before, start(b), b->length))
        abort();
}

static void keep_all(void)
{
    keep(&discards);
    keep(&actions);
    keep(&clears);
    keep(&status);
}

static void hold_all(uint32_t number)
{
    hold(&discards, number);
    hold(&actions, number);
    hold(&clears, number);
    hold(&status, number);
}

/* Tells the fuzzer of an answer: one counter for each function, number and place. */
static void tell(uint32_t function, uint32_t number, uint32_t place)
{
    counters[(function * 64 + number % 64) * SIZES + place % SIZES] = 1;
}

/* And of a list's length, by its size. */
static void tell_length(uint32_t list, uint32_t length)
{
    uint32_t size = 0;
    while (length) {
        size++;
        length >>= 1;
    }
    counters[FUNCTIONS * 64 * SIZES + list * SIZES + size % SIZES] = 1;
}

static uint32_t submit(const uint8_t *session, size_t length)
{
    keep_all();
    uint32_t number = deskcheck_submit(session, length, start(&discards), discards.length, start(&actions),
                                       actions.length, start(&clears), clears.length, start(&status), status.length);
    hold_all(number);
    tell(1, number, 0);
    return number;
}

static void check(const uint8_t *session, size_t length, uint32_t pass)
{
    keep_all();
    struct deskcheck_reply reply =
        deskcheck_pass(session, length, pass, start(&discards), discards.length, start(&actions), actions.length,
                       start(&clears), clears.length, start(&status), status.length);
    hold_all(reply.number);
    if (reply.count > DESKCHECK_MOST_ATTACHMENTS || reply.clears > number_at(start(&clears)))
        abort();
    tell(0, reply.number, reply.place);
    tell_length(0, number_at(start(&discards)));
    tell_length(1, number_at(start(&actions)));
    tell_length(2, reply.clears);
}

/* The index of the surface that a control byte names: the session's refusal, or no surface, or a place among the bytes. */
static void place(const uint8_t *session, size_t length, uint8_t control, uint32_t refusal)
{
    uint32_t texture = control & 3, mip = control >> 2 & 3, layer = control >> 4 & 1, slice = control >> 5;
    struct deskcheck_index at = deskcheck_surface_index(session, length, texture, mip, layer, slice);
    if (at.number != (refusal ? refusal : at.number ? 6 : 0) || at.index >= DESKCHECK_MOST_SURFACES)
        abort();
    if (at.number && at.index)
        abort();
    tell(3, at.number, at.index);
}

/* Changes a byte of what is lent, as the control bytes say. */
static void tamper(const uint8_t *control)
{
    struct lent *lists[] = {&discards, &actions, &clears, &status};
    struct lent *b = lists[control[2] & 3];
    size_t at = (control[3] | (size_t)control[4] << 8) % b->length;
    start(b)[at] = control[5];
}

int LLVMFuzzerTestOneInput(const uint8_t *data, size_t size)
{
    if (size < CONTROL)
        return 0;
    const uint8_t *session = data + CONTROL;
    size_t length = size - CONTROL;
    uint8_t shorter = data[0];
    lend(&discards, DESKCHECK_DISCARDS_LEN - (shorter == 1));
    lend(&actions, DESKCHECK_ACTIONS_LEN - (shorter == 2));
    lend(&clears, DESKCHECK_CLEARS_LEN - (shorter == 3));
    lend(&status, DESKCHECK_STATUS_LEN - (shorter == 4));
    lend(&rows, DESKCHECK_ROWS_LEN - (shorter == 5));
    uint32_t refusal = deskcheck_session_refusal(session, length);
    keep(&rows);
    uint32_t whole = deskcheck_session(session, length, start(&rows), rows.length);
    hold(&rows, whole);
    tell(2, whole, refusal);
    place(session, length, data[7], refusal);
    uint32_t passes = refusal ? 1 : number_at(session + DESKCHECK_PASS_COUNT_AT);
    for (uint32_t pass = 0; pass <= passes && pass < MOST_PASSES; pass++) {
        if (pass == data[1])
            tamper(data);
        check(session, length, pass);
        if (data[6] >> pass & 1)
            submit(session, length);
    }
    return 0;
}
