/*
 * example FILE loads a session file, checks it pass by pass on fresh lists, submits each buffer at its
 * end, and prints the lines that `deskcheck` prints. It sees that the status byte of each discarded
 * surface then says empty, and that the whole session in one call has the same rows.
 */
#include <stdio.h>
#include <stdlib.h>

#include "deskcheck.h"

/* A fresh session's lists. */
static uint8_t discards[DESKCHECK_DISCARDS_LEN];
static uint8_t actions[DESKCHECK_ACTIONS_LEN];
static uint8_t clears[DESKCHECK_CLEARS_LEN];
static uint8_t status[DESKCHECK_STATUS_LEN];
static uint8_t rows[DESKCHECK_ROWS_LEN];

/* The little-endian number of four bytes. */
static uint32_t number_at(const uint8_t *bytes)
{
    return bytes[0] | (uint32_t)bytes[1] << 8 | (uint32_t)bytes[2] << 16 | (uint32_t)bytes[3] << 24;
}

/* The file's bytes and their number, or NULL. */
static uint8_t *load(const char *name, size_t *length)
{
    FILE *file = fopen(name, "rb");
    if (!file)
        return NULL;
    size_t room = 1 << 16;
    uint8_t *bytes = malloc(room);
    *length = 0;
    while (bytes) {
        *length += fread(bytes + *length, 1, room - *length, file);
        if (*length < room)
            break;
        room *= 2;
        uint8_t *more = realloc(bytes, room);
        if (!more)
            free(bytes);
        bytes = more;
    }
    fclose(file);
    return bytes;
}

/* Whether a buffer ends with the pass: its field is 1, or it is the last. */
static int ends_buffer(const uint8_t *session, uint32_t pass, uint32_t passes)
{
    const uint8_t *row = session + number_at(session + DESKCHECK_PASS_OFFSET_AT) + (size_t)pass * DESKCHECK_PASS_LEN;
    return number_at(row + DESKCHECK_PASS_ENDS_AT) == 1 || pass + 1 == passes;
}

/* Whether a row of the whole session has these nine numbers. */
static int same_row(uint32_t pass, const uint32_t *numbers)
{
    for (int i = 0; i < DESKCHECK_ROW_NUMBERS; i++)
        if (number_at(rows + pass * DESKCHECK_ROW_LEN + 4 * i) != numbers[i])
            return 0;
    return 1;
}

/* Whether the status byte of the surface of a record says that it is empty. */
static int empty(const uint8_t *session, size_t length, const uint8_t *record)
{
    struct deskcheck_index at = deskcheck_surface_index(session, length, number_at(record), number_at(record + 4),
                                                        number_at(record + 8), number_at(record + 12));
    return at.number == 0 && (status[at.index] & 1) == 0;
}

/* Submits the buffer. Its discards are then empty surfaces; their records still stand behind the count. */
static int submit(const uint8_t *session, size_t length)
{
    uint32_t discarded = number_at(discards);
    int right = deskcheck_submit(session, length, discards, sizeof discards, actions, sizeof actions,
                                 clears, sizeof clears, status, sizeof status) == 0;
    for (uint32_t i = 0; i < discarded; i++)
        right &= empty(session, length, discards + DESKCHECK_COUNT_LEN + i * DESKCHECK_SURFACE_LEN);
    return right;
}

/* Checks one pass, prints its line, and submits where its buffer ends. 0 where something is wrong. */
static int check_pass(const uint8_t *session, size_t length, uint32_t pass, uint32_t passes)
{
    struct deskcheck_reply r =
        deskcheck_pass(session, length, pass, discards, sizeof discards, actions, sizeof actions,
                       clears, sizeof clears, status, sizeof status);
    const uint32_t line[DESKCHECK_ROW_NUMBERS] = {pass,     r.number,  r.place,  r.earlier,          r.width,
                                                  r.height, r.samples, r.clears, number_at(discards)};
    for (int i = 0; i < DESKCHECK_ROW_NUMBERS; i++)
        printf("%u%c", (unsigned)line[i], i + 1 == DESKCHECK_ROW_NUMBERS ? '\n' : ' ');
    int submitted = !ends_buffer(session, pass, passes) || submit(session, length);
    return submitted && same_row(pass, line);
}

int main(int count, char **words)
{
    size_t length;
    uint8_t *session = count == 2 ? load(words[1], &length) : NULL;
    if (!session) {
        fprintf(stderr, "example FILE: a session file\n");
        return 2;
    }
    uint32_t refusal = deskcheck_session(session, length, rows, sizeof rows);
    int right = refusal == deskcheck_session_refusal(session, length);
    if (refusal != 0) {
        printf("session %u\n", (unsigned)refusal);
    } else {
        uint32_t passes = number_at(session + DESKCHECK_PASS_COUNT_AT);
        for (uint32_t pass = 0; pass < passes; pass++)
            right &= check_pass(session, length, pass, passes);
    }
    free(session);
    if (!right)
        fprintf(stderr, "the calls, the status bytes and the whole session do not agree\n");
    return right ? 0 : 1;
}
