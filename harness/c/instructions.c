/*
 * instructions FILE checks a session file once pass by pass on fresh lists, with a submission at each
 * buffer's end, and once in one call. It prints nothing: tools/instructions.sh counts what the C
 * functions take.
 */
#include <stdio.h>

#include "deskcheck.h"

static uint8_t session[DESKCHECK_LONGEST_SESSION];
/* A fresh session's lists. */
static uint8_t discards[DESKCHECK_DISCARDS_LEN];
static uint8_t actions[DESKCHECK_ACTIONS_LEN];
static uint8_t clears[DESKCHECK_CLEARS_LEN];
static uint8_t status[DESKCHECK_STATUS_LEN];
static uint8_t rows[DESKCHECK_ROWS_LEN];

/* The little-endian number of four bytes. */
static uint32_t number_at(const uint8_t *bytes)
{
    return bytes[0] | (uint32_t)bytes[1] << 8 | (uint32_t)bytes[2] << 16 | (uint32_t)bytes[3] << 24;
}

int main(int count, char **words)
{
    FILE *file = count == 2 ? fopen(words[1], "rb") : NULL;
    if (!file)
        return 2;
    size_t length = fread(session, 1, sizeof session, file);
    fclose(file);
    if (deskcheck_session(session, length, rows, sizeof rows) != 0)
        return 1;
    uint32_t passes = number_at(session + DESKCHECK_PASS_COUNT_AT);
    const uint8_t *row = session + number_at(session + DESKCHECK_PASS_OFFSET_AT);
    for (uint32_t pass = 0; pass < passes; pass++, row += DESKCHECK_PASS_LEN) {
        deskcheck_pass(session, length, pass, discards, sizeof discards, actions, sizeof actions,
                       clears, sizeof clears, status, sizeof status);
        if (number_at(row + DESKCHECK_PASS_ENDS_AT) == 1 || pass + 1 == passes)
            deskcheck_submit(session, length, discards, sizeof discards, actions, sizeof actions,
                             clears, sizeof clears, status, sizeof status);
    }
    return 0;
}
