/*
 * columns FILE J rearranges the pass part of a session file by columns, prints column J, and sees that
 * the way back gives the same bytes. Then it prints what is answered of no passes and no bytes at all.
 */
#include <stdio.h>
#include <stdlib.h>
#include <string.h>

#include "pass_columns.h"

static uint8_t session[DESKCHECK_LONGEST_SESSION];
static uint8_t columns[DESKCHECK_LONGEST_SESSION];
static uint8_t back[DESKCHECK_LONGEST_SESSION];

/* The little-endian number of four bytes. */
static uint32_t number_at(const uint8_t *bytes)
{
    return bytes[0] | (uint32_t)bytes[1] << 8 | (uint32_t)bytes[2] << 16 | (uint32_t)bytes[3] << 24;
}

/* The file's bytes, as far as a session has them: how many, 0 where there is no such file. */
static size_t load(const char *name)
{
    FILE *file = fopen(name, "rb");
    if (!file)
        return 0;
    size_t length = fread(session, 1, sizeof session, file);
    fclose(file);
    return length;
}

/* Prints the bytes of a column, which stand among the columns. */
static void print_column(uint32_t j, const uint8_t *column, size_t bytes)
{
    printf("column %u:", (unsigned)j);
    for (size_t i = 0; i < bytes; i++)
        printf(" %u", (unsigned)column[i]);
    printf("\n");
}

/* Rearranges the pass part, prints column j and sees that it comes back: a refusal, or 0. */
static uint32_t rearrange(size_t length, uint32_t j)
{
    uint32_t passes = number_at(session + DESKCHECK_PASS_COUNT_AT);
    size_t before = number_at(session + DESKCHECK_PASS_OFFSET_AT);
    if (before > length)
        before = length;
    const uint8_t *rows = session + before;
    size_t part = length - before;
    uint32_t number = deskcheck_columns(passes, rows, part, columns, sizeof columns);
    if (number != 0)
        return number;
    struct deskcheck_column_place place = deskcheck_column(passes, columns, part, j);
    if (place.number != 0)
        return place.number;
    print_column(j, columns + place.first, place.bytes);
    number = deskcheck_rows(passes, columns, part, back, sizeof back);
    if (number != 0)
        return number;
    printf("%u passes, %zu bytes: %s\n", (unsigned)passes, part,
           memcmp(back, rows, part) == 0 ? "back as they were" : "they differ");
    return 0;
}

int main(int count, char **words)
{
    size_t length = count == 3 ? load(words[1]) : 0;
    if (length < DESKCHECK_HEADER_LEN) {
        fprintf(stderr, "columns FILE J: a session file, and a byte of a pass\n");
        return 2;
    }
    uint32_t number = rearrange(length, (uint32_t)strtoul(words[2], NULL, 10));
    if (number != 0)
        printf("refused: %u\n", (unsigned)number);
    struct deskcheck_column_place last = deskcheck_column(0, NULL, 0, DESKCHECK_PASS_LEN - 1);
    struct deskcheck_column_place past = deskcheck_column(0, NULL, 0, DESKCHECK_PASS_LEN);
    printf("no passes: %u and %u, the last column %u with %zu bytes, the one past it %u\n",
           (unsigned)deskcheck_columns(0, NULL, 0, NULL, 0), (unsigned)deskcheck_rows(0, NULL, 0, NULL, 0),
           (unsigned)last.number, last.bytes, (unsigned)past.number);
    printf("a pass of no bytes: %u and %u\n", (unsigned)deskcheck_columns(1, NULL, 0, NULL, 0),
           (unsigned)deskcheck_rows(1, NULL, 0, NULL, 0));
    printf("a pass to no bytes: %u and %u\n",
           (unsigned)deskcheck_columns(1, session, DESKCHECK_PASS_LEN, NULL, 0),
           (unsigned)deskcheck_rows(1, session, DESKCHECK_PASS_LEN, NULL, 0));
    return 0;
}
