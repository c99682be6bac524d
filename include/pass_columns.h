/*
 * The pass part of a session by columns: byte 0 of all passes, then byte 1, up to the last byte of a
 * pass; and back. Passes of one layer are alike, so like bytes stand side by side.
 *
 * Link target/staticlib/libcolumns.a, which `tools/library.sh columns` writes (x86-64 Linux); it needs
 * nothing beside it. It allocates nothing, has no variables that outlive a call and prints nothing. It
 * exports the three functions below, each proved against its contract in crates/columns_c, which is that
 * of its namesake in crates/columns.
 *
 * The pass part of a session of n passes is the DESKCHECK_PASS_LEN * n bytes from its pass offset on,
 * which reach to its end. By columns they are as many: column j is the n bytes from byte n * j on, and
 * byte i of it is byte j of pass i.
 *
 * What holds of every function:
 *
 * - It tests the pass count, the lengths and the column; any bytes get an answer, and no byte of a pass
 *   is tested. Only the C rules of a pointer and its length are the caller's: each pointer points to so
 *   many bytes, and the buffers of one call do not overlap. A pointer of length 0 may be NULL.
 * - 2: the pass count is over DESKCHECK_MOST_PASSES, or the length is not DESKCHECK_PASS_LEN times the
 *   count. 6, which is tested last: the target is shorter than what it is to hold.
 * - A refusal leaves every byte as it was.
 * - Calls may run on several threads at once, unless one of them writes what another is handed.
 *
 * harness/c/columns.c is a whole program.
 */
#ifndef PASS_COLUMNS_H
#define PASS_COLUMNS_H

#include "deskcheck.h"

#ifdef __cplusplus
extern "C" {
#endif

/*
 * Where a column stands: `columns + first`, with `bytes` bytes, is the caller's own part that holds it.
 * A refusal has 0 in both. So has each column of no passes, which is no refusal: only the number tells.
 */
struct deskcheck_column_place {
    uint32_t number; /* 0, or 2 */
    size_t first;
    size_t bytes;
};

/*
 * Writes the rows of so many passes by columns, to the front of `columns`: 0, or 2, or 6 where `columns`
 * is shorter than the rows. Bytes of `columns` behind them stay.
 */
uint32_t deskcheck_columns(uint32_t passes, const uint8_t *rows, size_t rows_len,
                           uint8_t *columns, size_t columns_len);

/* The way back: 0, or 2, or 6 where `rows` is shorter than the columns. Bytes of `rows` behind them stay. */
uint32_t deskcheck_rows(uint32_t passes, const uint8_t *columns, size_t columns_len,
                        uint8_t *rows, size_t rows_len);

/*
 * Column j, 0 to DESKCHECK_PASS_LEN - 1: byte j of each pass, in order. The number is 2 for a j past
 * them, too. Of no passes every column is an empty part.
 */
struct deskcheck_column_place deskcheck_column(uint32_t passes, const uint8_t *columns, size_t columns_len,
                                               uint32_t j);

#ifdef __cplusplus
}
#endif

#endif
