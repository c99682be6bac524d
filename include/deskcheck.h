/*
 * The desk check: says of each render pass of a session file whether it would be accepted, and which
 * surfaces must be cleared first.
 *
 * Link target/staticlib/libdesk.a, which `tools/library.sh desk` writes (x86-64 Linux). Beside it the
 * library needs memcpy and memset, as every C library has them, and nothing else. It allocates nothing,
 * has no variables that outlive a call and prints nothing. It exports the five functions below, each
 * proved against its contract in crates/desk_c, which is that of its namesake in crates/desk.
 *
 * What holds of every function:
 *
 * - It tests all that it is handed; any bytes get an answer. Only the C rules of a pointer and its
 *   length are the caller's: each pointer points to so many bytes, and buffers of one call do not
 *   overlap. A pointer of length 0 may be NULL, for every argument: nothing is read or written through
 *   it. A lent buffer of length 0 is answered 6, before all else; a session of length 0 is answered 1.
 * - Numbers in byte buffers are little-endian u32, at any alignment.
 * - A refusal leaves every byte of every buffer as it was.
 * - Calls may run on several threads at once, unless one of them writes what another is handed. Two
 *   threads may read one session.
 * - DESKCHECK_STACK_LEN bytes of stack are enough. Measured on x86-64, with a caller's frame that has
 *   room for a reply: about 5.5 KiB for deskcheck_pass, 4.4 for deskcheck_session, 1.9 for
 *   deskcheck_submit, 1.3 for deskcheck_surface_index, 1.1 for deskcheck_session_refusal.
 *
 * harness/c/calls.c tries the last two, NULL and the indices of surfaces, and prints the bytes of stack
 * of each function.
 * harness/c/example.c is a whole program.
 */
#ifndef DESKCHECK_H
#define DESKCHECK_H

#include <stddef.h>
#include <stdint.h>

#ifdef __cplusplus
extern "C" {
#endif

/*
 * The session file
 *
 * Header, 44 bytes: texture count (0 to 64), texture offset (44), view count (0 to 256), view offset,
 * pass count (0 to 100), pass offset, maximum colours (1 to 8), maximum multiview views (0 to 32),
 * flags (1 strict, 2 MULTIVIEW, 4 SELECTIVE_MULTIVIEW, 8 READ_ONLY_DEPTH_STENCIL), limit of colour
 * bytes per sample (1 to 128), total length. Textures, views and passes follow without a gap.
 *
 * Texture, 32 bytes: format, dimension (1 to 3), width, height (1 to 16384), depth or layers (1 to 32),
 * mips (1 to 15), samples (1, 2, 4, 8, 16), usage (4 texture binding, 16 render attachment,
 * 32 transient; 0 to 63). A 3D texture has one layer; mip m of depth d has max(1, d >> m) slices.
 * Formats: 1 r8unorm, 2 rg8unorm, 3 rgba8unorm, 4 rgba8unorm-srgb, 5 bgra8unorm, 6 bgra8unorm-srgb,
 * 7 r16float, 8 rg16float, 9 rgba16float, 10 r32float, 11 rg32float, 12 rgba32float, 13 rgb10a2unorm,
 * 14 rg11b10ufloat, 20 stencil8, 21 depth16unorm, 22 depth24plus, 23 depth24plus-stencil8,
 * 24 depth32float, 25 depth32float-stencil8.
 *
 * View, 36 bytes: texture, dimension (1 D1, 2 D2, 3 D2Array, 4 Cube, 5 CubeArray, 6 D3), base mip,
 * mip count, base layer, layer count, usage, resolvable (0 or 1), format: the texture's, or its sRGB
 * sibling (3 with 4, 5 with 6).
 *
 * Pass, 504 bytes: colour count (0 to 8), multiview mask (0 none), ends-buffer (0 or 1), depth-stencil
 * view (4294967295 none); for depth, then stencil: load (0 Load, 1 Clear, 2 DontCare, 3 absent), store
 * (0 Store, 1 Discard, 2 absent), read-only, clear given (0 or 1), clear (f32 bits; u32); then eight
 * colour slots of 56 bytes: view (4294967295 empty), slice given (0 or 1), slice, resolve view
 * (4294967295 none), load (0 to 2), store (0 or 1), and four f64: red, green, blue, alpha.
 *
 * The row of pass k of a readable session starts DESKCHECK_PASS_LEN * k bytes after the pass offset,
 * the u32 at byte DESKCHECK_PASS_OFFSET_AT of the header. A buffer ends with a pass whose ends-buffer
 * field is 1, and with the last pass, also where the pass is refused. A field above 1 is refused as 5
 * and ends nothing, unless its pass is the last.
 */
#define DESKCHECK_HEADER_LEN 44
#define DESKCHECK_TEXTURE_LEN 32
#define DESKCHECK_VIEW_LEN 36
#define DESKCHECK_SLOTS 8
#define DESKCHECK_SLOT_LEN 56
#define DESKCHECK_PASS_LEN (56 + DESKCHECK_SLOTS * DESKCHECK_SLOT_LEN)
#define DESKCHECK_NO_VIEW UINT32_C(4294967295)
/* Where the header has the pass count, the pass offset and the total length. */
#define DESKCHECK_PASS_COUNT_AT 16
#define DESKCHECK_PASS_OFFSET_AT 20
#define DESKCHECK_TOTAL_AT 40
/* Where a pass row has its ends-buffer field. */
#define DESKCHECK_PASS_ENDS_AT 8
/* The greatest limit of colour bytes per sample: no pass is over it. */
#define DESKCHECK_MOST_COLOR_BYTES 128
/* Most rows of a session, and its greatest length. */
#define DESKCHECK_MOST_TEXTURES 64
#define DESKCHECK_MOST_VIEWS 256
#define DESKCHECK_MOST_PASSES 100
#define DESKCHECK_MOST_SURFACES 4096
#define DESKCHECK_LONGEST_SESSION \
    (DESKCHECK_HEADER_LEN + DESKCHECK_MOST_TEXTURES * DESKCHECK_TEXTURE_LEN \
     + DESKCHECK_MOST_VIEWS * DESKCHECK_VIEW_LEN + DESKCHECK_MOST_PASSES * DESKCHECK_PASS_LEN)

/*
 * Numbers. 0 is accepted; 1 to 4 and 6 refuse the session or what is lent, the others one pass.
 * docs/REFUSALS.md explains each, with an example file and what to change.
 *
 *  1  under 44 bytes, or total length wrong         30  2 layers or more, not D2Array
 *  2  another header field, or the passes' end      31  layers differ from the first view's; place 17:
 *  3  a texture, or over 4096 surfaces in all           mask's top bit at or past the layers
 *  4  a view                                        32  several layers, no MULTIVIEW
 *  5  a pass field, or no such pass                 33  more layers than the maximum
 *  6  a lent buffer too short (first of all), or    34  not renderable
 *     after 4 a lent count, record or status byte   35  width or height differs
 *     out of range, or no such surface              36  samples differ
 * 10  too many colours                              37  colour slot, no colour format
 * 11  colour DontCare, strict                       38  slice at or past the mip's depth
 * 12  transient colour, not (Clear or DontCare)     39  D3 without slice
 *     with Discard                                  40  slice, not D3
 * 13  depth-stencil view of a colour format         41  surface taken twice
 * 14, 16  transient depth (stencil), not that pair  42  resolve source 1 sample, or target not 1
 * 15, 17  transient, read-only, operation absent    43  resolve formats differ
 * 18, 19  read-only with load; with store           44  not resolvable
 * 20  no load                                       45  transient resolve target
 * 21, 22  depth Clear without value; not 0 to 1     46  no attachment
 * 23  DontCare, strict                              47  mask not full, no SELECTIVE_MULTIVIEW
 * 24  no store                                      48  resolve target not D2 or D2Array
 * 25, 26  depth (stencil) operation without that    49  the discard list would need a 65th entry
 *     aspect                                        50  the action list would need a 513th
 *                                                   51  colour bytes per sample over the limit
 *
 * Places: 0 to 7 a colour slot, 8 to 15 its resolve target, 16 depth-stencil, 17 none. 35 and 36 also
 * give the place of the depth-stencil or colour view accepted last as the earlier place; it is 17
 * otherwise. 51 is about all colours of a pass, and has the place of its first filled slot.
 */
#define DESKCHECK_RESOLVE_PLACE 8
#define DESKCHECK_DEPTH_STENCIL_PLACE 16
#define DESKCHECK_NO_PLACE 17

/*
 * What a caller lends
 *
 *  discards  count (0 to 64), then 64 records: texture, mip, layer, slice
 *  actions   count (0 to 512), then 512 records: texture, first mip, mips, first layer, layers,
 *            kind (0 implicit: the buffer fills the surfaces itself; 1 needing: they must be filled),
 *            slice
 *  clears    count (0 to 80), then 80 records: texture, mip, layer, slice
 *  status    a byte a surface, by texture, mip, slice or layer: 1 filled, plus 2 if the last
 *            submission cleared it
 *
 * A surface is a texture, a mip and a layer; of a 3D texture a texture, a mip and a slice. The layer of a
 * 3D texture and the slice of another are 0. An action is about its slice in each of its mips, and so
 * its slice is below the depth of its last mip.
 *
 * A discarded view is listed with an entry for each of its layers, lowest first, whatever the mask. They
 * are listed together: 49 is answered where one of them does not fit. Two views of 32 layers fill the list.
 * The clears of a load come in the list's order.
 *
 * With L layers (1 of a 3D texture) and S(m) slices of mip m (max(1, depth >> m) of a 3D texture, else 1),
 * the byte of a surface has the index
 *
 *   surfaces of the textures before it + L * (S(0) + S(1) + .. + S(mip - 1)) + L * slice + layer
 *
 * and a texture of n mips has L * (S(0) + .. + S(n - 1)) surfaces. A 3D texture of depth 5 and three mips
 * has 5 + 2 + 1 = 8: slice 1 of mip 1 is byte 6, and the next texture starts at byte 8.
 * deskcheck_surface_index tells the index.
 *
 * A fresh session has counts 0 and status 0; records past a count may hold anything. Every buffer has
 * at least the length below: a shorter one is refused as 6, the further bytes of a longer one are
 * neither read nor written. Status bytes past the last surface are neither tested nor written.
 * From fresh lists, handed on from call to call of one session, 6 never arises.
 */
#define DESKCHECK_COUNT_LEN 4
#define DESKCHECK_SURFACE_LEN 16
#define DESKCHECK_ACTION_LEN 28
#define DESKCHECK_MOST_DISCARDS 64
#define DESKCHECK_MOST_ACTIONS 512
#define DESKCHECK_MOST_CLEARS 80
#define DESKCHECK_DISCARDS_LEN (DESKCHECK_COUNT_LEN + DESKCHECK_MOST_DISCARDS * DESKCHECK_SURFACE_LEN)
#define DESKCHECK_ACTIONS_LEN (DESKCHECK_COUNT_LEN + DESKCHECK_MOST_ACTIONS * DESKCHECK_ACTION_LEN)
#define DESKCHECK_CLEARS_LEN (DESKCHECK_COUNT_LEN + DESKCHECK_MOST_CLEARS * DESKCHECK_SURFACE_LEN)
#define DESKCHECK_STATUS_LEN DESKCHECK_MOST_SURFACES
/* The rows of deskcheck_session: nine numbers a pass. */
#define DESKCHECK_ROW_NUMBERS 9
#define DESKCHECK_ROW_LEN (4 * DESKCHECK_ROW_NUMBERS)
#define DESKCHECK_ROWS_LEN (DESKCHECK_MOST_PASSES * DESKCHECK_ROW_LEN)
/* Depth-stencil, and each colour with its resolve target. */
#define DESKCHECK_MOST_ATTACHMENTS (1 + 2 * DESKCHECK_SLOTS)
/* Bytes of stack that are enough for any call. */
#define DESKCHECK_STACK_LEN 32768

/*
 * What is promised of memory
 *
 * No unwritten or discarded memory becomes visible (docs/THEOREM.md) in a run of deskcheck_pass and
 * deskcheck_submit, in any order, accepted or refused, where
 *
 * - the session is readable (deskcheck_session_refusal answers 0) and strict (flag 1);
 * - each accepted pass that uses a view of several layers has a mask that names all of them. A mask of 0 is
 *   none, and names none;
 * - the buffers of the first call are fresh: long enough, counts 0, and status byte 0 for each surface of
 *   the session (what stands behind the last surface's byte may be anything);
 * - every call is handed that session, and each call after the first the buffers as the call before it
 *   left them;
 * - the box does what it is told: at a submission it zeroes each surface whose status byte then has 2,
 *   and runs the passes accepted since the submission before, in order. Each pass zeroes its reply's
 *   clears first, and its divergent aspect afterwards. A D3 attachment is one slice, which the pass row
 *   names. Of a view of several layers a pass draws those that its mask names.
 */

/* A colour clear value. A NaN comes back as the canonical one, every other number bit for bit. */
struct deskcheck_color {
    double red, green, blue, alpha;
};

/* One attachment of an accepted pass. A value that is not cleared is zero. */
struct deskcheck_attachment {
    uint32_t view;
    uint32_t usage;       /* 1 COLOR_TARGET, 2 DEPTH_STENCIL_READ, 3 that with RESOURCE,
                             4 DEPTH_STENCIL_WRITE */
    uint32_t ops;         /* of colour or depth: 1 Load, 2 Clear, 4 DontCare, plus 8 Store,
                             16 Discard; 0 for a resolve target */
    uint32_t stencil_ops; /* of the stencil; 0 for a colour and a resolve target */
    struct deskcheck_color color;
    float depth;
    uint32_t stencil;     /* the low 8 bits of the clear value */
};

/* The reply to one pass. Of a refused one every field after `earlier` is 0. */
struct deskcheck_reply {
    uint32_t number, place, earlier; /* 0, 17, 17 where accepted */
    uint32_t width, height, samples;
    uint32_t depth_read_only, stencil_read_only;
    uint32_t divergent;              /* aspect discarded alone: 0 none, 1 depth, 2 stencil */
    uint32_t clears;                 /* clears returned: so many records of the lent clears */
    uint32_t count;                  /* attachments */
    /* Depth-stencil, then each colour with its resolve target behind it; zeros past the count. */
    struct deskcheck_attachment attachments[DESKCHECK_MOST_ATTACHMENTS];
};

/* Where a surface has its status byte. */
struct deskcheck_index {
    uint32_t number; /* 0, or 1 to 4, or 6 */
    uint32_t index;  /* 0 where the number is not */
};

/* The session's refusal: 0, or 1 to 4. */
uint32_t deskcheck_session_refusal(const uint8_t *session, size_t session_len);

/*
 * Checks pass number `pass`. An accepted pass replaces the clears by those that come before it,
 * which reply.clears counts, and leaves discards and actions as they are after it. In each of the
 * three lists every byte past the records of the new count stays, also where a discard left.
 */
struct deskcheck_reply deskcheck_pass(const uint8_t *session, size_t session_len, uint32_t pass,
                                      uint8_t *discards, size_t discards_len,
                                      uint8_t *actions, size_t actions_len,
                                      uint8_t *clears, size_t clears_len,
                                      const uint8_t *status, size_t status_len);

/*
 * Submits the open buffer, to be called after each pass that ends one, refused or not: the actions
 * run in order, then the discards mark their surfaces empty. Both lists are then empty (count 0, every
 * byte behind it stays); the clears stay. 0, or 1 to 4, or 6.
 */
uint32_t deskcheck_submit(const uint8_t *session, size_t session_len,
                          uint8_t *discards, size_t discards_len,
                          uint8_t *actions, size_t actions_len,
                          const uint8_t *clears, size_t clears_len,
                          uint8_t *status, size_t status_len);

/*
 * The whole session from fresh lists, with a submission at each buffer's end: 0, or 1 to 4, or 6 for
 * rows shorter than DESKCHECK_ROWS_LEN (first of all). After 0, pass k has nine numbers from byte
 * DESKCHECK_ROW_LEN * k on: pass, refusal, place, earlier place, width, height, samples, clears
 * returned, length of the discard list before any submission. Bytes past the last row stay.
 */
uint32_t deskcheck_session(const uint8_t *session, size_t session_len,
                           uint8_t *rows, size_t rows_len);

/*
 * The index of a surface's byte among the status bytes, with number 0. The number is the session's
 * refusal, 1 to 4, or 6 for a surface that the session does not have.
 */
struct deskcheck_index deskcheck_surface_index(const uint8_t *session, size_t session_len,
                                               uint32_t texture, uint32_t mip, uint32_t layer,
                                               uint32_t slice);

#ifdef __cplusplus
}
#endif

#endif
