/*
 * The discard list of a command buffer as an array of records that the caller owns.
 *
 * Link target/staticlib/libtexture_surface_discards.a, which
 * `tools/library.sh texture_surface_discards` writes (x86-64 Linux); it needs nothing beside it. Both
 * functions test n; only the C rules of a pointer and its length are the caller's: the pointer points to so
 * many records. It may be NULL where the length is 0.
 */
#ifndef TEXTURE_SURFACE_DISCARDS_H
#define TEXTURE_SURFACE_DISCARDS_H

#include <stddef.h>
#include <stdint.h>

#ifdef __cplusplus
extern "C" {
#endif

/* A surface whose content is discarded. The slice is 0 where the texture is not 3D. */
typedef struct {
    uint32_t texture;
    uint32_t mip;
    uint32_t layer;
    uint32_t slice;
} deskcheck_surface;

/* So many mips and layers of a texture, from the first of each on, all of one slice. */
typedef struct {
    uint32_t texture;
    uint32_t mip;
    uint32_t mips;
    uint32_t layer;
    uint32_t layers;
    uint32_t slice;
} deskcheck_range;

/* Puts a discard after the first n: n + 1. Without room for it, n, and every record stays. */
size_t deskcheck_discard(deskcheck_surface *discards, size_t discards_len, size_t n, deskcheck_surface s);

/*
 * Keeps those of the first n that the range does not have, in order: how many they are. The records
 * from there to n are free, those from n on stay. An n over discards_len is handed back, and every
 * record stays.
 */
size_t deskcheck_retain(deskcheck_surface *discards, size_t discards_len, size_t n, deskcheck_range range);

#ifdef __cplusplus
}
#endif

#endif
