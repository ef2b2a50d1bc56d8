/*
 * The C interface of libsilk_c.a.
 *
 * Every function answers 0 for an accepted call, or the number of the row
 * that refuses it, the lowest that applies:
 *
 *   1  a side above 512
 *   2  a lent or output list that is too short, the list of facts included
 *   3  a work area of fewer than 8 numbers for each needed cell
 *   4  more than 256 colours, a palette that is not 768 doubles, or a list of
 *      colours that is no multiple of 3 numbers
 *   5  a colour's double that is NaN or beyond +-1024
 *   6  a setting that is NaN or out of range
 *   7  cleaning with region limit 2 or more meets a cell that names no entry
 *   8  an outline, or a search for the nearest entry, finds no entry
 *   9  not a hex colour
 *
 * A list crosses as a pointer and then its length, counted in elements. The
 * pointer must be aligned for its elements and point to that many of them;
 * it must not be null even where the length is 0. No two lists of a call may
 * overlap if one of them is written. Nothing outside the lists is read or
 * written. A refused call changes no list but the work area; what a work area
 * holds after a call is free.
 *
 * A sheet is h rows of w cells, row after row. A negative cell is transparent,
 * any other names a palette entry. A palette is 768 doubles, three (L, a, b)
 * for each entry, of which the first k entries are in use. The needed cells
 * are h * w, or (h + 2) * (w + 2) where an outline pads the sheet. A mask is h
 * rows of w bytes, of which a nonzero one is set; a switch is a byte likewise.
 */
#ifndef SILK_H
#define SILK_H

#include <stddef.h>
#include <stdint.h>

#ifdef __cplusplus
extern "C" {
#endif

/* Kinds of outline. */
#define SILK_OUTLINE_NONE 0
#define SILK_OUTLINE_AUTO 1
#define SILK_OUTLINE_RGB 2

/* Places in the lists of facts of silk_add_outline and silk_run. */
#define SILK_HEIGHT 0
#define SILK_WIDTH 1
#define SILK_COLOURS 2
#define SILK_OUTLINE_INDEX 3 /* one more than the entry's index; 0 where no ring was drawn */
#define SILK_OUTLINE_CLIPPED 4
#define SILK_OUTLINE_FACTS 5
#define SILK_PASSES 5       /* repainting passes of the first cleaning, 0 where it was not made */
#define SILK_PASSES_AGAIN 6 /* those of the second */
#define SILK_RUN_FACTS 7

/* The regions of a sheet, cells of one index joined by steps to the eight neighbours. */
uint32_t silk_label_regions(
    const int32_t *cells, size_t cells_len, /* the sheet; at least h * w */
    size_t h,                               /* rows, at most 512 */
    size_t w,                               /* columns, at most 512 */
    uint32_t *labels, size_t labels_len,    /* out: a label for each cell, 0 for transparent; at least h * w */
    uint32_t *work, size_t work_len,        /* work area; at least 8 * h * w */
    uint32_t *facts, size_t facts_len);     /* out: the number of regions; at least 1 */

/* The regions of a mask, set places joined by steps to the four neighbours. */
uint32_t silk_label4(
    const uint8_t *mask, size_t mask_len, /* the mask; at least h * w */
    size_t h,                             /* rows, at most 512 */
    size_t w,                             /* columns, at most 512 */
    uint32_t *labels, size_t labels_len,  /* out: a label for each place, 0 for unset; at least h * w */
    uint32_t *work, size_t work_len,      /* work area; at least 8 * h * w */
    uint32_t *facts, size_t facts_len);   /* out: the number of regions; at least 1 */

/* Every place within k rows and k columns of a set one becomes 1, every other 0. */
uint32_t silk_binary_dilation8(
    const uint8_t *mask, size_t mask_len, /* the mask; at least h * w */
    size_t h,                             /* rows, at most 512 */
    size_t w,                             /* columns, at most 512 */
    uint32_t k,                           /* how far, at most 65535; 0 stands for max(h, w) */
    uint8_t *out, size_t out_len,         /* out: the dilated mask; at least h * w */
    uint32_t *work, size_t work_len);     /* work area; at least 8 * h * w */

/* Cleaning: small regions take the index that most cells of large regions around them have. */
uint32_t silk_remove_orphans(
    int32_t *cells, size_t cells_len,           /* in and out: the sheet; at least h * w */
    size_t h,                                   /* rows, at most 512 */
    size_t w,                                   /* columns, at most 512 */
    const double *palette, size_t palette_len,  /* the palette; 768 */
    size_t k,                                   /* its entries in use, at most 256 */
    int32_t orphan_min_region,                  /* region limit: a region of fewer cells is small */
    uint32_t max_passes,                        /* passes to make at most; at most 65535 */
    double orphan_max_delta,                    /* colour limit, 0 to 1024 */
    uint32_t *work, size_t work_len,            /* work area; at least 8 * h * w */
    uint32_t *facts, size_t facts_len);         /* out: the count of repainting passes; at least 1 */

/* Corners: the inner cells of staircase corners are trimmed. */
uint32_t silk_fix_jaggies(
    int32_t *cells, size_t cells_len,  /* in and out: the sheet; at least h * w */
    size_t h,                          /* rows, at most 512 */
    size_t w,                          /* columns, at most 512 */
    uint32_t *work, size_t work_len);  /* work area; at least 8 * h * w */

/* Outline: the ring around opaque cells takes one palette entry. The padded sheet, where padding
 * applies, stands at the front of the cells with the height and width that the facts tell. */
uint32_t silk_add_outline(
    int32_t *cells, size_t cells_len,     /* in and out: the sheet; at least the needed cells */
    size_t h,                             /* rows, at most 512 */
    size_t w,                             /* columns, at most 512 */
    double *palette, size_t palette_len,  /* in and out: the palette; 768 */
    size_t k,                             /* its entries in use, at most 256 */
    uint32_t kind,                        /* SILK_OUTLINE_AUTO or SILK_OUTLINE_RGB; any other is refused by 6 */
    double darken,                        /* darkening of auto, 0 to 1; not looked at otherwise */
    uint8_t r, uint8_t g, uint8_t b,      /* the triple of SILK_OUTLINE_RGB; not looked at otherwise */
    uint8_t allow_pad,                    /* switch: the sheet may be padded */
    uint8_t fixed_palette,                /* switch: the palette is kept, the nearest entry serves */
    uint32_t *work, size_t work_len,      /* work area; at least 8 for each needed cell */
    uint32_t *facts, size_t facts_len);   /* out: height, width, colours, outline index, clipped; at least 5 */

/* Saturation: a and b of every entry in use are multiplied by beta. */
uint32_t silk_apply_saturation(
    double *palette, size_t palette_len,  /* in and out: the palette; 768 */
    size_t k,                             /* its entries in use, at most 256 */
    double beta);                         /* the factor, 0 to 16 */

/* All steps, each as switched on: saturation, cleaning with 5 passes, corners, outline, and after an
 * outline cleaning once more with 1 pass. Padding is allowed where tileset is off and the margin is 0. */
uint32_t silk_run(
    int32_t *cells, size_t cells_len,     /* in and out: the sheet; at least the needed cells */
    size_t h,                             /* rows, at most 512 */
    size_t w,                             /* columns, at most 512 */
    double *palette, size_t palette_len,  /* in and out: the palette; 768 */
    size_t k,                             /* its entries in use, at most 256 */
    double beta,                          /* saturation factor, 0 to 16 */
    uint8_t remove_orphans,               /* switch: cleaning */
    int32_t orphan_min_region,            /* region limit: a region of fewer cells is small */
    double orphan_max_delta,              /* colour limit, 0 to 1024 */
    uint8_t fix_jaggies,                  /* switch: corners */
    uint32_t kind,                        /* SILK_OUTLINE_NONE, .._AUTO or .._RGB; any other is refused by 6 */
    double darken,                        /* darkening of auto, 0 to 1; not looked at otherwise */
    uint8_t r, uint8_t g, uint8_t b,      /* the triple of SILK_OUTLINE_RGB; not looked at otherwise */
    uint8_t tileset,                      /* switch: no padding */
    uint8_t saturated,                    /* switch: the palette is saturated already */
    uint8_t fixed_palette,                /* switch: the palette is kept, the nearest entry serves */
    int32_t outline_margin,               /* padding needs 0 */
    uint32_t *work, size_t work_len,      /* work area; at least 8 for each needed cell */
    uint32_t *facts, size_t facts_len);   /* out: the facts of silk_add_outline, passes of both cleanings; at least 7 */

/* Colours of sRGB, three bytes each, as colours of CIELAB, three doubles each. */
uint32_t silk_rgb8_to_lab(
    const uint8_t *rgb, size_t rgb_len,  /* the bytes, a multiple of 3 */
    double *out, size_t out_len);        /* out: the doubles; at least as many */

/* Colours of CIELAB as colours of sRGB. */
uint32_t silk_lab_to_rgb8(
    const double *lab, size_t lab_len,  /* the doubles, a multiple of 3 */
    uint8_t *out, size_t out_len);      /* out: the bytes; at least as many */

/* The distances of the colours of two lists, pair by pair. */
uint32_t silk_delta_e(
    const double *a, size_t a_len,  /* n colours, 3 * n doubles */
    const double *b, size_t b_len,  /* as many */
    double *out, size_t out_len);   /* out: the distances; at least n */

/* The index of the palette entry nearest to each pixel, the lowest on ties. */
uint32_t silk_nearest_index(
    const double *pixels, size_t pixels_len,    /* n colours, 3 * n doubles */
    const double *palette, size_t palette_len,  /* at most 256 colours, three doubles each */
    int32_t *out, size_t out_len);              /* out: the indices; at least n */

/* The distances of all colours of a palette from each other, row after row. */
uint32_t silk_palette_distance_matrix(
    const double *palette, size_t palette_len,  /* n colours, at most 256, three doubles each */
    double *out, size_t out_len);               /* out: the distances; at least n * n */

/* The colour that a text of six hex digits names, white space around it and then leading # dropped. */
uint32_t silk_hex_to_rgb8(
    const uint8_t *text, size_t text_len,  /* the text, not ended by a zero byte */
    uint8_t *out, size_t out_len);         /* out: red, green, blue; at least 3 */

#ifdef __cplusplus
}
#endif

#endif
