/*
 * Cleans a small sheet through the C interface and prints it: a stray cell goes, then an outline is
 * drawn around the figure; silk_run does both in one call. Ends with status 1, and says why, if a
 * result is not the expected one.
 *
 *     make lib
 *     cc -I include examples/c/clean.c target/staticlib/libsilk_c.a -o target/clean
 */
#include <inttypes.h>
#include <stdio.h>
#include <stdlib.h>
#include <string.h>

#include "silk.h"

enum { ROWS = 3, COLUMNS = 3, PADDED = (ROWS + 2) * (COLUMNS + 2), PALETTE = 768 };

/* Ends the program unless a number is the expected one. */
static void expect(const char *what, uint32_t got, uint32_t wanted)
{
    if (got != wanted) {
        fprintf(stderr, "%s: %" PRIu32 ", not %" PRIu32 "\n", what, got, wanted);
        exit(1);
    }
}

/* the sheet's room, with padding */
static int32_t cells[PADDED];
static double palette[PALETTE];
static uint32_t work[8 * PADDED];
static uint32_t facts[SILK_RUN_FACTS];

/* A square of colour 0 with one stray cell of colour 1. */
static void load(void)
{
    static const int32_t sheet[ROWS * COLUMNS] = {0, 0, 0, 0, 1, 0, 0, 0, 0};
    static const uint8_t rgb[6] = {0x80, 0x20, 0x20, 0x88, 0x28, 0x28};
    memcpy(cells, sheet, sizeof sheet);
    expect("rgb8_to_lab", silk_rgb8_to_lab(rgb, 6, palette, PALETTE), 0);
}

/* The square is cleaned, and the outline around it has the new colour 2. */
static void expect_outlined(void)
{
    static const int32_t wanted[PADDED] = {
        -1, 2, 2, 2, -1,
        2, 0, 0, 0, 2,
        2, 0, 0, 0, 2,
        2, 0, 0, 0, 2,
        -1, 2, 2, 2, -1,
    };
    expect("height", facts[SILK_HEIGHT], ROWS + 2);
    expect("width", facts[SILK_WIDTH], COLUMNS + 2);
    expect("colours", facts[SILK_COLOURS], 3);
    expect("outline index", facts[SILK_OUTLINE_INDEX], 3);
    expect("outline clipped", facts[SILK_OUTLINE_CLIPPED], 0);
    expect("other cells", memcmp(cells, wanted, sizeof cells) != 0, 0);
}

static void print_sheet(size_t h, size_t w)
{
    for (size_t y = 0; y < h; y++) {
        for (size_t x = 0; x < w; x++) {
            printf("%3" PRId32, cells[y * w + x]);
        }
        putchar('\n');
    }
}

static uint32_t clean(size_t h, size_t w, size_t facts_len)
{
    return silk_remove_orphans(cells, PADDED, h, w, palette, PALETTE, 2, 2, 5, 25.0, work, 8 * PADDED, facts, facts_len);
}

int main(void)
{
    load();
    expect("remove_orphans", clean(ROWS, COLUMNS, SILK_RUN_FACTS), 0);
    expect("repainting passes", facts[0], 1);
    print_sheet(ROWS, COLUMNS);
    expect("add_outline",
           silk_add_outline(cells, PADDED, ROWS, COLUMNS, palette, PALETTE, 2, SILK_OUTLINE_AUTO, 0.5, 0, 0, 0, 1, 0,
                            work, 8 * PADDED, facts, SILK_RUN_FACTS),
           0);
    expect_outlined();
    print_sheet(facts[SILK_HEIGHT], facts[SILK_WIDTH]);

    load();
    expect("run",
           silk_run(cells, PADDED, ROWS, COLUMNS, palette, PALETTE, 2, 1.0, 1, 2, 25.0, 0, SILK_OUTLINE_AUTO, 0.5,
                    0, 0, 0, 0, 0, 0, 0, work, 8 * PADDED, facts, SILK_RUN_FACTS),
           0);
    expect_outlined();
    expect("passes", facts[SILK_PASSES], 1);
    expect("passes again", facts[SILK_PASSES_AGAIN], 0);

    /* refused: 513 rows, and a list of facts that is too short; nothing changes */
    expect("513 rows", clean(513, 1, 0), 1);
    expect("no room for facts", clean(ROWS, COLUMNS, 0), 2);
    expect_outlined();
    return 0;
}
