/*
 * The space bitmap of a rewritable disc: made for a partition of 20,000 blocks, which takes two blocks of it; free blocks are counted, runs
 * near a block found and taken, the blocks of the bitmap that changed written, and all is given back.
 *
 *     cc -std=c99 -Iinclude examples/c/bitmap.c target/staticlib/libcapi.a -o bitmap && ./bitmap
 */
#include "tuormik.h"

#include <stdio.h>
#include <string.h>

/* the partition's blocks, the bytes of their bits, and the blocks that the bitmap takes */
enum { L = 20000, BYTES = L / 8, BLOCKS = 2 };

/* whole blocks are lent: the bytes behind the bitmap are kept */
static uint8_t bitmap[BLOCKS * TUORMIK_SECTOR];
#define BITMAP bitmap, sizeof bitmap, L

/* the same blocks as they are on the disc */
static uint8_t disc[BLOCKS][TUORMIK_SECTOR];

static void put(size_t at, size_t bytes, uint32_t number) {
    for (; bytes > 0; bytes--, number >>= 8)
        bitmap[at++] = (uint8_t)number;
}

/* An empty partition, but for the bitmap itself and for blocks 300 to 399: a one is a free block. The CRC covers all of the bitmap. */
static void make(void) {
    uint32_t b, sum = 0;
    memset(bitmap, 0, sizeof bitmap);
    put(0, 2, 264);
    put(2, 2, 2);
    put(10, 2, 8 + BYTES);
    put(16, 4, L);
    put(20, 4, BYTES);
    for (b = BLOCKS; b < L; b++)
        if (b < 300 || b > 399)
            bitmap[24 + b / 8] |= (uint8_t)(1u << b % 8);
    put(8, 2, tuormik_crc(bitmap + 16, 8 + BYTES, 0));
    for (b = 0; b < 16; b++)
        sum += b == 4 ? 0 : bitmap[b];
    put(4, 1, sum);
}

/* Tells what a call answers, and whether it should. */
static int is(const char *what, uint32_t answer, uint32_t expected) {
    printf("%-28s answers %3u", what, (unsigned)answer);
    if (answer != expected) {
        printf(", not %u: %s\n", (unsigned)expected, tuormik_refusal_text(answer));
        return 0;
    }
    if (answer != TUORMIK_DONE)
        printf("   %s", tuormik_refusal_text(answer));
    printf("\n");
    return 1;
}

/* Whether so many blocks are free. */
static int are_free(uint32_t expected) {
    uint32_t count = 0;
    int done = is("count", tuormik_bitmap_count(BITMAP, &count, 1), TUORMIK_DONE);
    printf("free: %u blocks\n", (unsigned)count);
    return done && count == expected;
}

/* Whether the run of so many blocks that is nearest to a block begins at `first`. */
static int finds(uint32_t wanted, uint32_t near_block, uint32_t first) {
    uint32_t found = 0;
    int done = is("find", tuormik_bitmap_find(BITMAP, wanted, near_block, &found, 1), TUORMIK_DONE);
    printf("free, %u in a row near block %u: from block %u on\n", (unsigned)wanted, (unsigned)near_block, (unsigned)found);
    return done && found == first;
}

/* Writes the blocks of the bitmap that changed, and whether so many did. */
static int are_written(int expected) {
    int i, written = 0;
    for (i = 0; i < BLOCKS; i++) {
        if (memcmp(disc[i], bitmap + i * TUORMIK_SECTOR, TUORMIK_SECTOR) != 0) {
            memcpy(disc[i], bitmap + i * TUORMIK_SECTOR, TUORMIK_SECTOR);
            printf("block %d of the bitmap is written\n", i);
            written++;
        }
    }
    return written == expected;
}

int main(void) {
    static uint8_t made[sizeof bitmap];
    uint32_t found = 7;
    int well;
    make();
    memcpy(made, bitmap, sizeof made);
    well =
        are_written(2) &&
        are_free(L - BLOCKS - 100) &&

        /* 300 to 399 are allocated: the runs that begin at 236 and at 400 are the nearest ones on either side */
        finds(64, 350, 400) && finds(64, 310, 236) &&
        /* both are 82 blocks away: the lower */
        finds(64, 318, 236) &&

        /* the tag is in block 0, and so are the bits of the first 16,192 blocks */
        is("take 236 to 299", tuormik_bitmap_take(BITMAP, 236, 64), TUORMIK_DONE) &&
        are_written(1) &&
        finds(64, 318, 400) &&
        finds(1, L - 1, L - 1) &&
        is("take block 19,999", tuormik_bitmap_take(BITMAP, L - 1, 1), TUORMIK_DONE) &&
        are_written(2) &&
        are_free(L - BLOCKS - 100 - 64 - 1) &&

        /* what is refused changes nothing */
        is("take 299 to 300", tuormik_bitmap_take(BITMAP, 299, 2), TUORMIK_WRONG_RUN) &&
        is("give 400 back", tuormik_bitmap_give_back(BITMAP, 400, 1), TUORMIK_WRONG_RUN) &&
        is("take block 20,000", tuormik_bitmap_take(BITMAP, L, 1), TUORMIK_NUMBER_OUTSIDE) &&
        is("find 20,000 blocks", tuormik_bitmap_find(BITMAP, L, 0, &found, 1), TUORMIK_NO_RUN) &&
        is("find no block", tuormik_bitmap_find(BITMAP, 0, 0, &found, 1), TUORMIK_WRONG_RUN) &&
        is("find with the first block", tuormik_bitmap_find(bitmap, TUORMIK_SECTOR, L, 1, 0, &found, 1), TUORMIK_BITMAP_MALFORMED) &&
        found == 7 && are_written(0) &&

        is("give 236 to 299 back", tuormik_bitmap_give_back(BITMAP, 236, 64), TUORMIK_DONE) &&
        is("give block 19,999 back", tuormik_bitmap_give_back(BITMAP, L - 1, 1), TUORMIK_DONE) &&
        are_written(2) &&
        memcmp(disc, made, sizeof made) == 0;
    printf(well ? "Every byte is as it was made.\n" : "Something is wrong.\n");
    return well ? 0 : 1;
}
