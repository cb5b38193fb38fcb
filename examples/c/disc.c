/*
 * A write-once disc in memory: made, asked whether a day's blocks will fit, saved to, committed; then the power is cut in the second
 * commit, and the disc is opened again.
 *
 *     cc -std=c99 -Iinclude examples/c/disc.c target/staticlib/libcapi.a -o disc && ./disc
 */
#include "tuormik.h"

#include <stdio.h>
#include <string.h>

enum { SECTORS = 64, S = 16, L = 48 };

/* what is lent to the calls */
static uint8_t disc[SECTORS * TUORMIK_SECTOR];
static uint8_t marks[SECTORS];
static uint8_t maps[TUORMIK_WRITE_ONCE_MAPS_LENGTH];
static uint32_t table[TUORMIK_TABLE_LENGTH];
static uint32_t record[TUORMIK_RECORD_LENGTH];

#define DISC TUORMIK_LENT_DISC(disc, marks, SECTORS, maps, sizeof maps, S, L)
#define HELD TUORMIK_LENT_TABLE(table, record)

/* Tells what a call answers, and whether it should. */
static int is(const char *what, uint32_t answer, uint32_t expected) {
    printf("%-28s answers %3u", what, (unsigned)answer);
    if (answer != expected) {
        printf(", not %u: %s\n", (unsigned)expected, tuormik_refusal_text(answer));
        return 0;
    }
    printf("   N %u, NWA %u, last ICB %u, passed over %u\n", (unsigned)record[TUORMIK_RECORD_COUNT], (unsigned)record[TUORMIK_RECORD_NEXT],
           (unsigned)record[TUORMIK_RECORD_LAST], (unsigned)record[TUORMIK_RECORD_PASSED]);
    if (answer != TUORMIK_DONE)
        printf("    %s\n", tuormik_refusal_text(answer));
    return 1;
}

/* Whether a list of saves and commits fits, and comes to this NWA and N; nothing is written. */
static int fits(const char *what, const uint32_t *items, size_t count, uint32_t next, uint32_t blocks) {
    uint32_t told[TUORMIK_FORECAST_LENGTH];
    uint32_t answer = tuormik_forecast(DISC, HELD, items, count, told, TUORMIK_FORECAST_LENGTH);
    if (answer != TUORMIK_DONE) {
        printf("%s: no forecast: %s\n", what, tuormik_refusal_text(answer));
        return 0;
    }
    if (told[0] != TUORMIK_DONE) {
        printf("%s: item %u does not fit: %s\n", what, (unsigned)told[1], tuormik_refusal_text(told[0]));
        return 0;
    }
    printf("%s will fit, and come to N %u, NWA %u\n", what, (unsigned)told[2], (unsigned)told[1]);
    return told[1] == next && told[2] == blocks;
}

/* Whether block v reads as the text. */
static int reads(uint32_t v, const char *text) {
    uint8_t block[TUORMIK_SECTOR];
    uint32_t answer = tuormik_read(DISC, HELD, v, TUORMIK_LENT_BLOCK(block));
    int same = answer == TUORMIK_DONE && strcmp((const char *)block, text) == 0;
    printf("block %u reads %s\n", (unsigned)v, same ? text : "otherwise");
    return same;
}

static uint32_t save(uint32_t v, const char *text) {
    uint8_t block[TUORMIK_SECTOR] = {0};
    strncpy((char *)block, text, sizeof block - 1);
    return tuormik_save_virtual(DISC, HELD, v, TUORMIK_LENT_BLOCK(block), TUORMIK_NO_CUT);
}

int main(void) {
    const uint32_t none[1] = {0};
    const uint32_t day[3] = {0, 1, TUORMIK_ITEM_COMMIT};
    int well = is("write_maps", tuormik_write_maps(TUORMIK_WRITE_ONCE, 0, 0, none, 0, maps, sizeof maps), TUORMIK_DONE) &&
               is("make", tuormik_make(DISC, none, 0), TUORMIK_DONE) &&
               is("open", tuormik_open(DISC, HELD), TUORMIK_DONE) &&
               fits("the day", day, 3, 4, 2) &&
               is("save block 0", save(0, "12 May: snow to the lower hut"), TUORMIK_DONE) &&
               is("save block 1", save(1, "13 May: two pairs of plovers"), TUORMIK_DONE) &&
               is("commit", tuormik_commit(DISC, HELD, TUORMIK_NO_CUT), TUORMIK_DONE) &&
               is("save block 1 again", save(1, "13 May: three pairs of plovers"), TUORMIK_DONE) &&
               reads(1, "13 May: three pairs of plovers") &&
               is("commit, cut at its write", tuormik_commit(DISC, HELD, 1, TUORMIK_EFFECT_UNREADABLE), TUORMIK_CUT) &&
               is("open again", tuormik_open(DISC, HELD), TUORMIK_DONE) &&
               reads(0, "12 May: snow to the lower hut") &&
               reads(1, "13 May: two pairs of plovers") &&
               is("free block 2", tuormik_free_virtual(DISC, HELD, 2), TUORMIK_NUMBER_OUTSIDE);
    printf(well ? "What was committed is there.\n" : "Something is wrong.\n");
    return well ? 0 : 1;
}
