/*
 * A block of a write-once disc read from an image, whose partition begins at sector S and has L sectors. The record goes to the standard
 * error, the block to the standard output.
 *
 *     cc -std=c99 -Iinclude examples/c/read.c target/staticlib/libcapi.a -o read && ./read field.img 288 3808 0
 */
#include <tuormik.h>

#include <stdio.h>
#include <stdlib.h>
#include <string.h>

enum { MOST = 360000 }; /* sectors of a disc of 80 minutes */

/* what is lent to the calls */
static uint8_t disc[MOST * TUORMIK_SECTOR], marks[MOST], maps[TUORMIK_WRITE_ONCE_MAPS_LENGTH], block[TUORMIK_SECTOR];
static uint32_t table[TUORMIK_TABLE_LENGTH], record[TUORMIK_RECORD_LENGTH];

#define DISC TUORMIK_LENT_DISC(disc, marks, sectors, maps, sizeof maps, s, l)
#define HELD TUORMIK_LENT_TABLE(table, record)

int main(int argc, char **argv) {
    FILE *image = argc == 5 ? fopen(argv[1], "rb") : NULL;
    size_t length = image ? fread(disc, 1, sizeof disc, image) : 0, sectors = length / TUORMIK_SECTOR;
    if (length == 0 || length % TUORMIK_SECTOR != 0 || getc(image) != EOF || ferror(image)) {
        fprintf(stderr, "usage: read IMAGE S L NUMBER, with an image of 1 to %d whole sectors\n", MOST);
        return 2;
    }
    uint32_t s = (uint32_t)strtoul(argv[2], NULL, 10), l = (uint32_t)strtoul(argv[3], NULL, 10);
    uint32_t number = (uint32_t)strtoul(argv[4], NULL, 10);

    /* trailing sectors of zeros stay TUORMIK_BLANK, which is 0 */
    while (length > 0 && disc[length - 1] == 0)
        length--;
    memset(marks, TUORMIK_RECORDED, (length + TUORMIK_SECTOR - 1) / TUORMIK_SECTOR);

    uint32_t answer = tuormik_write_maps(TUORMIK_WRITE_ONCE, 0, 0, table, 0, maps, sizeof maps);
    if (answer == TUORMIK_DONE)
        answer = tuormik_open(DISC, HELD);
    if (answer == TUORMIK_DONE) {
        fprintf(stderr, "N %u, NWA %u, last ICB %u, passed over %u\n", (unsigned)record[TUORMIK_RECORD_COUNT],
                (unsigned)record[TUORMIK_RECORD_NEXT], (unsigned)record[TUORMIK_RECORD_LAST], (unsigned)record[TUORMIK_RECORD_PASSED]);
        answer = tuormik_read(DISC, HELD, number, TUORMIK_LENT_BLOCK(block));
    }
    if (answer != TUORMIK_DONE) {
        fprintf(stderr, "read: %s\n", tuormik_refusal_text(answer));
        return 1;
    }
    if (fwrite(block, sizeof block, 1, stdout) != 1 || fflush(stdout) != 0) {
        perror("read: the standard output");
        return 2;
    }
    return 0;
}
