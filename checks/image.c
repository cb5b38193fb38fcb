/* Writes to the file that is named an image of a small write-once disc, of 64 sectors with S 16 and L 48: block 0 is committed. */
#include "tuormik.h"

#include <stdio.h>

enum { SECTORS = 64, S = 16, L = 48 };

static uint8_t disc[SECTORS * TUORMIK_SECTOR], marks[SECTORS], maps[TUORMIK_WRITE_ONCE_MAPS_LENGTH];
static uint8_t block[TUORMIK_SECTOR] = "12 May: snow to the lower hut\n";
static uint32_t table[TUORMIK_TABLE_LENGTH], record[TUORMIK_RECORD_LENGTH];

#define DISC TUORMIK_LENT_DISC(disc, marks, SECTORS, maps, sizeof maps, S, L)
#define HELD TUORMIK_LENT_TABLE(table, record)

int main(int argc, char **argv) {
    int done = tuormik_write_maps(TUORMIK_WRITE_ONCE, 0, 0, table, 0, maps, sizeof maps) == TUORMIK_DONE &&
               tuormik_make(DISC, table, 0) == TUORMIK_DONE &&
               tuormik_open(DISC, HELD) == TUORMIK_DONE &&
               tuormik_save_virtual(DISC, HELD, 0, TUORMIK_LENT_BLOCK(block), TUORMIK_NO_CUT) == TUORMIK_DONE &&
               tuormik_commit(DISC, HELD, TUORMIK_NO_CUT) == TUORMIK_DONE;
    FILE *image = done && argc == 2 ? fopen(argv[1], "wb") : NULL;
    return image && fwrite(disc, sizeof disc, 1, image) == 1 && fclose(image) == 0 ? 0 : 1;
}
