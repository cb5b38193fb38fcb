/*
 * A rewritable disc in memory: made with two sparing tables and two spares, one of them inside the partition, where its blocks can be
 * neither read nor saved; saved to and spared; then the power is cut in a sparing and in a save, the disc is opened after each, and the
 * packet that the save hurt is saved whole again. The spared packet is spared a second time, its first spare turns defective, and no spare
 * is left. At last a sector that was never recorded is told from one that cannot be read.
 *
 *     cc -std=c99 -Iinclude examples/c/rewritable.c target/staticlib/libcapi.a -o rewritable && ./rewritable
 */
#include "tuormik.h"

#include <stdio.h>
#include <string.h>

/* packets of 32 sectors: two tables, a spare, and the partition of four packets, the last of which, blocks 96 to 127, is a spare too */
enum { FIRST_TABLE = 0, SECOND_TABLE = 32, FIRST_SPARE = 64, S = 96, L = 128, SECTORS = S + L, OF_SPARE = 96, SECOND_SPARE = S + OF_SPARE };

/* what is lent to the calls */
static uint8_t disc[SECTORS * TUORMIK_SECTOR];
static uint8_t marks[SECTORS];
static uint8_t maps[TUORMIK_REWRITABLE_MAPS_LENGTH];
static uint32_t table[TUORMIK_TABLE_LENGTH];
static uint32_t record[TUORMIK_RECORD_LENGTH];

#define DISC TUORMIK_LENT_DISC(disc, marks, SECTORS, maps, sizeof maps, S, L)
#define HELD TUORMIK_LENT_TABLE(table, record)

/* Tells what a call answers, and whether it should. */
static int is(const char *what, uint32_t answer, uint32_t expected) {
    printf("%-32s answers %3u", what, (unsigned)answer);
    if (answer != expected) {
        printf(", not %u: %s\n", (unsigned)expected, tuormik_refusal_text(answer));
        return 0;
    }
    printf("   R %u, sequence %u\n", (unsigned)record[TUORMIK_RECORD_COUNT], (unsigned)record[TUORMIK_RECORD_NEXT]);
    if (answer != TUORMIK_DONE)
        printf("    %s\n", tuormik_refusal_text(answer));
    return 1;
}

/* Whether block b reads as the text. */
static int reads(uint32_t b, const char *text) {
    uint8_t block[TUORMIK_SECTOR];
    uint32_t answer = tuormik_read(DISC, HELD, b, TUORMIK_LENT_BLOCK(block));
    int same = answer == TUORMIK_DONE && strcmp((const char *)block, text) == 0;
    printf("block %u reads %s\n", (unsigned)b, same ? text : "otherwise");
    return same;
}

/* What an original of the sparing table says. */
static const char *kind_of(uint32_t original) {
    return original == TUORMIK_NONE ? "free" : original == TUORMIK_DEFECTIVE ? "defective" : "used";
}

/* Whether entry i of the sparing table is this one. */
static int has_entry(uint32_t i, uint32_t original, uint32_t mapped) {
    printf("the spare at sector %u is %s\n", (unsigned)table[2 * i + 1], kind_of(table[2 * i]));
    return table[2 * i] == original && table[2 * i + 1] == mapped;
}

static uint32_t save(uint32_t b, const char *text, uint32_t cut_at, uint32_t cut_effect) {
    uint8_t block[TUORMIK_SECTOR] = {0};
    strncpy((char *)block, text, sizeof block - 1);
    return tuormik_save_block(DISC, HELD, b, TUORMIK_LENT_BLOCK(block), cut_at, cut_effect);
}

/* A packet whose every block is the text. */
static const uint8_t *packet_of(const char *text) {
    static uint8_t packet[TUORMIK_PACKET_BYTES];
    size_t i;
    memset(packet, 0, sizeof packet);
    for (i = 0; i < TUORMIK_PACKET; i++)
        strncpy((char *)packet + i * TUORMIK_SECTOR, text, TUORMIK_SECTOR - 1);
    return packet;
}

/* Whether the blocks of the spare inside the partition are refused: they are whether it is free or used, and L is the number of blocks. */
static int spare_is_refused(void) {
    uint8_t block[TUORMIK_SECTOR];
    return
        is("read block 100", tuormik_read(DISC, HELD, 100, TUORMIK_LENT_BLOCK(block)), TUORMIK_BELONGS_TO_SPARE) &&
        is("save block 100", save(100, "snow", TUORMIK_NO_CUT), TUORMIK_BELONGS_TO_SPARE) &&
        is("save packet 96", tuormik_save_packet(DISC, HELD, OF_SPARE, TUORMIK_LENT_PACKET(packet_of("snow")), TUORMIK_NO_CUT),
           TUORMIK_BELONGS_TO_SPARE) &&
        is("spare packet 96", tuormik_spare_packet(DISC, HELD, OF_SPARE, TUORMIK_LENT_PACKET(packet_of("snow")), TUORMIK_NO_CUT),
           TUORMIK_BELONGS_TO_SPARE) &&
        is("read block 128", tuormik_read(DISC, HELD, L, TUORMIK_LENT_BLOCK(block)), TUORMIK_NUMBER_OUTSIDE);
}

int main(void) {
    static const uint32_t tables[] = {FIRST_TABLE, SECOND_TABLE};
    static const uint32_t spares[] = {FIRST_SPARE, SECOND_SPARE};
    uint8_t block[TUORMIK_SECTOR];
    int well =
        is("write_maps", tuormik_write_maps(TUORMIK_REWRITABLE, 0, TUORMIK_SECTOR, tables, 2, maps, sizeof maps), TUORMIK_DONE) &&
        is("make", tuormik_make(DISC, spares, 2), TUORMIK_DONE) &&
        is("open", tuormik_open(DISC, HELD), TUORMIK_DONE) &&
        spare_is_refused() &&
        is("save block 5", save(5, "12 May: snow to the lower hut", TUORMIK_NO_CUT), TUORMIK_DONE) &&
        is("save packet 32", tuormik_save_packet(DISC, HELD, 32, TUORMIK_LENT_PACKET(packet_of("plovers")), TUORMIK_NO_CUT), TUORMIK_DONE) &&

        /* the packet's own sectors have worn out: it goes to a spare, and reads from there */
        is("spare packet 32", tuormik_spare_packet(DISC, HELD, 32, TUORMIK_LENT_PACKET(packet_of("plovers")), TUORMIK_NO_CUT),
           TUORMIK_DONE) &&
        reads(40, "plovers") && has_entry(0, 32, FIRST_SPARE) && has_entry(1, TUORMIK_NONE, SECOND_SPARE) &&

        /* 32 writes to the spare, then one to each table: cut at the first table, nothing has changed */
        is("spare packet 0, cut at write 33",
           tuormik_spare_packet(DISC, HELD, 0, TUORMIK_LENT_PACKET(packet_of("dunlins")), 33, TUORMIK_EFFECT_UNREADABLE), TUORMIK_CUT) &&
        is("open again", tuormik_open(DISC, HELD), TUORMIK_DONE) &&
        reads(5, "12 May: snow to the lower hut") &&
        reads(40, "plovers") &&

        /* a save writes the 32 sectors of its packet: cut at the sixth, block 5 is lost and every other is not */
        is("save block 7, cut at write 6", save(7, "13 May: two pairs of plovers", 6, TUORMIK_EFFECT_UNREADABLE), TUORMIK_CUT) &&
        is("open again", tuormik_open(DISC, HELD), TUORMIK_DONE) &&
        is("read block 5", tuormik_read(DISC, HELD, 5, TUORMIK_LENT_BLOCK(block)), TUORMIK_UNREADABLE_SECTOR) &&
        is("save block 7", save(7, "13 May: two pairs of plovers", TUORMIK_NO_CUT), TUORMIK_UNREADABLE_SECTOR) &&
        is("save packet 0", tuormik_save_packet(DISC, HELD, 0, TUORMIK_LENT_PACKET(packet_of("dunlins")), TUORMIK_NO_CUT), TUORMIK_DONE) &&
        reads(5, "dunlins") &&

        /* the spare has worn out too: the packet goes to the one inside the partition, and is found there after an opening */
        is("spare packet 32 again",
           tuormik_spare_packet(DISC, HELD, 32, TUORMIK_LENT_PACKET(packet_of("ringed plovers")), TUORMIK_NO_CUT), TUORMIK_DONE) &&
        has_entry(0, 32, SECOND_SPARE) && has_entry(1, TUORMIK_DEFECTIVE, FIRST_SPARE) &&
        is("open again", tuormik_open(DISC, HELD), TUORMIK_DONE) &&
        has_entry(0, 32, SECOND_SPARE) && has_entry(1, TUORMIK_DEFECTIVE, FIRST_SPARE) &&
        reads(32, "ringed plovers") && reads(63, "ringed plovers") &&
        reads(5, "dunlins") &&
        spare_is_refused() &&

        /* a defective spare is not free: no packet is spared any more, also not the one that has a spare */
        is("spare packet 0", tuormik_spare_packet(DISC, HELD, 0, TUORMIK_LENT_PACKET(packet_of("dunlins")), TUORMIK_NO_CUT),
           TUORMIK_NO_SPARE) &&
        is("spare packet 32", tuormik_spare_packet(DISC, HELD, 32, TUORMIK_LENT_PACKET(packet_of("plovers")), TUORMIK_NO_CUT),
           TUORMIK_NO_SPARE) &&
        reads(40, "ringed plovers");

    /* a blank sector, as where a disc was formatted in part: it is not read, nor is another block of its packet saved, until it is saved
       itself */
    marks[S + 70] = TUORMIK_BLANK;
    well = well &&
           is("read block 70", tuormik_read(DISC, HELD, 70, TUORMIK_LENT_BLOCK(block)), TUORMIK_BLANK_SECTOR) &&
           is("save block 71", save(71, "14 May: rain", TUORMIK_NO_CUT), TUORMIK_BLANK_SECTOR) &&
           is("save block 70", save(70, "14 May: rain", TUORMIK_NO_CUT), TUORMIK_DONE) &&
           reads(70, "14 May: rain") &&
           is("save block 71", save(71, "15 May: sun", TUORMIK_NO_CUT), TUORMIK_DONE);
    printf(well ? "What was saved is there, but for the sector at which the power failed.\n" : "Something is wrong.\n");
    return well ? 0 : 1;
}
