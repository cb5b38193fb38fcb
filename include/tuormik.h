/*
 * tuormik.h - the block layer of CD UDF discs, for C and C++.
 *
 * The numbers and words are those of document 01, "The CD UDF block layer", and of the change requests, document 02, that README lists;
 * "line n" is line n of 01's section "Why a call is turned down", or the number n that 02 adds to it.
 *
 * Lent to most calls:
 *   disc     2,048 bytes a sector
 *   marks    one byte a sector: 0 blank, 1 recorded, 2 unreadable
 *   maps     the map list of the logical volume descriptor, which tells the kind of the volume
 *   s, l     the partition's first sector S and its number of sectors L
 *   table    at least 4,096 numbers: the entries of the VAT, or original and mapped by turns of the sparing table, its entries in
 *            this order: packets that are spared, by their first blocks, then defective spares, then free ones
 *   record   5 numbers, as below
 *
 * A slice is a pointer and the number of its elements. A slice through a pointer to const is never written.
 *
 * What no callee can examine, and the caller answers for: every pointer is not null, also where the length is 0; it is aligned for its
 * type and has as many elements behind it as the length says; and no two lent slices of one call overlap where one of them may be
 * written.
 *
 * Every call returns a number: 0 (TUORMIK_DONE), a refusal (its line: 1 to 17, 19 to 21, 25 or 30 to 33), or 255 (TUORMIK_CUT) where the
 * power failed in it. Refusals are tested in this order: 1 to 3, 31, 4 to 12, 30, 32, 33, 13, 25, 14 to 17, 19 to 21. The first that
 * applies is returned, and nothing lent has changed. The functions of the CRC return its value and refuse nothing. Every call returns,
 * whatever it is lent.
 *
 * The layer has no variables of its own and allocates nothing: all that a call reads or writes is lent to it, but for at most
 * TUORMIK_STACK bytes of stack. It calls nothing but the C library's functions on memory (memcpy and its like). Nothing has to be begun
 * or ended. Two calls may run at the same time in different threads unless one of them writes what is lent to the other: so may calls on
 * different discs, and readings of one disc.
 */
#ifndef TUORMIK_H
#define TUORMIK_H

#include <stddef.h>
#include <stdint.h>

#ifdef __cplusplus
extern "C" {
#endif

/* ---- the version of this header and of the library beside it */

#define TUORMIK_VERSION_MAJOR 0
#define TUORMIK_VERSION_MINOR 1
#define TUORMIK_VERSION_PATCH 0
#define TUORMIK_VERSION "0.1.0"

/* ---- answers, the refusals in the order in which they are tested: tuormik_refusal_text tells each in words */

#define TUORMIK_DONE 0u

#define TUORMIK_DISC_SHAPE 1u
#define TUORMIK_SPAN_OUTSIDE 2u
#define TUORMIK_LENT_LENGTH 3u
/* The space bitmap does not go with its tag, with L or with the lent bytes: see "the space bitmap" below. */
#define TUORMIK_BITMAP_MALFORMED 31u
#define TUORMIK_MAP_CUT 4u
#define TUORMIK_NEITHER_KIND 5u
#define TUORMIK_MISALIGNED 6u
#define TUORMIK_OTHER_KIND 7u
#define TUORMIK_NO_TABLE 8u
#define TUORMIK_TOO_MANY_ENTRIES 9u
#define TUORMIK_COPIES_DIFFER 10u
#define TUORMIK_STALE_RECORD 11u
#define TUORMIK_NUMBER_OUTSIDE 12u
/* Rewritable: the block is inside the partition, in a packet that is a spare, whether used, defective or free: see tuormik_open. */
#define TUORMIK_BELONGS_TO_SPARE 30u
/* A run of blocks is none, as its length is 0 or it ends past L, or it is not free as a whole to be taken, or not allocated to be given
   back. */
#define TUORMIK_WRONG_RUN 32u
/* No free run of the wanted length exists. */
#define TUORMIK_NO_RUN 33u
#define TUORMIK_UNUSED_ENTRY 13u
/* The first sector to be read that is not recorded, the lowest first: 25 where it is blank (its mark is 0), 14 where it is unreadable
   (its mark is 2). */
#define TUORMIK_BLANK_SECTOR 25u
#define TUORMIK_UNREADABLE_SECTOR 14u
#define TUORMIK_NOT_RECORDED TUORMIK_UNREADABLE_SECTOR /* the same under its older name */
#define TUORMIK_PASSES_AS_ICB 15u
#define TUORMIK_NO_ROOM 16u
#define TUORMIK_ONE_TABLE 17u
/* No refusal is 18: a packet that is spared already can be spared again (02, slip 1). */
#define TUORMIK_NO_SPARE 19u
#define TUORMIK_LAST_SEQUENCE 20u
#define TUORMIK_NOT_BLANK 21u

/* The power failed in the call: record and table are left as they came, and the next call is an opening. */
#define TUORMIK_CUT 255u

/* What a call's answer means, as a sentence; a number that no call answers has one of its own. */
static inline const char *tuormik_refusal_text(uint32_t number) {
    switch (number) {
    case TUORMIK_DONE:
        return "The call was carried out.";
    case TUORMIK_DISC_SHAPE:
        return "Disc bytes are not 2,048 times the marks, sectors exceed 1,048,576 or are none, or a mark exceeds 2.";
    case TUORMIK_SPAN_OUTSIDE:
        return "L is 0 or S + L exceeds the sectors.";
    case TUORMIK_LENT_LENGTH:
        return "The lent table has under 4,096 entries, or a block, packet, map list to be written, record or result has the wrong length.";
    case TUORMIK_BITMAP_MALFORMED:
        return "The space bitmap is malformed, its bits are not L or run past its bytes, or CRC or bytes run past those lent.";
    case TUORMIK_MAP_CUT:
        return "A map is cut short, or of length 0.";
    case TUORMIK_NEITHER_KIND:
        return "The map list, read or to be written, is neither kind.";
    case TUORMIK_MISALIGNED:
        return "Rewritable: S, L or a table sector is not a multiple of 32, a table's packet is off the disc, in the partition or named "
               "twice, or spares to be made break the copy rule.";
    case TUORMIK_OTHER_KIND:
        return "The call is for the other kind of disc.";
    case TUORMIK_NO_TABLE:
        return "No VAT ICB or counting copy of the sparing table exists, or a lent VAT file is none.";
    case TUORMIK_TOO_MANY_ENTRIES:
        return "The VAT has over 4,096 entries.";
    case TUORMIK_COPIES_DIFFER:
        return "Current copies of the sparing table differ in entries.";
    case TUORMIK_STALE_RECORD:
        return "The record does not go with the disc and the lent table.";
    case TUORMIK_NUMBER_OUTSIDE:
        return "The block number is outside, or a packet start is not a multiple of 32 below L.";
    case TUORMIK_BELONGS_TO_SPARE:
        return "The block or packet belongs to a spare.";
    case TUORMIK_WRONG_RUN:
        return "The wanted run has length 0 or, in taking or giving back, ends past L or is not in the state needed.";
    case TUORMIK_NO_RUN:
        return "No free run of the wanted length exists.";
    case TUORMIK_UNUSED_ENTRY:
        return "The entry to be read or freed is unused.";
    case TUORMIK_BLANK_SECTOR:
        return "A sector to be read was never recorded: the first that is not recorded is blank.";
    case TUORMIK_UNREADABLE_SECTOR:
        return "A sector to be read cannot be read: the first that is not recorded is unreadable.";
    case TUORMIK_PASSES_AS_ICB:
        return "The block would pass as a VAT ICB at NWA.";
    case TUORMIK_NO_ROOM:
        return "The partition has no room for this and a commit after it.";
    case TUORMIK_ONE_TABLE:
        return "Sparing with one table only.";
    case TUORMIK_NO_SPARE:
        return "No entry of the sparing table is free.";
    case TUORMIK_LAST_SEQUENCE:
        return "The sequence of the sparing table is 0xffffffff.";
    case TUORMIK_NOT_BLANK:
        return "A write-once partition to be made is not blank.";
    case TUORMIK_CUT:
        return "The power failed in the call; the next call is an opening.";
    default:
        return "No call answers this number.";
    }
}

/* ---- marks, kinds, cuts and sizes */

#define TUORMIK_BLANK 0u
#define TUORMIK_RECORDED 1u
#define TUORMIK_UNREADABLE 2u

#define TUORMIK_WRITE_ONCE 0u
#define TUORMIK_REWRITABLE 1u

/* cut_at is the number of the sector write at which the power fails, counted from 1; 0, or a number past the call's last write, is no
   cut. Writes before it are done and later ones are not made; cut_effect says what becomes of that write itself: */
#define TUORMIK_EFFECT_OLD 0u        /* the sector is as it was */
#define TUORMIK_EFFECT_UNREADABLE 1u /* its mark is 2, its bytes are as they were */
#define TUORMIK_EFFECT_WHOLE 2u      /* it is written (any other number too) */

#define TUORMIK_SECTOR 2048u          /* bytes of a sector and of a block */
#define TUORMIK_PACKET 32u            /* sectors of a packet */
#define TUORMIK_PACKET_BYTES 65536u
#define TUORMIK_MOST_SECTORS 1048576u /* sectors that a disc has at most */
#define TUORMIK_TABLE_LENGTH 4096u    /* places that a lent table has at least */
#define TUORMIK_NONE 0xffffffffu      /* an unused entry; no previous ICB; as an original, a free spare */
#define TUORMIK_DEFECTIVE 0xfffffff0u /* as an original, a defective spare, which is not used again */
#define TUORMIK_STACK 8192u           /* bytes of stack that a call takes at most */

/* ---- the record: TUORMIK_RECORD_LENGTH numbers, filled by an opening and kept up by the calls after it */

#define TUORMIK_RECORD_LENGTH 5u
#define TUORMIK_RECORD_KIND 0   /* 0 write-once, 1 rewritable; any other number is a record that line 11 refuses */
#define TUORMIK_RECORD_COUNT 1  /* N, or R */
#define TUORMIK_RECORD_NEXT 2   /* NWA, or the sequence */
#define TUORMIK_RECORD_LAST 3   /* the last ICB's logical block; 0 on rewritable discs */
#define TUORMIK_RECORD_PASSED 4 /* how many sectors the opening passed over, as said at tuormik_open; set by an opening, else kept */

/* ---- what is lent together, each macro the arguments of a call in their order
 *
 *     tuormik_open(TUORMIK_LENT_DISC(disc, marks, sectors, maps, sizeof maps, s, l), TUORMIK_LENT_TABLE(table, record))
 */

/* A disc of so many sectors, with its map list and its partition; `sectors` is evaluated twice. */
#define TUORMIK_LENT_DISC(disc, marks, sectors, maps, maps_length, s, l) \
    (disc), (size_t)(sectors) * TUORMIK_SECTOR, (marks), (size_t)(sectors), (maps), (maps_length), (s), (l)
/* A table of at least TUORMIK_TABLE_LENGTH numbers, and a record. */
#define TUORMIK_LENT_TABLE(table, record) (table), (size_t)TUORMIK_TABLE_LENGTH, (record), (size_t)TUORMIK_RECORD_LENGTH
/* The bytes of a block, and of a packet. */
#define TUORMIK_LENT_BLOCK(block) (block), (size_t)TUORMIK_SECTOR
#define TUORMIK_LENT_PACKET(packet) (packet), (size_t)TUORMIK_PACKET_BYTES
/* The power stays on. */
#define TUORMIK_NO_CUT 0u, TUORMIK_EFFECT_OLD

/* ---- both kinds */

/*
 * Opens the disc. Write-once: goes down from the last sector of the partition that is not blank to the first VAT ICB. Rewritable: takes
 * the current sparing table. Its copies are read by either identifier, also side by side: *UDF Sparing Table, the newer one (UDF 1.50), and
 * *OSTA UDF Sparing Table, the older one (CD UDF 1.82). A copy with the older one and a defective spare does not count: only the newer one
 * knows that mark.
 * Leaves: the table filled from its start, places beyond kept; the record. An original of the sparing table is the first logical block of a
 * packet, TUORMIK_DEFECTIVE or TUORMIK_NONE. The disc is only read.
 * Refuses: 1 to 6, 8, 9 (write-once), 10 (rewritable).
 * Spares inside the partition: a mapped packet may stand there. Its blocks, each b for which S + (b - b modulo 32) is a mapped start of
 * the table, are not the caller's: reading, saving and sparing them is refused with 30, so that no two blocks share a sector. It is refused
 * always: whether the spare is used, defective or free, and after every call but making, cut or not, since a sparing keeps the mapped
 * packets. The number of blocks stays L: a block from L upward is refused with 12. It may be that every block belongs to a spare.
 * Passed over (TUORMIK_RECORD_PASSED): rewritable: 0. Write-once: how many sectors lie between that VAT ICB and NWA, which is 0 exactly if
 * the partition's last sector that is not blank is a VAT ICB. Wherever the power failed in the calls before, it is at most the number of
 * sector writes begun since the last whole VAT ICB: all of a call that was carried out, and those of a cut one up to the write at which the
 * power failed, whatever became of it. They are counted from an earlier opening that passed over none; what another one passed over is
 * added until the next whole VAT ICB. This takes for granted that what was recorded stays readable, and that nobody else writes to the disc.
 */
uint32_t tuormik_open(const uint8_t *disc, size_t disc_length,
                      const uint8_t *marks, size_t marks_length,
                      const uint8_t *maps, size_t maps_length,
                      uint32_t s, uint32_t l,
                      uint32_t *table, size_t table_length,
                      uint32_t *record, size_t record_length);

/*
 * Reads a block: virtual block `number` of a write-once disc, logical block `number` of a rewritable one.
 * Leaves: its 2,048 bytes in out, whose length is 2,048.
 * Refuses: 1 to 6, 8 and 10 (rewritable), 11, 12, then 30 (rewritable), 13 (write-once), 25 where its sector is blank, 14 where it is
 * unreadable.
 */
uint32_t tuormik_read(const uint8_t *disc, size_t disc_length,
                      const uint8_t *marks, size_t marks_length,
                      const uint8_t *maps, size_t maps_length,
                      uint32_t s, uint32_t l,
                      const uint32_t *table, size_t table_length,
                      const uint32_t *record, size_t record_length,
                      uint32_t number,
                      uint8_t *out, size_t out_length);

/*
 * Makes a disc: a blank write-once partition gets an empty VAT (1 sector); a rewritable one gets packets of zeros, the free spares whose
 * packets begin at the sectors `spares`, and tables of sequence 0 with the newer identifier, *UDF Sparing Table. A spare may be inside the
 * partition: it is written with zeros as all of the partition is, and its blocks are refused with 30 from then on. One outside is not
 * written. On a write-once disc the spares are not looked at. It hands back no record: open the disc after it.
 * Leaves: disc and marks written.
 * Refuses: 1, 2, 4, 5, 6 (rewritable; not because a spare is inside the partition), 21 (write-once).
 */
uint32_t tuormik_make(uint8_t *disc, size_t disc_length,
                      uint8_t *marks, size_t marks_length,
                      const uint8_t *maps, size_t maps_length,
                      uint32_t s, uint32_t l,
                      const uint32_t *spares, size_t spares_length);

/* ---- write-once */

/*
 * Saves 2,048 bytes as virtual block v, which is at most N; v = N adds a block. One sector write, at NWA. What is saved is found after
 * an opening only if a commit came between.
 * Leaves: disc and marks written; entry v of the table is the block's place; the record.
 * Refuses: 1 to 7, 11, 12, 15, 16.
 */
uint32_t tuormik_save_virtual(uint8_t *disc, size_t disc_length,
                              uint8_t *marks, size_t marks_length,
                              const uint8_t *maps, size_t maps_length,
                              uint32_t s, uint32_t l,
                              uint32_t *table, size_t table_length,
                              uint32_t *record, size_t record_length,
                              uint32_t v,
                              const uint8_t *block, size_t block_length,
                              uint32_t cut_at, uint32_t cut_effect);

/*
 * Frees virtual block v. No sector write.
 * Leaves: entry v of the table is TUORMIK_NONE.
 * Refuses: 1 to 7, 11, 12, 13.
 */
uint32_t tuormik_free_virtual(const uint8_t *disc, size_t disc_length,
                              const uint8_t *marks, size_t marks_length,
                              const uint8_t *maps, size_t maps_length,
                              uint32_t s, uint32_t l,
                              uint32_t *table, size_t table_length,
                              uint32_t *record, size_t record_length,
                              uint32_t v);

/*
 * Commits the table: the VAT's data sectors upward from NWA, if it is not embedded, then its ICB.
 * Leaves: disc and marks written; the record. The table is only read.
 * Refuses: 1 to 7, 11, 16.
 */
uint32_t tuormik_commit(uint8_t *disc, size_t disc_length,
                        uint8_t *marks, size_t marks_length,
                        const uint8_t *maps, size_t maps_length,
                        uint32_t s, uint32_t l,
                        const uint32_t *table, size_t table_length,
                        uint32_t *record, size_t record_length,
                        uint32_t cut_at, uint32_t cut_effect);

/*
 * Tells how full a write-once disc is, in per mille: 1,000 times NWA / L to the nearest whole number, an exact half
 * going to the even one. So 1,000 may be told of a disc that has a block left, and 0 of one that is in use.
 * Leaves: that number in result, whose length is 1.
 * Refuses: 1 to 7, 11.
 */
uint32_t tuormik_fullness(const uint8_t *disc, size_t disc_length,
                          const uint8_t *marks, size_t marks_length,
                          const uint8_t *maps, size_t maps_length,
                          uint32_t s, uint32_t l,
                          const uint32_t *table, size_t table_length,
                          const uint32_t *record, size_t record_length,
                          uint32_t *result, size_t result_length);

/* An item of a list that is to be forecast: below this number it is a save of that virtual block; this number, or any above it, is a
   commit. */
#define TUORMIK_ITEM_COMMIT 0x80000000u

#define TUORMIK_FORECAST_LENGTH 3u

/*
 * Tells what a list of saves and commits would come to on a write-once disc, without carrying it out: an item below TUORMIK_ITEM_COMMIT
 * is tuormik_save_virtual of that number, any other is tuormik_commit. The list has any length; it may be empty.
 * Leaves: in result, whose length is 3: 0, and NWA and N after the last item; or, where an item would be refused, the number of its refusal
 * (12 or 16), the index of the first such item, counted from 0, and 0. The call answers 0 in both cases. The disc is only read.
 * Refuses: 1 to 7, 11; the first item would be refused by the same number.
 * It is the forecast of a run that is not cut and in which no save is refused by 15: whatever the blocks of 2,048 bytes, carrying the items
 * out one after the other from the same disc, table and record, up to a first refusal, then comes to exactly this. 15 goes by the bytes of
 * the blocks, which are not lent here, and is not foreseen; a power failure takes sectors that the forecast does not know.
 */
uint32_t tuormik_forecast(const uint8_t *disc, size_t disc_length,
                          const uint8_t *marks, size_t marks_length,
                          const uint8_t *maps, size_t maps_length,
                          uint32_t s, uint32_t l,
                          const uint32_t *table, size_t table_length,
                          const uint32_t *record, size_t record_length,
                          const uint32_t *items, size_t items_length,
                          uint32_t *result, size_t result_length);

/* ---- rewritable */

/*
 * Saves 2,048 bytes as logical block b: its packet is read, the block replaced, and 32 sectors are written upward. The block's own sector
 * need not be recorded: it is not read.
 * Leaves: disc and marks written; the record. The table is only read.
 * Refuses: 1 to 8, 10 to 12, then 30; and, by the first of the other 31 sectors that is not recorded, 25 where it is blank, 14 where it is
 * unreadable.
 */
uint32_t tuormik_save_block(uint8_t *disc, size_t disc_length,
                            uint8_t *marks, size_t marks_length,
                            const uint8_t *maps, size_t maps_length,
                            uint32_t s, uint32_t l,
                            const uint32_t *table, size_t table_length,
                            uint32_t *record, size_t record_length,
                            uint32_t b,
                            const uint8_t *block, size_t block_length,
                            uint32_t cut_at, uint32_t cut_effect);

/*
 * Saves 65,536 bytes as the packet that begins at logical block b: 32 sectors are written upward. Nothing is read, so that a packet with
 * blank or unreadable sectors is whole after it.
 * Leaves: disc and marks written; the record. The table is only read.
 * Refuses: 1 to 8, 10 to 12, then 30.
 */
uint32_t tuormik_save_packet(uint8_t *disc, size_t disc_length,
                             uint8_t *marks, size_t marks_length,
                             const uint8_t *maps, size_t maps_length,
                             uint32_t s, uint32_t l,
                             const uint32_t *table, size_t table_length,
                             uint32_t *record, size_t record_length,
                             uint32_t b,
                             const uint8_t *packet, size_t packet_length,
                             uint32_t cut_at, uint32_t cut_effect);

/*
 * Spares the packet that begins at logical block b: 65,536 bytes are written upward to the free spare of lowest index, then the new
 * table, of sequence plus 1, to every copy: those that were not current first, then the others, each in map order. Each copy gets the newer
 * identifier, *UDF Sparing Table, whichever it had.
 * A packet that is spared already can be spared again, as often as a spare is free: its entry turns defective (its original becomes
 * TUORMIK_DEFECTIVE), the last of those that are, and the packet takes the free spare. A defective spare is never free again.
 * Cut, the sparing is done exactly if a new copy of the table is whole, which is so where write 33 is.
 * Leaves: disc and marks written; the new table in the lent one, places beyond kept; the record.
 * Refuses: 1 to 8, 10 to 12, then 30, 17, 19 (also where the packet has a spare of its own), 20.
 */
uint32_t tuormik_spare_packet(uint8_t *disc, size_t disc_length,
                              uint8_t *marks, size_t marks_length,
                              const uint8_t *maps, size_t maps_length,
                              uint32_t s, uint32_t l,
                              uint32_t *table, size_t table_length,
                              uint32_t *record, size_t record_length,
                              uint32_t b,
                              const uint8_t *packet, size_t packet_length,
                              uint32_t cut_at, uint32_t cut_effect);

/* ---- map lists and VAT files */

#define TUORMIK_MAPS_RESULT_LENGTH 8u

/*
 * Reads a map list.
 * Leaves: in result, whose length is 8: kind, partition number, number of tables, bytes of each table, and four table sectors (0 where
 * there is none; of a write-once volume all but the first two are 0).
 * Refuses: 3, 4, 5, and 6 where a table sector is not a multiple of 32 or is named twice.
 */
uint32_t tuormik_read_maps(const uint8_t *maps, size_t maps_length,
                           uint32_t *result, size_t result_length);

#define TUORMIK_WRITE_ONCE_MAPS_LENGTH 70u
#define TUORMIK_REWRITABLE_MAPS_LENGTH 64u

/*
 * Writes a map list: kind 0 write-once, 1 rewritable with the table sectors `tables`. For a write-once volume table_bytes and tables are
 * not looked at.
 * Leaves: the list in out, whose length is 70 (write-once) or 64 (rewritable).
 * Refuses: 3; 5 where the kind is above 1 (whatever the length of out), there are not 1 to 4 tables or table_bytes is not 56 to 2,048; 6
 * where a table sector is not a multiple of 32 or is named twice.
 */
uint32_t tuormik_write_maps(uint32_t kind, uint16_t partition, uint32_t table_bytes,
                            const uint32_t *tables, size_t tables_length,
                            uint8_t *out, size_t out_length);

/*
 * Looks up virtual block v in the bytes of a VAT file.
 * Leaves: the logical block in result, whose length is 1.
 * Refuses: 3, 8 where the file breaks the rule of its length or its regid, 9, 12, 13.
 */
uint32_t tuormik_look_up(const uint8_t *file, size_t file_length,
                         uint32_t v,
                         uint32_t *result, size_t result_length);

/* ---- the space bitmap of a rewritable disc
 *
 * The space bitmap (ECMA-167, 4/14.12; 02, slip 10) says which blocks are free. Its calls are lent its bytes, from its tag on, and L, the
 * number of blocks, and no disc: L may be 0, and may exceed TUORMIK_MOST_SECTORS.
 * The bytes: at 0 a tag of identifier 264; at 16 the number of bits, at 20 the number of bytes, 4 bytes each, the low one first; from 24 on
 * the bits, that of block b in byte 24 + b / 8 at weight 2 to the power b modulo 8. A one is a free block, a zero an allocated one.
 * Lend whole sectors: bytes behind the bitmap are kept. The bitmap may have more bytes than L bits need; bits from L on are not looked at,
 * and kept.
 * Refused with 31: under 24 bytes are lent; the tag's identifier, checksum or CRC is wrong, its CRC length is under 8, or that many bytes
 * from 16 on are not lent; the number of bits is not L, or is over 8 times that of bytes; or that many bytes from 24 on are not lent. The
 * CRC is over its own length, whether that covers none of the bits, some, all, or bytes behind them too. Version, serial number and
 * location of the tag are not tested, and kept.
 * A run is that many blocks in a row. With L = 0 no block is free, and every call but counting is refused with 12.
 */

/*
 * Counts the free blocks.
 * Leaves: their number in result, whose length is 1.
 * Refuses: 3, 31.
 */
uint32_t tuormik_bitmap_count(const uint8_t *bitmap, size_t bitmap_length,
                              uint32_t l,
                              uint32_t *result, size_t result_length);

/*
 * Finds the free run of `wanted` blocks whose first block is nearest to block `near`, the lower of two at equal distance. It may lie within
 * a longer row of free blocks, and it may begin below `near` and reach over it; the distance is always that of its first block. A taking of
 * it is accepted.
 * Leaves: its first block in result, whose length is 1.
 * Refuses: 3, 31, 12 where there is no block `near`, then 32 where wanted is 0, and 33 only if no such run exists, as where wanted is
 * above L.
 */
uint32_t tuormik_bitmap_find(const uint8_t *bitmap, size_t bitmap_length,
                             uint32_t l,
                             uint32_t wanted, uint32_t near,
                             uint32_t *result, size_t result_length);

/*
 * Takes the run of `count` blocks from block `first` on: all of them are free, and allocated after it.
 * Leaves: their bits written, then the tag's CRC, over its own length, and its checksum; every other byte is kept. So the bitmap's blocks
 * that hold these bits are to be saved and, where the CRC covers one of them, the first one too.
 * Refuses: 31, 12 where there is no block `first`, then 32 where count is 0, the run ends past L, or a block of it is allocated.
 */
uint32_t tuormik_bitmap_take(uint8_t *bitmap, size_t bitmap_length,
                             uint32_t l,
                             uint32_t first, uint32_t count);

/*
 * Gives the run of `count` blocks from block `first` on back: all of them are allocated, and free after it. Giving back what was taken
 * restores every byte.
 * Leaves: as tuormik_bitmap_take.
 * Refuses: 31, 12, then 32 where count is 0, the run ends past L, or a block of it is free.
 */
uint32_t tuormik_bitmap_give_back(uint8_t *bitmap, size_t bitmap_length,
                                  uint32_t l,
                                  uint32_t first, uint32_t count);

/* ---- the CRC of descriptor tags
 *
 * ECMA-167, 7.2.6: polynomial 0x1021 (x^16 + x^12 + x^5 + 1), high bit first, from any start. In a tag it starts at 0. The CRC of a whole
 * is that of its second part, started at that of its first; the CRC of no bytes is its start.
 * These functions return their value, refuse nothing and write nothing.
 */

/*
 * The CRC of the bytes, from `start`, as the calls compute it: a word of four bytes at a time and, at the end, a tail of up to three by
 * the byte.
 */
uint16_t tuormik_crc(const uint8_t *bytes, size_t bytes_length, uint16_t start);

/*
 * The same value, for any bytes and any start: a byte at a time.
 */
uint16_t tuormik_crc_by_bytes(const uint8_t *bytes, size_t bytes_length, uint16_t start);

/*
 * The same value, for any bytes and any start: each word of four bytes by tuormik_crc_word, and a tail of up to three by the byte.
 */
uint16_t tuormik_crc_by_words(const uint8_t *bytes, size_t bytes_length, uint16_t start);

/*
 * The word's step: from any CRC, what the steps of the bytes a, b, c and d, in this order, give.
 */
uint16_t tuormik_crc_word(uint16_t crc, uint8_t a, uint8_t b, uint8_t c, uint8_t d);

/* ---- lists of calls */

#define TUORMIK_CALL_LENGTH 6u

#define TUORMIK_CALL_SAVE_VIRTUAL 0u
#define TUORMIK_CALL_FREE_VIRTUAL 1u
#define TUORMIK_CALL_COMMIT 2u
#define TUORMIK_CALL_SAVE_BLOCK 3u
#define TUORMIK_CALL_SAVE_PACKET 4u
#define TUORMIK_CALL_SPARE_PACKET 5u
#define TUORMIK_CALL_OPEN 6u /* any other number too */

/*
 * Opens the disc and carries out a list of calls on it.
 * A call is 6 numbers: kind (as above), number (v or b), cut_at, cut_effect, from, count. Its block or packet is the part of `bytes` that
 * begins at `from` and is `count` bytes long, as far as `bytes` reaches. A call does not look at what it has no use for. Fewer than 6
 * numbers left over are no call. After a cut the next call is taken as an opening, whatever it is.
 * Replies are one number a call, from the start of `replies`: 0, a refusal, or 255. Those that do not fit are not written, while the
 * calls still run; places beyond the last call are kept.
 * Leaves: disc, marks and table as the last call left them; the record in force, with passed over of the last opening that was accepted,
 * which is bounded as said at tuormik_open, counted from what its own opening passed over.
 * Returns: what its own opening answers (0, or 1 to 6, 8 to 10). Where that is a refusal no call is carried out.
 */
uint32_t tuormik_run(uint8_t *disc, size_t disc_length,
                     uint8_t *marks, size_t marks_length,
                     const uint8_t *maps, size_t maps_length,
                     uint32_t s, uint32_t l,
                     uint32_t *table, size_t table_length,
                     uint32_t *record, size_t record_length,
                     const uint32_t *calls, size_t calls_length,
                     const uint8_t *bytes, size_t bytes_length,
                     uint32_t *replies, size_t replies_length);

#ifdef __cplusplus
}
#endif

#endif
