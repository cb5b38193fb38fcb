// The functions of `include/tuormik.h`, in its order: an entry each, with a slice for a pointer and a length, and without the prefix of
// their names.
//
// `functions!` hands all of them to a macro. From them are made the declarations and the safe functions of `tuormik::calls`, the exports
// of the plain implementation, and the `Layer` by which two implementations are compared; `checks/interface.py` holds them against the
// source. A parameter is a number or a slice of numbers, lent to be read or to be written.
macro_rules! functions {
    ($make:ident) => {
        $make! {
            /// Opens the disc.
            fn open(disc: &[u8], marks: &[u8], maps: &[u8], s: u32, l: u32, table: &mut [u32], record: &mut [u32]) -> u32;

            /// Reads a block.
            fn read(
                disc: &[u8], marks: &[u8], maps: &[u8], s: u32, l: u32, table: &[u32], record: &[u32],
                number: u32, out: &mut [u8],
            ) -> u32;

            /// Makes a disc.
            fn make(disc: &mut [u8], marks: &mut [u8], maps: &[u8], s: u32, l: u32, spares: &[u32]) -> u32;

            // ---- write-once

            /// Saves virtual block v.
            fn save_virtual(
                disc: &mut [u8], marks: &mut [u8], maps: &[u8], s: u32, l: u32, table: &mut [u32], record: &mut [u32],
                v: u32, block: &[u8], cut_at: u32, cut_effect: u32,
            ) -> u32;

            /// Frees virtual block v.
            fn free_virtual(
                disc: &[u8], marks: &[u8], maps: &[u8], s: u32, l: u32, table: &mut [u32], record: &mut [u32],
                v: u32,
            ) -> u32;

            /// Commits the table.
            fn commit(
                disc: &mut [u8], marks: &mut [u8], maps: &[u8], s: u32, l: u32, table: &[u32], record: &mut [u32],
                cut_at: u32, cut_effect: u32,
            ) -> u32;

            /// Tells how full a write-once disc is.
            fn fullness(
                disc: &[u8], marks: &[u8], maps: &[u8], s: u32, l: u32, table: &[u32], record: &[u32],
                result: &mut [u32],
            ) -> u32;

            /// Tells what a list of saves and commits would come to on a write-once disc, without changing it (02, slip 9): an item below
            /// [`COMMIT`](crate::COMMIT) is a save of that block, any other a commit.
            fn forecast(
                disc: &[u8], marks: &[u8], maps: &[u8], s: u32, l: u32, table: &[u32], record: &[u32],
                items: &[u32], result: &mut [u32],
            ) -> u32;

            // ---- rewritable

            /// Saves logical block b.
            fn save_block(
                disc: &mut [u8], marks: &mut [u8], maps: &[u8], s: u32, l: u32, table: &[u32], record: &mut [u32],
                b: u32, block: &[u8], cut_at: u32, cut_effect: u32,
            ) -> u32;

            /// Saves the packet that begins at logical block b.
            fn save_packet(
                disc: &mut [u8], marks: &mut [u8], maps: &[u8], s: u32, l: u32, table: &[u32], record: &mut [u32],
                b: u32, packet: &[u8], cut_at: u32, cut_effect: u32,
            ) -> u32;

            /// Spares the packet that begins at logical block b, also one that is spared already.
            fn spare_packet(
                disc: &mut [u8], marks: &mut [u8], maps: &[u8], s: u32, l: u32, table: &mut [u32], record: &mut [u32],
                b: u32, packet: &[u8], cut_at: u32, cut_effect: u32,
            ) -> u32;

            // ---- map lists and VAT files

            /// Reads a map list.
            fn read_maps(maps: &[u8], result: &mut [u32]) -> u32;

            /// Writes a map list.
            fn write_maps(kind: u32, partition: u16, table_bytes: u32, tables: &[u32], out: &mut [u8]) -> u32;

            /// Looks up virtual block v in a VAT file.
            fn look_up(file: &[u8], v: u32, result: &mut [u32]) -> u32;

            // ---- the space bitmap

            /// Counts the free blocks of a space bitmap.
            fn bitmap_count(bitmap: &[u8], l: u32, result: &mut [u32]) -> u32;

            /// Finds the free run of a wanted length whose first block is nearest to a block.
            fn bitmap_find(bitmap: &[u8], l: u32, wanted: u32, near: u32, result: &mut [u32]) -> u32;

            /// Takes a run of free blocks.
            fn bitmap_take(bitmap: &mut [u8], l: u32, first: u32, count: u32) -> u32;

            /// Gives a run of allocated blocks back.
            fn bitmap_give_back(bitmap: &mut [u8], l: u32, first: u32, count: u32) -> u32;

            // ---- the CRC of descriptor tags

            /// The CRC of descriptor tags (ECMA-167, 7.2.6): polynomial 0x1021, high bit first; of these bytes, from any start.
            ///
            /// In a tag it starts at 0. The CRC of a whole is that of its second part, started at that of its first.
            ///
            /// ```
            /// assert_eq!(tuormik::crc(b"123456789", 0), 0x31c3);
            /// assert_eq!(tuormik::crc(b"6789", tuormik::crc(b"12345", 0)), 0x31c3);
            /// ```
            fn crc(bytes: &[u8], start: u16) -> u16;

            /// The value of [`crc`], a byte at a time.
            fn crc_by_bytes(bytes: &[u8], start: u16) -> u16;

            /// The value of [`crc`], each word of four bytes by [`crc_word`], and a tail of up to three by the byte.
            fn crc_by_words(bytes: &[u8], start: u16) -> u16;

            /// The word's step: from any CRC, what the steps of the bytes a, b, c and d, in this order, give.
            fn crc_word(crc: u16, a: u8, b: u8, c: u8, d: u8) -> u16;

            // ---- lists of calls

            /// Opens the disc and carries out a list of calls.
            fn run(
                disc: &mut [u8], marks: &mut [u8], maps: &[u8], s: u32, l: u32, table: &mut [u32], record: &mut [u32],
                calls: &[u32], bytes: &[u8], replies: &mut [u32],
            ) -> u32;
        }
    };
}
