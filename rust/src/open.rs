//! The calls of document 01 on a lent disc, with types.

use crate::{calls, possible_icbs, Cut, Error, Held, Record, Refusal, MOST_ENTRIES, SECTOR};

/// A disc that is lent to be read: 2,048 bytes and a mark byte a sector, the map list, and the partition's first sector and number of
/// sectors.
#[derive(Clone, Copy)]
pub struct DiscRef<'a> {
    /// The bytes, 2,048 a sector.
    pub bytes: &'a [u8],
    /// The marks, one a sector: [`BLANK`](crate::BLANK), [`RECORDED`](crate::RECORDED) or [`UNREADABLE`](crate::UNREADABLE).
    pub marks: &'a [u8],
    /// The map list.
    pub maps: &'a [u8],
    /// S, the partition's first sector.
    pub start: u32,
    /// L, its number of sectors.
    pub length: u32,
}

impl<'a> DiscRef<'a> {
    /// Opens the disc to read it.
    pub fn open(self) -> Result<OpenRef<'a>, Error> {
        let mut table = vec![0; MOST_ENTRIES];
        let record = self.open_into(&mut table)?;
        Ok(OpenRef { disc: self, found: Found { table, record } })
    }

    fn open_into(self, table: &mut [u32]) -> Result<Record, Error> {
        let mut record = [0; 5];
        Error::check(calls::open(self.bytes, self.marks, self.maps, self.start, self.length, table, &mut record))?;
        Ok(Record::from_numbers(record))
    }
}

/// A lent disc: what [`DiscRef`] has, to be written too.
pub struct Disc<'a> {
    /// The bytes, 2,048 a sector.
    pub bytes: &'a mut [u8],
    /// The marks, one a sector: [`BLANK`](crate::BLANK), [`RECORDED`](crate::RECORDED) or [`UNREADABLE`](crate::UNREADABLE).
    pub marks: &'a mut [u8],
    /// The map list.
    pub maps: &'a [u8],
    /// S, the partition's first sector.
    pub start: u32,
    /// L, its number of sectors.
    pub length: u32,
}

impl<'a> Disc<'a> {
    /// The disc, to be read.
    pub fn to_read(&self) -> DiscRef<'_> {
        DiscRef { bytes: self.bytes, marks: self.marks, maps: self.maps, start: self.start, length: self.length }
    }

    /// Makes a disc: an empty VAT in a blank write-once partition; packets of zeros, spares that begin at the named sectors, and tables
    /// of sequence 0, with the identifier of UDF 1.50, on a rewritable one.
    ///
    /// A spare may be inside the partition (document 02, slip 8). Its blocks are then not the user's: reading, saving and sparing them is
    /// refused as [`BelongsToSpare`](crate::Refusal::BelongsToSpare), always, whether the spare is used, defective or free. The number of
    /// blocks stays L.
    ///
    /// ```
    /// # use tuormik::{write_maps, Disc, Error, Maps, Refusal};
    /// # let maps = write_maps(&Maps::Rewritable { partition: 0, table_bytes: 2048, tables: vec![0, 32] })?;
    /// # let (mut bytes, mut marks) = (vec![0; 2048 * 160], vec![0; 160]);
    /// let mut disc = Disc { bytes: &mut bytes, marks: &mut marks, maps: &maps, start: 64, length: 96 };
    /// disc.make(&[96])?;
    /// let mut open = disc.open()?;
    /// // blocks 32 to 63 are sectors 96 to 127; there are 96 blocks
    /// assert_eq!(open.read(32), Err(Error::Refused(Refusal::BelongsToSpare)));
    /// assert_eq!(open.read(96), Err(Error::Refused(Refusal::NumberOutside)));
    /// open.spare_packet(0, &[1; 65_536])?;
    /// assert_eq!(open.read(0)?, [1; 2048]);
    /// assert_eq!(open.read(32), Err(Error::Refused(Refusal::BelongsToSpare)));
    /// # Ok::<(), Error>(())
    /// ```
    pub fn make(&mut self, spares: &[u32]) -> Result<(), Error> {
        let (start, length) = (self.start, self.length);
        Error::check(calls::make(self.bytes, self.marks, self.maps, start, length, spares))
    }

    /// Opens the disc. Copies of a sparing table are read by the identifier of UDF 1.50 and by that of CD UDF 1.82; with the latter a copy
    /// that has a defective spare does not count.
    pub fn open(self) -> Result<Open<'a>, Error> {
        let mut table = vec![0; MOST_ENTRIES];
        let record = self.to_read().open_into(&mut table)?;
        Ok(Open { disc: self, found: Found { table, record }, is_down: false })
    }

    /// Opens the disc and carries out a list of calls. After a cut the next call is taken as an opening.
    pub fn run(&mut self, calls: &[Call]) -> Result<Ran, Error> {
        let mut numbers = Vec::with_capacity(6 * calls.len());
        let mut pool = Vec::new();
        for call in calls {
            call.push_to(&mut numbers, &mut pool);
        }
        let mut table = vec![0; MOST_ENTRIES];
        let mut record = [0; 5];
        let mut replies = vec![0; calls.len()];
        let Disc { bytes, marks, maps, start, length } = self;
        Error::check(calls::run(bytes, marks, maps, *start, *length, &mut table, &mut record, &numbers, &pool, &mut replies))?;
        let replies = calls.iter().zip(replies).map(|(call, reply)| Error::check(reply).map_err(|error| call.explain(error))).collect();
        Ok(Ran { record: Record::from_numbers(record), table, replies })
    }
}

/// A call of a list.
#[derive(Clone, Copy, Debug)]
pub enum Call<'b> {
    /// [`Open::save_virtual_cut`].
    SaveVirtual {
        /// The virtual block.
        v: u32,
        /// Its 2,048 bytes.
        block: &'b [u8],
        /// Where the power fails.
        cut: Cut,
    },
    /// [`Open::free_virtual`].
    FreeVirtual {
        /// The virtual block.
        v: u32,
    },
    /// [`Open::commit_cut`].
    Commit {
        /// Where the power fails.
        cut: Cut,
    },
    /// [`Open::save_block_cut`].
    SaveBlock {
        /// The logical block.
        b: u32,
        /// Its 2,048 bytes.
        block: &'b [u8],
        /// Where the power fails.
        cut: Cut,
    },
    /// [`Open::save_packet_cut`].
    SavePacket {
        /// The packet's first logical block.
        b: u32,
        /// Its 65,536 bytes.
        packet: &'b [u8],
        /// Where the power fails.
        cut: Cut,
    },
    /// [`Open::spare_packet_cut`].
    SparePacket {
        /// The packet's first logical block.
        b: u32,
        /// Its 65,536 bytes.
        packet: &'b [u8],
        /// Where the power fails.
        cut: Cut,
    },
    /// [`Open::open_again`].
    Open,
}

impl Call<'_> {
    /// The six numbers of a call, and its bytes at the end of the pool.
    fn push_to(&self, numbers: &mut Vec<u32>, pool: &mut Vec<u8>) {
        let (kind, number, bytes, cut): (u32, u32, &[u8], Cut) = match *self {
            Call::SaveVirtual { v, block, cut } => (0, v, block, cut),
            Call::FreeVirtual { v } => (1, v, &[], Cut::NONE),
            Call::Commit { cut } => (2, 0, &[], cut),
            Call::SaveBlock { b, block, cut } => (3, b, block, cut),
            Call::SavePacket { b, packet, cut } => (4, b, packet, cut),
            Call::SparePacket { b, packet, cut } => (5, b, packet, cut),
            Call::Open => (6, 0, &[], Cut::NONE),
        };
        let (at, effect) = cut.numbers();
        // a pool past 4 GB cannot be named by a call: its part is then short, and the call is refused by line 3
        let from = u32::try_from(pool.len()).unwrap_or(u32::MAX);
        let count = u32::try_from(bytes.len()).unwrap_or(u32::MAX);
        numbers.extend([kind, number, at, effect, from, count]);
        pool.extend_from_slice(bytes);
    }

    /// An error of the call, with what was lent to it.
    fn explain(&self, error: Error) -> Error {
        match *self {
            Call::SaveVirtual { block, .. } | Call::SaveBlock { block, .. } => error.of_block(block),
            Call::SavePacket { packet, .. } | Call::SparePacket { packet, .. } => error.of_packet(packet),
            Call::FreeVirtual { .. } | Call::Commit { .. } | Call::Open => error,
        }
    }
}

/// What is left of a list of calls.
#[derive(Clone, Debug)]
pub struct Ran {
    /// The record in force after the list.
    pub record: Record,
    /// The lent table after it.
    pub table: Vec<u32>,
    /// What each call answered.
    pub replies: Vec<Result<(), Error>>,
}

/// What a list of saves and commits would come to on a write-once disc (document 02, slip 9).
#[derive(Clone, Copy, Debug, PartialEq, Eq)]
pub enum Forecast {
    /// Every item would be carried out.
    Fits {
        /// NWA after the last of them.
        next: u32,
        /// N after the last of them.
        entries: u32,
    },
    /// An item would be refused.
    Stops {
        /// The index of the first such item, counted from 0.
        index: u32,
        /// Why: [`NumberOutside`](crate::Refusal::NumberOutside) or [`NoRoom`](crate::Refusal::NoRoom).
        why: Refusal,
    },
}

/// What an opening found: the lent table, and the record that goes with it.
struct Found {
    table: Vec<u32>,
    record: Record,
}

impl Found {
    fn entries(&self) -> &[u32] {
        let count = self.record.entries() as usize;
        let places = match self.record.held {
            Held::WriteOnce { .. } => count,
            Held::Rewritable { .. } | Held::Other(_) => count.saturating_mul(2),
        };
        // a resumed record may name more than there are
        self.table.get(..places).unwrap_or(&self.table)
    }

    fn read(&self, disc: DiscRef, number: u32) -> Result<[u8; SECTOR], Error> {
        let mut out = [0; SECTOR];
        let record = self.record.numbers();
        let DiscRef { bytes, marks, maps, start, length } = disc;
        Error::check(calls::read(bytes, marks, maps, start, length, &self.table, &record, number, &mut out))?;
        Ok(out)
    }

    fn fullness(&self, disc: DiscRef) -> Result<u32, Error> {
        let mut result = [0];
        let record = self.record.numbers();
        let DiscRef { bytes, marks, maps, start, length } = disc;
        Error::check(calls::fullness(bytes, marks, maps, start, length, &self.table, &record, &mut result))?;
        Ok(result[0])
    }

    fn forecast(&self, disc: DiscRef, items: &[u32]) -> Result<Forecast, Error> {
        let mut result = [0; 3];
        let record = self.record.numbers();
        let DiscRef { bytes, marks, maps, start, length } = disc;
        Error::check(calls::forecast(bytes, marks, maps, start, length, &self.table, &record, items, &mut result))?;
        let [number, next_or_index, entries] = result;
        Ok(match Error::check(number) {
            Ok(()) => Forecast::Fits { next: next_or_index, entries },
            Err(Error::Refused(why)) => Forecast::Stops { index: next_or_index, why },
            Err(other) => return Err(other),
        })
    }
}

/// A disc that was opened to be read: the lent disc, its table and its record.
pub struct OpenRef<'a> {
    disc: DiscRef<'a>,
    found: Found,
}

impl<'a> OpenRef<'a> {
    /// The record that the opening handed back.
    pub fn record(&self) -> Record {
        self.found.record
    }

    /// The entries of the VAT, or original and mapped by turns of the sparing table: first its packets that are spared, each by its first
    /// block, then defective spares ([`DEFECTIVE`](crate::DEFECTIVE)), then free ones ([`NONE`](crate::NONE)). A mapped packet inside the
    /// partition belongs to its spare whichever of these it is.
    pub fn table(&self) -> &[u32] {
        self.found.entries()
    }

    /// The disc.
    pub fn disc(&self) -> DiscRef<'a> {
        self.disc
    }

    /// Reads a block: a virtual one of a write-once disc, a logical one of a rewritable disc. One that belongs to a spare inside the
    /// partition is refused as [`BelongsToSpare`](crate::Refusal::BelongsToSpare), whatever its sector; one whose sector was never recorded
    /// as [`BlankSector`](crate::Refusal::BlankSector), one whose sector cannot be read as
    /// [`UnreadableSector`](crate::Refusal::UnreadableSector).
    pub fn read(&self, number: u32) -> Result<[u8; SECTOR], Error> {
        self.found.read(self.disc, number)
    }

    /// How full a write-once disc is, in per mille to the nearest, an exact half going to the even number.
    pub fn fullness(&self) -> Result<u32, Error> {
        self.found.fullness(self.disc)
    }

    /// What a list of saves and commits would come to, as [`Open::forecast`] tells it.
    pub fn forecast(&self, items: &[u32]) -> Result<Forecast, Error> {
        self.found.forecast(self.disc, items)
    }

    /// The logical blocks that were passed over and may be a newer VAT than the one that was found, as [`possible_icbs`] finds them.
    pub fn possible_icbs(&self) -> Vec<u32> {
        possible_icbs(self.disc.bytes, self.disc.marks, self.disc.start, self.found.record)
    }
}

/// An open disc: the lent disc, its table and its record.
///
/// A call that writes can be run with a cut, a power failure at one of its sector writes, by its name that ends in `_cut`; after one the
/// disc has to be opened again.
pub struct Open<'a> {
    disc: Disc<'a>,
    found: Found,
    is_down: bool,
}

impl<'a> Open<'a> {
    /// A disc that was opened before, with the table and the record of then; a record that does not go with the disc is refused by
    /// the calls.
    pub fn resume(disc: Disc<'a>, table: &[u32], record: Record) -> Open<'a> {
        let mut places = table.to_vec();
        places.resize(table.len().max(MOST_ENTRIES), 0);
        Open { disc, found: Found { table: places, record }, is_down: false }
    }

    /// The record last handed back.
    pub fn record(&self) -> Record {
        self.found.record
    }

    /// The entries of the VAT, or original and mapped by turns of the sparing table: first its packets that are spared, each by its first
    /// block, then defective spares ([`DEFECTIVE`](crate::DEFECTIVE)), then free ones ([`NONE`](crate::NONE)). A mapped packet inside the
    /// partition belongs to its spare whichever of these it is.
    pub fn table(&self) -> &[u32] {
        self.found.entries()
    }

    /// The disc.
    pub fn disc(&self) -> &Disc<'a> {
        &self.disc
    }

    /// The disc, handed back.
    pub fn close(self) -> Disc<'a> {
        self.disc
    }

    /// Opens the disc again: what was saved on a write-once disc and not committed is gone.
    pub fn open_again(&mut self) -> Result<(), Error> {
        self.found.record = self.disc.to_read().open_into(&mut self.found.table)?;
        self.is_down = false;
        Ok(())
    }

    fn need_power(&self) -> Result<(), Error> {
        if self.is_down {
            Err(Error::PowerOff)
        } else {
            Ok(())
        }
    }

    /// Makes a call of disc, table and record, which it may write, and takes the record that it hands back.
    fn change(&mut self, call: impl FnOnce(&mut Disc, &mut [u32], &mut [u32]) -> u32) -> Result<(), Error> {
        self.need_power()?;
        let mut record = self.found.record.numbers();
        let answer = Error::check(call(&mut self.disc, &mut self.found.table, &mut record));
        self.found.record = Record::from_numbers(record);
        self.is_down = answer == Err(Error::Cut);
        answer
    }

    /// Reads a block: a virtual one of a write-once disc, a logical one of a rewritable disc. One that belongs to a spare inside the
    /// partition is refused as [`BelongsToSpare`](crate::Refusal::BelongsToSpare), whatever its sector; one whose sector was never recorded
    /// as [`BlankSector`](crate::Refusal::BlankSector), one whose sector cannot be read as
    /// [`UnreadableSector`](crate::Refusal::UnreadableSector).
    pub fn read(&self, number: u32) -> Result<[u8; SECTOR], Error> {
        self.need_power()?;
        self.found.read(self.disc.to_read(), number)
    }

    /// How full a write-once disc is, in per mille to the nearest, an exact half going to the even number.
    pub fn fullness(&self) -> Result<u32, Error> {
        self.need_power()?;
        self.found.fullness(self.disc.to_read())
    }

    /// What a list of saves and commits would come to on a write-once disc (document 02, slip 9): an item below
    /// [`COMMIT`](crate::COMMIT) is [`Open::save_virtual`] of that number, any other is [`Open::commit`]. The disc is only read.
    ///
    /// It is the forecast of a run in which the power does not fail and no block is refused as
    /// [`PassesAsIcb`](crate::Refusal::PassesAsIcb), which depends on the blocks' bytes: carrying the items out one after the other, up
    /// to a first refusal, then comes to exactly this. Where the call itself is refused, so is the first item, for the same reason.
    ///
    /// ```
    /// # use tuormik::{write_maps, Disc, Error, Forecast, Maps, COMMIT};
    /// # let maps = write_maps(&Maps::WriteOnce { partition: 0 })?;
    /// # let (mut bytes, mut marks) = (vec![0; 2048 * 100], vec![0; 100]);
    /// # let mut disc = Disc { bytes: &mut bytes, marks: &mut marks, maps: &maps, start: 0, length: 100 };
    /// # disc.make(&[])?;
    /// let mut open = disc.open()?;
    /// assert_eq!(open.forecast(&[0, 1, 0, COMMIT])?, Forecast::Fits { next: 5, entries: 2 });
    /// # Ok::<(), Error>(())
    /// ```
    pub fn forecast(&self, items: &[u32]) -> Result<Forecast, Error> {
        self.need_power()?;
        self.found.forecast(self.disc.to_read(), items)
    }

    /// Saves a virtual block; the number N adds one.
    pub fn save_virtual(&mut self, v: u32, block: &[u8]) -> Result<(), Error> {
        self.save_virtual_cut(v, block, Cut::NONE)
    }

    /// [`Open::save_virtual`] with a cut.
    pub fn save_virtual_cut(&mut self, v: u32, block: &[u8], cut: Cut) -> Result<(), Error> {
        let (at, effect) = cut.numbers();
        self.change(|d, table, record| {
            calls::save_virtual(d.bytes, d.marks, d.maps, d.start, d.length, table, record, v, block, at, effect)
        })
        .map_err(|error| error.of_block(block))
    }

    /// Frees a virtual block.
    pub fn free_virtual(&mut self, v: u32) -> Result<(), Error> {
        self.change(|d, table, record| calls::free_virtual(d.bytes, d.marks, d.maps, d.start, d.length, table, record, v))
    }

    /// Commits what was saved and freed on a write-once disc.
    pub fn commit(&mut self) -> Result<(), Error> {
        self.commit_cut(Cut::NONE)
    }

    /// [`Open::commit`] with a cut.
    pub fn commit_cut(&mut self, cut: Cut) -> Result<(), Error> {
        let (at, effect) = cut.numbers();
        self.change(|d, table, record| calls::commit(d.bytes, d.marks, d.maps, d.start, d.length, table, record, at, effect))
    }

    /// Saves a logical block of a rewritable disc, but for one that [belongs to a spare](crate::Refusal::BelongsToSpare). The others of its
    /// packet are written with it: the first of them that is not recorded is why it is refused, as
    /// [`BlankSector`](crate::Refusal::BlankSector) or as [`UnreadableSector`](crate::Refusal::UnreadableSector). The block's own sector may
    /// be either.
    pub fn save_block(&mut self, b: u32, block: &[u8]) -> Result<(), Error> {
        self.save_block_cut(b, block, Cut::NONE)
    }

    /// [`Open::save_block`] with a cut.
    pub fn save_block_cut(&mut self, b: u32, block: &[u8], cut: Cut) -> Result<(), Error> {
        let (at, effect) = cut.numbers();
        self.change(|d, table, record| calls::save_block(d.bytes, d.marks, d.maps, d.start, d.length, table, record, b, block, at, effect))
            .map_err(|error| error.of_block(block))
    }

    /// Saves the packet that begins at a logical block, but for one that [belongs to a spare](crate::Refusal::BelongsToSpare).
    pub fn save_packet(&mut self, b: u32, packet: &[u8]) -> Result<(), Error> {
        self.save_packet_cut(b, packet, Cut::NONE)
    }

    /// [`Open::save_packet`] with a cut.
    pub fn save_packet_cut(&mut self, b: u32, packet: &[u8], cut: Cut) -> Result<(), Error> {
        let (at, effect) = cut.numbers();
        self.change(|d, table, record| {
            calls::save_packet(d.bytes, d.marks, d.maps, d.start, d.length, table, record, b, packet, at, effect)
        })
        .map_err(|error| error.of_packet(packet))
    }

    /// Spares the packet that begins at a logical block: its bytes go to the free spare of lowest index. A packet that is spared already
    /// can be spared again: its old spare turns defective ([`DEFECTIVE`](crate::DEFECTIVE)), the last of those that are. One that
    /// [belongs to a spare](crate::Refusal::BelongsToSpare) itself is not spared. Every copy of the table is written with the identifier of
    /// UDF 1.50, whichever it had.
    ///
    /// ```
    /// # use tuormik::{write_maps, Disc, Error, Maps, Refusal, DEFECTIVE, NONE};
    /// # let maps = write_maps(&Maps::Rewritable { partition: 0, table_bytes: 2048, tables: vec![0, 32] })?;
    /// # let (mut bytes, mut marks) = (vec![0; 2048 * 160], vec![0; 160]);
    /// # let mut disc = Disc { bytes: &mut bytes, marks: &mut marks, maps: &maps, start: 128, length: 32 };
    /// # disc.make(&[64, 96])?;
    /// let mut open = disc.open()?;
    /// open.spare_packet(0, &[1; 65_536])?;
    /// assert_eq!(open.table(), [0, 64, NONE, 96]);
    /// open.spare_packet(0, &[2; 65_536])?;
    /// assert_eq!(open.table(), [0, 96, DEFECTIVE, 64]);
    /// assert_eq!(open.spare_packet(0, &[3; 65_536]), Err(Error::Refused(Refusal::NoSpare)));
    /// # Ok::<(), Error>(())
    /// ```
    pub fn spare_packet(&mut self, b: u32, packet: &[u8]) -> Result<(), Error> {
        self.spare_packet_cut(b, packet, Cut::NONE)
    }

    /// [`Open::spare_packet`] with a cut.
    pub fn spare_packet_cut(&mut self, b: u32, packet: &[u8], cut: Cut) -> Result<(), Error> {
        let (at, effect) = cut.numbers();
        self.change(|d, table, record| {
            calls::spare_packet(d.bytes, d.marks, d.maps, d.start, d.length, table, record, b, packet, at, effect)
        })
        .map_err(|error| error.of_packet(packet))
    }
}

/// What a map list tells of a volume.
#[derive(Clone, Debug, PartialEq, Eq)]
pub enum Maps {
    /// A write-once volume.
    WriteOnce {
        /// The partition number.
        partition: u16,
    },
    /// A rewritable volume.
    Rewritable {
        /// The partition number.
        partition: u16,
        /// The bytes of each sparing table.
        table_bytes: u32,
        /// The sectors of the sparing tables.
        tables: Vec<u32>,
    },
}

/// Reads a map list.
pub fn read_maps(maps: &[u8]) -> Result<Maps, Error> {
    let mut result = [0; 8];
    Error::check(calls::read_maps(maps, &mut result))?;
    let [kind, partition, count, table_bytes, ref sectors @ ..] = result;
    let partition = partition as u16;
    Ok(match kind {
        0 => Maps::WriteOnce { partition },
        _ => {
            let tables = sectors.iter().copied().take(count as usize).collect();
            Maps::Rewritable { partition, table_bytes, tables }
        }
    })
}

/// Writes a map list.
pub fn write_maps(maps: &Maps) -> Result<Vec<u8>, Error> {
    let (out, number) = match maps {
        Maps::WriteOnce { partition } => {
            let mut out = vec![0; 70];
            let number = calls::write_maps(0, *partition, 0, &[], &mut out);
            (out, number)
        }
        Maps::Rewritable { partition, table_bytes, tables } => {
            let mut out = vec![0; 64];
            let number = calls::write_maps(1, *partition, *table_bytes, tables, &mut out);
            (out, number)
        }
    };
    Error::check(number)?;
    Ok(out)
}

/// Looks up a virtual block in the bytes of a VAT file.
pub fn look_up(file: &[u8], v: u32) -> Result<u32, Error> {
    let mut result = [0];
    Error::check(calls::look_up(file, v, &mut result))?;
    Ok(result[0])
}
