//! The space bitmap of a rewritable disc, which says which logical blocks are free (document 02, slip 10; ECMA-167, 4/14.12).

use crate::{calls, Error};

/// A space bitmap that is lent to be read: its bytes from its tag on, and the number of blocks.
///
/// More bytes may be lent than the bitmap has, as those of whole sectors. No disc is lent, so L has no limit but that its bits are there,
/// and may be 0. A call refuses a bitmap that does not go with L or with the lent bytes as
/// [`BitmapMalformed`](crate::Refusal::BitmapMalformed). Of the tag its identifier, its checksum and its CRC are tested.
#[derive(Clone, Copy)]
pub struct BitmapRef<'a> {
    /// The bytes.
    pub bytes: &'a [u8],
    /// L, the number of blocks.
    pub length: u32,
}

impl BitmapRef<'_> {
    /// How many blocks are free.
    pub fn free(self) -> Result<u32, Error> {
        let mut result = [0];
        Error::check(calls::bitmap_count(self.bytes, self.length, &mut result))?;
        Ok(result[0])
    }

    /// The first block of the free run of a wanted length that is nearest to block `near`, as [`Bitmap::find`] finds it.
    pub fn find(self, wanted: u32, near: u32) -> Result<u32, Error> {
        let mut result = [0];
        Error::check(calls::bitmap_find(self.bytes, self.length, wanted, near, &mut result))?;
        Ok(result[0])
    }
}

/// A lent space bitmap: what [`BitmapRef`] has, to be written too.
///
/// ```
/// use tuormik::{Bitmap, Error, Refusal};
///
/// // the tag, 20 bits in 3 bytes, and the bits: blocks 2 to 4, 7 and 8, 10 to 14, 18 and 19 are free
/// let made = [8, 1, 0, 0, 0xbf, 0, 0, 0, 5, 0xa9, 8, 0, 0, 0, 0, 0, 20, 0, 0, 0, 3, 0, 0, 0, 0x9c, 0x7d, 0x0c];
/// let mut bytes = made;
/// let mut bitmap = Bitmap { bytes: &mut bytes, length: 20 };
/// assert_eq!(bitmap.free()?, 12);
/// // 2 and 10 are as far from 6: the lower
/// assert_eq!(bitmap.find(3, 6)?, 2);
/// assert_eq!(bitmap.find(6, 0), Err(Error::Refused(Refusal::NoRun)));
///
/// assert_eq!(bitmap.take_near(3, 7)?, 10);
/// assert_eq!((bitmap.free()?, bitmap.find(3, 7)?), (9, 2));
/// // block 12 is taken
/// assert_eq!(bitmap.take(12, 2), Err(Error::Refused(Refusal::WrongRun)));
/// bitmap.give_back(10, 3)?;
/// assert_eq!(bytes, made);
/// # Ok::<(), Error>(())
/// ```
pub struct Bitmap<'a> {
    /// The bytes.
    pub bytes: &'a mut [u8],
    /// L, the number of blocks.
    pub length: u32,
}

impl Bitmap<'_> {
    /// The bitmap, to be read.
    pub fn to_read(&self) -> BitmapRef<'_> {
        BitmapRef { bytes: self.bytes, length: self.length }
    }

    /// How many blocks are free.
    pub fn free(&self) -> Result<u32, Error> {
        self.to_read().free()
    }

    /// Finds the free run of a wanted length whose first block is nearest to block `near`, the lower of two at equal distance, and gives
    /// its first block.
    ///
    /// The run may lie within a longer row of free blocks, and may begin below `near` and reach over it. It is refused as
    /// [`NumberOutside`](crate::Refusal::NumberOutside) where there is no block `near`, as [`WrongRun`](crate::Refusal::WrongRun) if no
    /// block is wanted, and as [`NoRun`](crate::Refusal::NoRun) only if no such run exists.
    pub fn find(&self, wanted: u32, near: u32) -> Result<u32, Error> {
        self.to_read().find(wanted, near)
    }

    /// Takes a run of blocks, all of which must be free: they are allocated then. CRC and checksum of the tag are renewed, and all other
    /// bytes are kept.
    pub fn take(&mut self, first: u32, count: u32) -> Result<(), Error> {
        Error::check(calls::bitmap_take(self.bytes, self.length, first, count))
    }

    /// Gives a run of blocks back, all of which must be allocated: they are free then. Given back what was taken, every byte is as it was
    /// before the taking.
    pub fn give_back(&mut self, first: u32, count: u32) -> Result<(), Error> {
        Error::check(calls::bitmap_give_back(self.bytes, self.length, first, count))
    }

    /// Takes the free run that [`Bitmap::find`] finds, and gives its first block.
    pub fn take_near(&mut self, wanted: u32, near: u32) -> Result<u32, Error> {
        let first = self.find(wanted, near)?;
        self.take(first, wanted)?;
        Ok(first)
    }
}
