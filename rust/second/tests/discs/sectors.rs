//! Images of discs, told by their sectors that are not zeros.

const SECTOR: usize = 2048;

/// How a file of sectors begins.
pub const HEAD: &[u8] = b"tuormik sectors\n";

/// A number in groups of seven bits, the lowest first; the last group has its high bit clear.
fn take_number(bytes: &mut &[u8]) -> usize {
    let mut number = 0;
    let mut shift = 0;
    loop {
        let (&first, rest) = bytes.split_first().expect("a number");
        *bytes = rest;
        number |= usize::from(first & 127) << shift;
        shift += 7;
        if first < 128 {
            return number;
        }
    }
}

/// The image that a file of sectors tells. After its head: the number of sectors; then for each sector that is not zeros how far it is
/// from the one before (the first from 0), which of those before it is told by (1 the last; a sector of zeros stands before the first),
/// and the number of its runs: bytes that are the same, the number of bytes that are not, and these.
pub fn unpack(file: &[u8]) -> Vec<u8> {
    let mut rest = file.strip_prefix(HEAD).expect("the head");
    let mut image = vec![0; SECTOR * take_number(&mut rest)];
    let mut told = vec![[0; SECTOR]];
    let mut at = 0;
    while !rest.is_empty() {
        at += take_number(&mut rest);
        let mut sector = told[told.len() - take_number(&mut rest)];
        let mut from = 0;
        for _ in 0..take_number(&mut rest) {
            from += take_number(&mut rest);
            let count = take_number(&mut rest);
            let (bytes, after) = rest.split_at(count);
            sector[from..from + count].copy_from_slice(bytes);
            from += count;
            rest = after;
        }
        image[SECTOR * at..SECTOR * (at + 1)].copy_from_slice(&sector);
        told.push(sector);
    }
    image
}
