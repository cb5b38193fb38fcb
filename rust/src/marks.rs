//! The marks of a disc whose image tells no more than its bytes.

use crate::{BLANK, RECORDED, SECTOR};

/// The marks by rule: trailing sectors of zeros are blank, all others recorded.
pub fn marks_by_rule(bytes: &[u8]) -> Vec<u8> {
    let recorded = bytes.chunks(SECTOR).rposition(|sector| sector.iter().any(|&b| b != 0)).map_or(0, |last| last + 1);
    let mut marks = vec![RECORDED; bytes.len() / SECTOR];
    if let Some(trailing) = marks.get_mut(recorded..) {
        trailing.fill(BLANK);
    }
    marks
}

#[cfg(test)]
mod tests {
    use super::*;

    #[test]
    fn the_rule() {
        let mut bytes = vec![0; 5 * SECTOR];
        assert_eq!(marks_by_rule(&bytes), [0; 5]);
        bytes[2 * SECTOR + 7] = 1;
        assert_eq!(marks_by_rule(&bytes), [1, 1, 1, 0, 0]);
        assert_eq!(marks_by_rule(&[]), [0; 0]);
    }
}
