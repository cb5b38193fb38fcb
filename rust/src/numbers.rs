//! Numbers as they are printed and taken everywhere.

/// A number with commas between groups of three digits.
pub fn grouped(n: impl TryInto<u64>) -> String {
    let digits = n.try_into().unwrap_or(u64::MAX).to_string();
    let mut text = String::new();
    for (i, digit) in digits.chars().enumerate() {
        if i > 0 && (digits.len() - i).is_multiple_of(3) {
            text.push(',');
        }
        text.push(digit);
    }
    text
}

/// So many of a thing: `1 block`, `2,048 blocks`.
pub fn counted(n: usize, thing: &str) -> String {
    let s = if n == 1 { "" } else { "s" };
    format!("{} {thing}{s}", grouped(n))
}

/// A number in decimal, with or without commas between groups of three digits, or in hexadecimal after 0x.
pub fn number(word: &str) -> Option<u32> {
    if let Some(hex) = word.strip_prefix("0x") {
        let well = hex.bytes().all(|b| b.is_ascii_hexdigit());
        return u32::from_str_radix(hex, 16).ok().filter(|_| well);
    }
    let groups: Vec<&str> = word.split(',').collect();
    let are_digits = groups.iter().all(|group| !group.is_empty() && group.bytes().all(|b| b.is_ascii_digit()));
    let are_threes = groups.len() == 1 || (groups[0].len() <= 3 && groups[1..].iter().all(|group| group.len() == 3));
    if are_digits && are_threes {
        groups.concat().parse().ok()
    } else {
        None
    }
}

#[cfg(test)]
mod tests {
    use super::*;

    #[test]
    fn one_is_counted_in_the_singular() {
        assert_eq!([counted(0, "block"), counted(1, "block"), counted(4096, "block")], ["0 blocks", "1 block", "4,096 blocks"]);
    }

    #[test]
    fn numbers_are_taken_as_they_are_printed() {
        for n in [0, 7, 999, 1000, 333_000, 1_048_576, u32::MAX] {
            assert_eq!(number(&grouped(n)), Some(n));
            assert_eq!(number(&n.to_string()), Some(n));
            assert_eq!(number(&format!("0x{n:x}")), Some(n));
        }
        for word in ["", ",", "1,", ",1", "1,2", "12,34", "1234,567", "0x", "0x+1", "+1", "-1", "4,294,967,296", "one"] {
            assert_eq!(number(word), None, "{word}");
        }
    }
}
