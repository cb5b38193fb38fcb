//! Numbers, counts and ranges, as the tool prints them everywhere.

pub use tuormik::numbers::{counted, grouped, number};

/// A thing, or those from one to another: `block 3`, `blocks 3 to 9`.
pub fn from_to(first: usize, last: usize, thing: &str) -> String {
    if first == last {
        format!("{thing} {}", grouped(first))
    } else {
        format!("{thing}s {} to {}", grouped(first), grouped(last))
    }
}

/// Numbers with commas and `and` between them.
pub fn joined(words: &[String]) -> String {
    match words {
        [] => "none".to_string(),
        [one] => one.clone(),
        [most @ .., last] => format!("{} and {last}", most.join(", ")),
    }
}

/// `1 is`, `2,048 are`.
pub fn are(n: usize) -> String {
    if n == 1 {
        "1 is".to_string()
    } else {
        format!("{} are", grouped(n))
    }
}

/// Parts of a whole, those that are not 0, each with its words: `598 read, 1 unused`.
pub fn parts(counts: &[(usize, &str)]) -> String {
    let there: Vec<String> = counts.iter().filter(|(n, _)| *n > 0).map(|(n, words)| format!("{} {words}", grouped(*n))).collect();
    there.join(", ")
}

/// A name and its words, in as many lines as they take, with the width of names and of lines. Words after a name that is too wide begin in a
/// line of their own.
pub fn wrapped_at(names: usize, line: usize, name: &str, words: &str) -> String {
    let mut text = format!("{name:<names$}");
    let mut wide = names;
    if name.chars().count() >= names && names > 0 {
        text.push_str(&format!("\n{:names$}", ""));
    }
    for (i, word) in words.split(' ').enumerate() {
        if i > 0 && wide + 1 + word.chars().count() > line {
            text.push_str(&format!("\n{:names$}", ""));
            wide = names;
        } else if i > 0 {
            text.push(' ');
            wide += 1;
        }
        text.push_str(word);
        wide += word.chars().count();
    }
    text + "\n"
}

#[cfg(test)]
mod tests {
    use super::*;

    #[test]
    fn words_are_broken_into_lines() {
        assert_eq!(wrapped_at(14, 110, "disc", "of few words"), "disc          of few words\n");
        assert_eq!(wrapped_at(4, 110, "name", "words"), "name\n    words\n");
        let text = wrapped_at(14, 110, "warning", &["word"; 40].join(" "));
        let lines: Vec<&str> = text.lines().collect();
        assert_eq!(lines.len(), 3);
        assert!(lines.iter().all(|line| line.len() <= 110) && lines[1].starts_with(&format!("{:14}word", "")));
        assert_eq!(text.matches("word").count(), 40);
    }

    #[test]
    fn ranges_and_lists() {
        assert_eq!([from_to(3, 3, "block"), from_to(0, 1024, "block")], ["block 3", "blocks 0 to 1,024"]);
        let words: Vec<String> = ["a", "b", "c"].map(String::from).to_vec();
        assert_eq!([joined(&words[..1]), joined(&words[..2]), joined(&words)], ["a", "a and b", "a, b and c"]);
        assert_eq!(parts(&[(0, "unused"), (2000, "read"), (1, "blank")]), "2,000 read, 1 blank");
    }
}
