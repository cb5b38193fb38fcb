//! The manual page, made of what the commands say of themselves: `tuormik help --manual` prints it, and `tuormik.1` is that.

use super::entry::{item, Choice, Entry, MARKS_ABOUT, VOLUME, VOLUME_ABOUT};
use super::{status, ENTRIES, NUMBERS};
use tuormik::image::MARKS_FORMAT;

const DESCRIPTION: &str = "\
tuormik works on images of CD-R and CD-RW discs in the CD UDF 1.82 format, and of CD-RW discs with the sparing tables of UDF 1.50: it \
tells what is on them, reads, saves and commits blocks, moves packets to spares, and finds free blocks. Every call on a disc goes through a block layer \
that is proved to keep what was committed wherever the power fails. \"01\" is the document that says what each call does and why it is \
turned down, \"02\" the one that says what was requested after it.
A block is 2,048 bytes. On a write-once disc blocks have virtual numbers from 0 on, and a commit makes a table of them, the VAT, that \
the next opening finds by its ICB. On a rewritable disc blocks have the numbers of their places in the partition.
A block is in one of five states. It is recorded; or unreadable, where its sector cannot be read; or blank, where its sector was never \
recorded; or, on a write-once disc, unused, where the table has no sector for it; or, on a rewritable disc, of a spare, where its \
packet is a spare inside the partition, whether used, defective or free: it is never read nor saved, and keeps its number. Cleaning \
the disc may help where a block is unreadable; a blank one has nothing to be read.
";

const CUTS: &str = "\
A command that writes can be run with a cut: --cut WRITE:EFFECT lets the power fail at a sector write, counted from 1, which becomes \
old, unreadable or whole. The image is then stored as the cut left it, and the next command opens the disc as it would be found after \
a power failure.
";

const EXAMPLES: &str = "  tuormik make field.img --media cdr
  tuormik fit field.img 'new*40' commit
  tuormik save field.img new may12
  tuormik space clover.img take 40 --near 1,200
  tuormik verify *.img
  tuormik export field.img copy --at 2
  tuormik diff field.img@2 field.img
  tuormik report field.img > field.html
";

/// A text as troff takes it: no line of it is a request, and hyphens and quotes are those of the keyboard.
fn escaped(text: &str) -> String {
    let text = text.replace('\\', "\\e").replace('-', "\\-").replace('\'', "\\(aq");
    if text.starts_with('.') {
        format!("\\&{text}")
    } else {
        text
    }
}

/// The width of the page's lines, as a file.
const WIDE: usize = 130;

/// Paragraphs and items; other lines that begin with spaces stand as they are.
fn paragraphs(text: &str) -> String {
    let put = |line: &str| match item(line) {
        Some((name, words)) => format!(".TP\n\\fB{}\\fR\n{}", escaped(name), broken(&escaped(words))),
        None if line.starts_with(' ') => format!(".nf\n{}\n.fi\n", escaped(line)),
        None => format!(".PP\n{}", broken(&escaped(line))),
    };
    text.lines().map(put).collect()
}

/// A line broken into several, none of which begins with a request's dot.
fn broken(line: &str) -> String {
    let mut text = String::new();
    let mut wide = 0;
    for word in line.split(' ') {
        if wide > 0 && wide + 1 + word.len() > WIDE && !word.starts_with('.') {
            text.push('\n');
            wide = 0;
        } else if wide > 0 {
            text.push(' ');
            wide += 1;
        }
        text.push_str(word);
        wide += word.len();
    }
    text + "\n"
}

fn choice(choice: &Choice) -> String {
    let values: String = choice.values.iter().map(|value| format!(" {value}")).collect();
    let usage = choice.usage();
    let name = format!("\\fB{}\\fR\\fI{}\\fR", escaped(choice.name), escaped(&values));
    let short = usage.strip_prefix(&format!("{}{values}", choice.name)).unwrap_or_default();
    format!(".TP\n{name}{}\n{}", escaped(short), broken(&escaped(choice.words)))
}

fn command(entry: &Entry) -> String {
    let usage: Vec<String> =
        entry.usage.iter().map(|words| format!(".B tuormik {}\n{}", entry.name, escaped(words)).trim_end().to_string() + "\n").collect();
    let choices: String = entry.choices.iter().map(choice).collect();
    format!(".SS {}\n{}{}{choices}", entry.name, usage.join(".br\n"), paragraphs(entry.about))
}

/// The page.
pub fn page() -> String {
    let commands: String = ENTRIES.iter().map(|entry| command(entry)).collect();
    let volume: String = VOLUME.iter().map(choice).collect();
    let statuses: String = status::WORDS.iter().map(|(status, words)| format!(".TP\n.B {status}\n{}", broken(&escaped(words)))).collect();
    let version = env!("CARGO_PKG_VERSION");
    [
        format!(".TH TUORMIK 1 \"\" \"tuormik {version}\"\n"),
        ".SH NAME\ntuormik \\- discs in the CD UDF format, through a proved block layer\n".to_string(),
        ".SH SYNOPSIS\n.B tuormik\n.I COMMAND\n.RI [ WORDS ]\n.RI [ OPTIONS ]\n.br\n.B tuormik help\n.RI [ COMMAND ]\n.br\n\
         .B tuormik \\-\\-version\n"
            .to_string(),
        format!(".SH DESCRIPTION\n{}{}", paragraphs(DESCRIPTION), paragraphs(NUMBERS)),
        format!(".SH COMMANDS\n{commands}"),
        format!(".SH THE VOLUME\n{}{volume}{}", paragraphs(VOLUME_ABOUT), paragraphs(MARKS_ABOUT)),
        format!(".SH CUTS\n{}", paragraphs(CUTS)),
        format!(".SH MARKS FILES\n{}", paragraphs(MARKS_FORMAT)),
        format!(".SH EXIT STATUS\n{statuses}"),
        format!(".SH EXAMPLES\n{}", paragraphs(EXAMPLES)),
    ]
    .concat()
}

#[cfg(test)]
mod tests {
    use super::*;

    #[test]
    fn the_manual_page_is_made_of_the_commands() {
        let stored = include_str!("../../tuormik.1");
        assert!(page() == stored, "tuormik.1 is not what 'tuormik help --manual' prints");
    }

    #[test]
    fn no_line_is_a_request_by_chance() {
        assert_eq!(escaped(".marks - 'x'"), "\\&.marks \\- \\(aqx\\(aq");
        let text = broken(&["word"; 60].join(" "));
        assert!(text.lines().all(|line| line.len() <= WIDE));
    }
}
