//! The outputs of the tool, and the one place that writes to them.
//!
//! No command is kept from its work by an output that fails: what the standard output did not take is remembered, and told when the command
//! has come to its end; what the standard error does not take is said to nobody.

use std::fmt::Display;
use std::io::{self, BufWriter, ErrorKind, IsTerminal, Write};

/// The standard output and the standard error.
pub struct Outputs<'a> {
    out: Box<dyn Write + 'a>,
    err: Box<dyn Write + 'a>,
    /// why the standard output took no more
    lost: Option<io::Error>,
    is_only_read: bool,
}

impl Outputs<'static> {
    /// Those of the process.
    pub fn standard() -> Outputs<'static> {
        Outputs::new(BufWriter::new(io::stdout()), io::stderr())
    }
}

impl<'a> Outputs<'a> {
    pub fn new(out: impl Write + 'a, err: impl Write + 'a) -> Outputs<'a> {
        Outputs { out: Box::new(out), err: Box::new(err), lost: None, is_only_read: false }
    }

    /// A line of the report.
    pub fn line(&mut self, words: impl Display) {
        self.text(format_args!("{words}\n"));
    }

    /// A text of the report, its line breaks with it.
    pub fn text(&mut self, words: impl Display) {
        self.bytes(words.to_string().as_bytes());
    }

    /// Bytes that are the answer of a command.
    pub fn bytes(&mut self, bytes: &[u8]) {
        self.unless_lost(|out| out.write_all(bytes));
    }

    /// Lets the reader have all that was written.
    pub fn flush(&mut self) {
        self.unless_lost(|out| out.flush());
    }

    fn unless_lost(&mut self, write: impl FnOnce(&mut dyn Write) -> io::Result<()>) {
        if self.lost.is_none() {
            self.lost = write(&mut self.out).err();
        }
    }

    /// A message on the standard error, after what the report has said so far.
    pub fn say(&mut self, words: impl Display) {
        self.flush();
        let line = format!("tuormik: {words}\n");
        // where nobody reads the messages there is nothing more to say
        let _ = self.err.write_all(line.as_bytes()).and_then(|()| self.err.flush());
    }

    /// A command that may write only reads this time: what it says is all that is asked of it.
    pub fn only_reads(&mut self) {
        self.is_only_read = true;
    }

    pub fn is_only_read(&self) -> bool {
        self.is_only_read
    }

    /// Whether the standard output was closed by who read it.
    pub fn is_closed(&self) -> bool {
        self.lost.as_ref().is_some_and(|error| error.kind() == ErrorKind::BrokenPipe)
    }

    /// Why not all of the report was written.
    pub fn lost(&self) -> Option<String> {
        self.lost.as_ref().map(io::Error::to_string)
    }
}

/// The terminal on which somebody watches the work, if there is one.
pub fn terminal() -> Option<impl Write + Send + 'static> {
    Some(io::stderr()).filter(IsTerminal::is_terminal)
}

#[cfg(test)]
mod tests {
    use super::*;

    /// An output that fails from its nth write on.
    struct Failing(usize, ErrorKind);

    impl Write for Failing {
        fn write(&mut self, bytes: &[u8]) -> io::Result<usize> {
            self.0 = self.0.checked_sub(1).ok_or(self.1)?;
            Ok(bytes.len())
        }

        fn flush(&mut self) -> io::Result<()> {
            Ok(())
        }
    }

    #[test]
    fn what_an_output_did_not_take_is_remembered() {
        for (kind, is_closed) in [(ErrorKind::BrokenPipe, true), (ErrorKind::StorageFull, false)] {
            let mut outputs = Outputs::new(Failing(1, kind), Failing(0, kind));
            outputs.line("one");
            assert!(outputs.lost().is_none());
            outputs.line("two");
            outputs.line("three");
            outputs.say("four");
            assert_eq!((outputs.lost().is_some(), outputs.is_closed()), (true, is_closed));
        }
    }
}
