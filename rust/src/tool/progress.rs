//! A line on the terminal for work that takes long.

use super::output::terminal;
use super::words::grouped;
use std::io::Write;
use std::sync::mpsc::{channel, RecvTimeoutError, Sender};
use std::thread::JoinHandle;
use std::time::{Duration, Instant};

/// How long a step may take before it is told of.
const PATIENCE: Duration = Duration::from_secs(1);
const BETWEEN: Duration = Duration::from_millis(500);

/// Writes over what the line said, and goes back to its beginning.
fn clear(out: &mut dyn Write) {
    let _ = write!(out, "\r{:78}\r", "");
}

/// How far work in many steps has come.
pub struct Progress {
    what: &'static str,
    shown: Instant,
    is_shown: bool,
}

impl Progress {
    pub fn new(what: &'static str) -> Progress {
        Progress { what, shown: Instant::now(), is_shown: false }
    }

    pub fn tell(&mut self, done: usize, of: usize) {
        if self.shown.elapsed() < BETWEEN {
            return;
        }
        self.shown = Instant::now();
        if let Some(mut terminal) = terminal() {
            self.is_shown = true;
            let _ = write!(terminal, "\r{}: {} of {} ", self.what, grouped(done), grouped(of));
        }
    }

    /// Takes the line away, so that another can be written in its place.
    pub fn clear(&mut self) {
        if let Some(mut terminal) = terminal().filter(|_| self.is_shown) {
            clear(&mut terminal);
            self.is_shown = false;
        }
    }
}

impl Drop for Progress {
    fn drop(&mut self) {
        self.clear();
    }
}

/// A step of which nobody can say how far it has come, as an opening: after a second a line tells that it is on its way.
pub struct Waiting {
    end: Option<Sender<()>>,
    teller: Option<JoinHandle<()>>,
}

impl Waiting {
    pub fn new(what: String) -> Waiting {
        match terminal() {
            Some(terminal) => Waiting::telling(what, PATIENCE, terminal),
            None => Waiting { end: None, teller: None },
        }
    }

    fn telling(what: String, patience: Duration, mut out: impl Write + Send + 'static) -> Waiting {
        let (end, ended) = channel();
        let begun = Instant::now();
        let tell = move || {
            let mut is_shown = false;
            while ended.recv_timeout(patience) == Err(RecvTimeoutError::Timeout) {
                let _ = write!(out, "\r{what}: {} s ", begun.elapsed().as_secs());
                let _ = out.flush();
                is_shown = true;
            }
            if is_shown {
                clear(&mut out);
            }
        };
        Waiting { end: Some(end), teller: Some(std::thread::spawn(tell)) }
    }
}

impl Drop for Waiting {
    fn drop(&mut self) {
        drop(self.end.take());
        if let Some(teller) = self.teller.take() {
            let _ = teller.join();
        }
    }
}

#[cfg(test)]
mod tests {
    use super::*;
    use std::sync::{Arc, Mutex};

    #[derive(Clone, Default)]
    struct Page(Arc<Mutex<Vec<u8>>>);

    impl Write for Page {
        fn write(&mut self, bytes: &[u8]) -> std::io::Result<usize> {
            self.0.lock().expect("a page").extend_from_slice(bytes);
            Ok(bytes.len())
        }

        fn flush(&mut self) -> std::io::Result<()> {
            Ok(())
        }
    }

    fn told(patience: u64, takes: u64) -> String {
        let page = Page::default();
        let waiting = Waiting::telling("opening d.img".into(), Duration::from_millis(patience), page.clone());
        std::thread::sleep(Duration::from_millis(takes));
        drop(waiting);
        let bytes = page.0.lock().expect("a page").clone();
        String::from_utf8(bytes).expect("text")
    }

    #[test]
    fn a_long_step_is_told_of_and_a_short_one_not() {
        assert!(told(20, 300).starts_with("\ropening d.img: 0 s \r"));
        assert_eq!(told(10_000, 1), "");
    }
}
