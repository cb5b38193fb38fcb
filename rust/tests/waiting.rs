//! A second writer waits as long as the first one makes progress, and says whom it waits for.

mod folder;

use folder::{ended, Folder};
use std::io::{BufRead, BufReader, Write};
use std::process::{Child, Stdio};
use std::sync::atomic::{AtomicBool, Ordering};
use std::time::{Duration, Instant};
use tuormik::image::{Error, Image};

/// The next line that a tool says.
fn next_line(tool: &mut Child) -> String {
    let mut line = String::new();
    let mut err = BufReader::with_capacity(1, tool.stderr.as_mut().expect("the messages"));
    err.read_line(&mut line).expect("a line");
    line
}

/// Takes processor time until it is told to end, and for a while at least.
fn work(is_done: &AtomicBool, least: Duration) {
    let begun = Instant::now();
    while !is_done.load(Ordering::Relaxed) || begun.elapsed() < least {
        std::hint::spin_loop();
    }
}

#[test]
fn a_writer_waits_for_one_that_works() {
    let folder = Folder::with_disc("works");
    let held = Image::open_to_write(folder.path("d.img")).expect("an image");
    let words = [
        &["save", "d.img", "new", "text"][..],
        &["make", "d.img", "--sectors", "500", "--write-once", "--force"],
        &["marks", "d.img", "--set", "unreadable", "257", "1", "--marks", "m"],
    ];
    folder.write("m", b"tuormik marks\n");
    let mut tools = words.map(|words| folder.start(words));
    let is_done = AtomicBool::new(false);
    let told = std::thread::scope(|scope| {
        // longer than one that does nothing is waited for
        let holder = scope.spawn(|| work(&is_done, Duration::from_secs(4)));
        let told: Vec<String> = tools.iter_mut().map(next_line).collect();
        is_done.store(true, Ordering::Relaxed);
        holder.join().expect("it ends");
        told
    });
    drop(held);
    let whom = format!("waiting for process {}, which is writing d.img\n", std::process::id());
    for (tool, told) in tools.into_iter().zip(told) {
        assert_eq!(told, format!("tuormik: {whom}"));
        let (status, _, err) = ended(tool);
        assert_eq!(status, 0, "{err}");
    }
    assert_eq!(folder.names(), ["d.img", "m", "text"]);
}

/// A tool that waits for its input holds the image, and does nothing.
#[test]
fn a_writer_does_not_wait_for_one_that_sleeps() {
    let folder = Folder::with_disc("sleeps");
    let mut holder = folder.command(&["save", "d.img", "new", "-"]).stdin(Stdio::piped()).spawn().expect("the tool runs");
    let has_lock = || std::fs::read_to_string(folder.path("d.img.tuormik-lock")).is_ok_and(|text| text.ends_with('\n'));
    while !has_lock() {
        std::thread::yield_now();
    }
    let whom = format!("process {}", holder.id());
    let said = folder.usage(&["save", "d.img", "new", "text"]);
    let (waiting, end) = said.split_once('\n').expect("two lines");
    assert_eq!(waiting, format!("waiting for {whom}, which is writing d.img"));
    assert!(end.ends_with(&format!("{whom} is writing it, and no progress of it is seen; nothing was done here\n")), "{end}");
    holder.stdin.take().expect("its input").write_all(b"two").expect("it is read");
    let (status, out, _) = ended(holder);
    assert!(status == 0 && out.starts_with("the standard input: block 0, filled up with 2,045 bytes of zeros\n"), "{out}");
    assert!(folder.does(&["read", "d.img", "0"]).starts_with("two"));
}

/// What waits in the process that holds the image itself is not kept waiting by its own work.
#[test]
fn a_process_does_not_wait_for_itself() {
    let folder = Folder::with_disc("itself");
    let held = Image::open_to_write(folder.path("d.img")).expect("an image");
    let again = Image::open_to_write(folder.path("d.img")).map(|_| ());
    assert!(matches!(again, Err(Error::Held { by: Some(by), .. }) if by == std::process::id()));
    drop(held);
}
