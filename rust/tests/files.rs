//! The tool loses nothing: two tools at once, files that are not to be replaced, marks that do not belong, and input that is not what it
//! should be.

mod folder;

use folder::{ended, Folder};
use std::os::unix::fs::PermissionsExt;
use std::path::Path;
use std::process::Command;
use tuormik::descriptors::{find_volume, Volume};
use tuormik::image::{Error, Image, MARKS_FORMAT};
use tuormik::Refusal;

fn set_mode(folder: &Folder, name: &str, mode: u32) {
    std::fs::set_permissions(folder.path(name), PermissionsExt::from_mode(mode)).expect("permissions");
}

fn blocks(folder: &Folder, image: &str) -> usize {
    folder.does(&["list", image]).lines().filter(|line| line.ends_with("recorded")).count()
}

#[test]
fn two_tools_at_once_lose_nothing() {
    let folder = Folder::with_disc("two");
    for pair in 0..20 {
        let both = [folder.start(&["save", "d.img", "new", "text"]), folder.start(&["save", "d.img", "new", "text"])];
        for tool in both {
            let (status, out, err) = ended(tool);
            assert_eq!(status, 0, "{err}");
            assert!(out.contains("committed"), "{out}");
        }
        assert_eq!(blocks(&folder, "d.img"), 2 * (pair + 1), "after pair {pair}");
    }
    assert_eq!(folder.names(), ["d.img", "text"]);
}

#[test]
fn who_holds_an_image_is_named() {
    let folder = Folder::with_disc("held");
    let held = Image::load_to_write(&folder.path("d.img"), None, find).expect("an image");
    let holder = format!("process {}", std::process::id());
    folder.turns_away(&["save", "d.img", "new", "text"], &["d.img", &holder]);
    // who only reads is not stopped
    folder.does(&["info", "d.img"]);
    drop(held);
    folder.does(&["save", "d.img", "new", "text"]);
    assert_eq!(folder.names(), ["d.img", "text"]);
    // a lock that a killed tool left is held by nobody
    folder.write("d.img.tuormik-lock", b"1\n");
    folder.does(&["save", "d.img", "new", "text"]);
    assert_eq!(folder.names(), ["d.img", "text"]);
}

/// The volume of `d.img`.
fn find(bytes: &[u8]) -> Result<Volume, Error> {
    find_volume(bytes).map_err(|why| Error::Wrong { path: "d.img".into(), words: why.to_string() })
}

/// From a path to what is stored, by one error.
fn save(path: &Path, v: u32, block: &[u8]) -> Result<(), Error> {
    let mut image = Image::open_to_write(path)?;
    let mut open = image.disc().open()?;
    open.save_virtual(v, block)?;
    open.commit()?;
    image.store()
}

fn read(path: &Path, v: u32) -> Result<[u8; 2048], Error> {
    Ok(Image::open(path)?.to_read().open()?.read(v)?)
}

#[test]
fn an_image_is_opened_by_its_path() {
    let folder = Folder::with_disc("by-path");
    let path = folder.path("d.img");
    save(&path, 0, &[7; 2048]).expect("it is stored");
    assert_eq!(read(&path, 0).expect("it is read"), [7; 2048]);
    assert_eq!(folder.names(), ["d.img", "text"]);
    let before = folder.files();
    let outside = |error: &Error| matches!(error, Error::Call(error) if error.refusal() == Some(Refusal::NumberOutside));
    assert!(read(&path, 1).is_err_and(|error| outside(&error)));
    let error = save(&path, 2, &[7; 2048]).expect_err("there is no block 1 yet");
    assert!(outside(&error) && error.to_string().ends_with("(01, line 12)"), "{error}");
    assert!(Image::open(&path).expect("an image").store().is_err());
    assert_eq!(folder.files(), before);
}

#[test]
fn an_image_that_cannot_be_opened_by_its_path() {
    let folder = Folder::new("not-by-path");
    folder.write("zeros.img", &[0; 400 * 2048]);
    for open in [Image::open, Image::open_to_write] {
        let [missing, undescribed] = ["none.img", "zeros.img"].map(|name| open(folder.path(name)).err().map(|error| error.to_string()));
        assert!(missing.is_some_and(|words| words.contains("none.img: there is no such file")));
        assert!(undescribed.is_some_and(|words| words.contains("zeros.img: no anchor volume descriptor pointer")));
    }
    assert_eq!(folder.names(), ["zeros.img"]);
}

/// What README shows is tried where the module of images shows the same.
#[test]
fn readme_shows_what_is_tried() {
    let [readme, module] = ["../README.md", "src/image.rs"].map(|name| {
        let path = Path::new(env!("CARGO_MANIFEST_DIR")).join(name);
        std::fs::read_to_string(path).expect("a text")
    });
    let section = readme.split("\n## ").find(|section| section.starts_with("From Rust\n")).expect("a section");
    let shown: Vec<&str> = section.lines().filter_map(|line| line.strip_prefix("    ")).collect();
    let tried: Vec<&str> = module.lines().filter_map(|line| line.strip_prefix("//! ")).collect();
    assert!(shown.len() > 5 && tried.windows(shown.len()).any(|lines| lines == shown), "{shown:#?}");
}

/// A store that cannot write the marks after the image and they have changed together.
#[test]
fn a_store_that_was_stopped_is_read_and_finished() {
    let folder = Folder::with_disc("stopped");
    folder.does(&["save", "d.img", "new", "text"]);
    let in_the_way = folder.path(&format!("d.img.marks.tuormik-new-{}", std::process::id()));
    std::fs::create_dir(&in_the_way).expect("a folder");
    let mut image = Image::load_to_write(&folder.path("d.img"), None, find).expect("an image");
    let mut open = image.disc().open().expect("it opens");
    // a block of zeros that is not committed is told by marks only
    open.save_virtual(1, &[0; 2048]).expect("it is saved");
    assert!(matches!(image.store(), Err(Error::Unfinished { .. })));
    drop(image);
    assert!(folder.names().contains(&"d.img.tuormik-store".to_string()) && !folder.path("d.img.marks").exists());
    let before = folder.files();
    folder.does(&["info", "d.img"]);
    let image = Image::load(&folder.path("d.img"), None, find).expect("an image");
    assert_eq!(image.to_read().open().expect("it opens").record().passed_over, 1);
    assert_eq!(folder.files(), before);
    std::fs::remove_dir(&in_the_way).expect("a folder");
    folder.does(&["commit", "d.img"]);
    assert_eq!(folder.names(), ["d.img", "d.img.marks", "text"]);
    assert!(folder.does(&["read", "d.img", "0"]).starts_with("one"));
}

#[test]
fn marks_of_another_name_go_with_the_image() {
    let folder = Folder::with_disc("named");
    std::fs::create_dir(folder.path("other")).expect("a folder");
    folder.write("other/m", b"tuormik marks\nunreadable 257 1\n");
    folder.does(&["save", "d.img", "new", "text", "--marks", "other/m"]);
    let text = String::from_utf8(std::fs::read(folder.path("other/m")).expect("a file")).expect("text");
    assert!(text.contains("image ") && text.contains("unreadable 257 1\n"), "{text}");
    folder.does(&["save", "d.img", "new", "text", "--marks", "other/m"]);
    assert_eq!(folder.names(), ["d.img", "other", "text"]);
    assert_eq!(std::fs::read_dir(folder.path("other")).expect("a folder").count(), 1);
    // those marks belong to the image as it was stored with them
    folder.does(&["save", "d.img", "new", "text"]);
    folder.turns_away(&["info", "d.img", "--marks", "other/m"], &["belong to other bytes"]);
}

#[test]
fn what_another_program_changed_meanwhile_stays() {
    let folder = Folder::with_disc("meanwhile");
    let mut image = Image::load_to_write(&folder.path("d.img"), None, find).expect("an image");
    std::thread::sleep(std::time::Duration::from_millis(20));
    let other = [image.bytes.as_slice(), &[1; 2048]].concat();
    folder.write("d.img", &other);
    assert!(matches!(image.store(), Err(Error::Changed { .. })));
    assert_eq!(std::fs::read(folder.path("d.img")).expect("a file"), other);
    // and an image that was loaded to be read is not stored
    let mut image = Image::load(&folder.path("d.img"), None, find).expect("an image");
    assert!(image.store().is_err());
}

#[test]
fn who_reads_meanwhile_finds_a_pair() {
    let folder = Folder::with_disc("meanwhile-read");
    folder.write("zeros", &[0; 2048]);
    folder.does(&["save", "d.img", "new", "zeros", "--no-commit"]);
    assert!(folder.path("d.img.marks").exists());
    for _ in 0..10 {
        let mut writer = folder.start(&["save", "d.img", "new", "zeros"]);
        while writer.try_wait().expect("a status").is_none() {
            folder.does(&["info", "d.img"]);
        }
        assert_eq!(ended(writer).0, 0);
    }
}

#[test]
fn reading_needs_no_folder_that_can_be_written() {
    let folder = Folder::with_disc("read-only-folder");
    folder.does(&["save", "d.img", "new", "text"]);
    let changed = || std::fs::metadata(&folder.0).and_then(|folder| folder.modified()).expect("a time");
    let before = changed();
    set_mode(&folder, ".", 0o555);
    folder.does(&["info", "d.img"]);
    assert!(folder.does(&["read", "d.img", "0"]).starts_with("one"));
    set_mode(&folder, ".", 0o755);
    // no file came and went, as one could for who may write everywhere
    assert_eq!(changed(), before);
}

#[test]
fn read_only_files_stay_as_they_are() {
    let folder = Folder::with_disc("read-only");
    folder.does(&["save", "d.img", "new", "text"]);
    set_mode(&folder, "d.img", 0o444);
    for words in [&["save", "d.img", "new", "text"][..], &["free", "d.img", "0"], &["commit", "d.img"]] {
        folder.turns_away(words, &["d.img", "read-only"]);
    }
    folder.turns_away(&["make", "d.img", "--sectors", "400", "--write-once", "--force"], &["d.img", "read-only"]);
    set_mode(&folder, "text", 0o400);
    folder.turns_away(&["read", "d.img", "0", "--output", "text"], &["text", "read-only"]);
    folder.does(&["read", "d.img", "0"]);
}

#[test]
fn permissions_stay_as_they_are() {
    let folder = Folder::with_disc("permissions");
    set_mode(&folder, "d.img", 0o640);
    folder.does(&["save", "d.img", "new", "text"]);
    let mode = std::fs::metadata(folder.path("d.img")).expect("a file").permissions().mode();
    assert_eq!(mode & 0o777, 0o640);
}

#[test]
fn what_is_no_regular_file_is_not_replaced() {
    let folder = Folder::with_disc("device");
    folder.does(&["save", "d.img", "new", "text"]);
    std::fs::create_dir(folder.path("folder")).expect("a folder");
    let made = Command::new("mkfifo").arg(folder.path("pipe")).status();
    let has_pipe = made.is_ok_and(|status| status.success());
    for (name, what) in [("/dev/null", "a character device"), ("folder", "a folder"), ("pipe", "a pipe")] {
        if name == "pipe" && !has_pipe {
            continue;
        }
        refuses_quickly(&folder, &["save", name, "new", "text", "--start", "0", "--length", "9", "--write-once"], what);
        refuses_quickly(&folder, &["commit", name, "--start", "0", "--length", "9", "--write-once"], what);
        refuses_quickly(&folder, &["make", name, "--sectors", "400", "--write-once", "--force"], what);
        refuses_quickly(&folder, &["read", "d.img", "0", "--output", name], what);
    }
    assert!(Path::new("/dev/null").metadata().is_ok_and(|there| !there.is_file()));
    // a link is followed: the file that it leads to is replaced, and the link stays
    std::os::unix::fs::symlink("d.img", folder.path("link")).expect("a link");
    folder.does(&["save", "link", "new", "text"]);
    assert!(folder.path("link").symlink_metadata().is_ok_and(|there| there.is_symlink()));
    assert_eq!(blocks(&folder, "d.img"), 2);
}

fn refuses_quickly(folder: &Folder, words: &[&str], what: &str) {
    let (status, out, err) = folder.run(words);
    assert_ne!(status, 0, "{words:?} was done: {out}");
    assert!(err.contains(what), "{words:?}: {err}");
}

#[test]
fn an_output_is_not_the_image_nor_its_marks() {
    let folder = Folder::with_disc("output");
    folder.write("zeros", &[0; 2048]);
    folder.does(&["save", "d.img", "new", "zeros", "--no-commit"]);
    folder.does(&["commit", "d.img"]);
    folder.does(&["save", "d.img", "new", "text"]);
    assert!(folder.path("d.img.marks").exists());
    std::os::unix::fs::symlink("d.img", folder.path("link")).expect("a link");
    std::fs::hard_link(folder.path("d.img"), folder.path("other.svg")).expect("a link");
    for output in ["d.img", "./d.img", "d.img.marks", "link"] {
        folder.turns_away(&["read", "d.img", "0", "--output", output], &["the image or its marks"]);
    }
    folder.turns_away(&["map", "d.img", "other.svg"], &["the image or its marks"]);
    std::fs::copy(folder.path("d.img.marks"), folder.path("m.svg")).expect("a copy");
    folder.turns_away(&["map", "d.img", "m.svg", "--marks", "m.svg"], &["the image or its marks"]);
}

#[test]
fn making_leaves_no_stale_marks() {
    let folder = Folder::with_disc("stale");
    folder.write("zeros", &[0; 2048]);
    folder.does(&["save", "d.img", "new", "zeros", "--no-commit"]);
    assert!(folder.path("d.img.marks").exists());
    folder.does(&["make", "d.img", "--sectors", "500", "--write-once", "--force"]);
    assert_eq!(folder.names(), ["d.img", "text", "zeros"]);
    folder.does(&["info", "d.img"]);
    // marks whose image is not there are not replaced unasked, and what is no marks file never is
    folder.write("e.img.marks", b"tuormik marks\n");
    let make = ["make", "e.img", "--sectors", "400", "--write-once"];
    folder.turns_away(&make, &["e.img.marks", "there already"]);
    folder.does(&[&make[..], &["--force"]].concat());
    folder.turns_away(&[&make[..], &["--force", "--marks", "text"]].concat(), &["text", "no marks file"]);
    folder.turns_away(&["make", "f.img", "--sectors", "400", "--write-once", "--marks", "f.img"], &["f.img"]);
}

#[test]
fn marks_that_do_not_belong_are_refused_without_advice() {
    let folder = Folder::with_disc("marks");
    folder.does(&["save", "d.img", "new", "text"]);
    // sector 289 holds block 0
    folder.write("m", b"tuormik marks\nblank 289 1\n");
    folder.turns_away(&["info", "d.img", "--marks", "m"], &["sector 289 is called blank"]);
    folder.turns_away(&["save", "d.img", "new", "text", "--marks", "m"], &["sector 289 is called blank"]);
    folder.write("m", b"tuormik marks\nimage 0000000000000000\n");
    folder.turns_away(&["info", "d.img", "--marks", "m"], &["belong to other bytes"]);
    assert!(!folder.run(&["info", "d.img", "--marks", "m"]).2.contains("take out"));
    // sectors that no line names follow the rule, also behind the last one that is named
    folder.write("m", b"tuormik marks\nunreadable 257 1\n");
    let info = folder.does(&["info", "d.img", "--marks", "m"]);
    assert!(info.contains("290 recorded, 1 unreadable, 109 blank"), "{info}");
    let squeezed = |text: &str| text.split_whitespace().collect::<Vec<_>>().join(" ");
    assert!(squeezed(&folder.does(&["help", "volume"])).ends_with(&squeezed(MARKS_FORMAT)));
}

#[test]
fn dumps_that_are_too_short() {
    let folder = Folder::with_disc("short");
    folder.does(&["save", "d.img", "new", "text"]);
    let bytes = std::fs::read(folder.path("d.img")).expect("a file");
    // a write-once disc ends at its last recorded sector
    folder.write("d.img", &bytes[..2048 * 291]);
    let info = folder.does(&["info", "d.img"]);
    assert!(info.contains("has 291 sectors, and S + L is 400"), "{info}");
    folder.does(&["save", "d.img", "new", "text"]);
    assert_eq!(blocks(&folder, "d.img"), 2);
    folder.write("d.img", &bytes[..2048 * 291 - 7]);
    folder.turns_away(&["info", "d.img"], &["595,961", "multiple of 2,048"]);
    folder.write("empty", &[]);
    folder.turns_away(&["info", "empty", "--start", "0", "--length", "9", "--write-once"], &["empty"]);
    // of a rewritable disc what is missing was there
    let make = ["make", "r.img", "--sectors", "640", "--tables", "0,32", "--spares", "96,128", "--length", "64"];
    folder.does(&make);
    let bytes = std::fs::read(folder.path("r.img")).expect("a file");
    folder.write("r.img", &bytes[..2048 * 340]);
    folder.turns_away(&["info", "r.img"], &["340 sectors", "end at 352"]);
    folder.does(&["make", "t.img", "--sectors", "640", "--tables", "384,576", "--spares", "96,128", "--length", "64"]);
    let bytes = std::fs::read(folder.path("t.img")).expect("a file");
    folder.write("t.img", &bytes[..2048 * 600]);
    folder.turns_away(&["save", "t.img", "0", "text"], &["600 sectors", "end at 608"]);
}

#[test]
fn input_that_is_not_what_it_should_be() {
    let folder = Folder::with_disc("input");
    folder.does(&["save", "d.img", "new", "text"]);
    folder.does(&["make", "r.img", "--sectors", "640", "--tables", "0,32", "--spares", "96,128", "--length", "64"]);
    folder.write("empty", &[]);
    folder.turns_away(&["save", "d.img", "new", "empty"], &["empty"]);
    folder.turns_away(&["save", "r.img", "0", "empty", "--packet"], &["empty"]);
    folder.turns_away(&["save", "r.img", "0", "text", "--packet"], &["3 bytes", "65,536"]);
    folder.write("odd", &[1; 65_537]);
    folder.turns_away(&["save", "r.img", "0", "odd", "--packet"], &["65,537 bytes", "65,536"]);
    folder.turns_away(&["save", "d.img", "new", "/dev/zero"], &["/dev/zero", "229,376", "112 blocks"]);
    folder.turns_away(&["save", "r.img", "0", "/dev/zero"], &["/dev/zero", "131,072", "64 blocks"]);
    folder.turns_away(&["read", "d.img", "0", "0"], &["COUNT"]);
    folder.turns_away(&["free", "d.img", "0", "0"], &["COUNT"]);
    let long = std::fs::File::create(folder.path("long")).expect("a file");
    long.set_len(2_147_483_649).expect("a length");
    refuses_quickly(&folder, &["info", "long"], "more than 2,147,483,648 bytes");
}

/// A disc that opens by an older VAT, with a newer one above it that breaks a rule.
#[test]
fn what_may_be_a_newer_vat_is_not_committed_over() {
    let folder = Folder::with_disc("newer");
    folder.does(&["save", "d.img", "new", "text"]);
    let mut bytes = std::fs::read(folder.path("d.img")).expect("a file");
    // the VAT ICB at sector 290 gets a wrong checksum; the one at 288 is found
    bytes[2048 * 290 + 4] ^= 1;
    folder.write("d.img", &bytes);
    let (status, _, warning) = folder.run(&["info", "d.img"]);
    assert!(status == 0 && warning.contains("block 2 (sector 290) has ") && warning.ends_with("it may be a newer VAT\n"), "{warning}");
    for words in [&["commit", "d.img"][..], &["save", "d.img", "new", "text"], &["commit", "d.img", "--cut", "1:old"]] {
        folder.turns_away(words, &["block 2 (sector 290)", "cannot be undone", "--force"]);
    }
    folder.does(&["save", "d.img", "new", "text", "--force"]);
    folder.does(&["free", "d.img", "0"]);
}
