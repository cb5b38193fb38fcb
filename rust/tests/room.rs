//! How much room a write-once disc has, and what bounds it: its sectors, or the limit of 4,096 blocks.

mod folder;

use folder::{has, Folder};

const SECTOR: usize = 2048;
const LIMIT: &str = "a write-once disc holds at most 4,096";

/// A folder with a write-once disc of so many sectors, of which 288 stand before the partition, and a file `many` of 4,094 blocks.
fn with_sectors(name: &str, sectors: usize) -> Folder {
    let folder = Folder::new(name);
    folder.does(&["make", "d.img", "--sectors", &sectors.to_string(), "--write-once"]);
    folder.write("many", &[7; 4094 * SECTOR]);
    folder
}

/// What `info` says of the room, and the same as JSON.
fn tells(folder: &Folder, room: &str, fits: usize, bounded_by: &str) {
    has(&folder.does(&["info", "d.img"]), &format!("room {room}"));
    let json = folder.does(&["info", "d.img", "--json"]);
    assert!(json.contains(&format!(r#""new_blocks_that_fit": {fits}, "room_bounded_by": "{bounded_by}""#)), "{json}");
}

#[test]
fn the_limit_is_named_where_it_bounds_the_room() {
    let folder = with_sectors("room-limit", 5000);
    tells(&folder, &format!("4,096 new blocks fit, committed together: {LIMIT}"), 4096, "blocks");
    let fit = folder.does(&["fit", "d.img", "new*2", "commit"]);
    has(&fit, &format!("then: N 2, NWA 4, 4,708 sectors left, 4,094 new blocks fit, committed together: {LIMIT}"));
    folder.does(&["save", "d.img", "new", "many"]);
    tells(&folder, &format!("2 new blocks fit, committed together: {LIMIT}"), 2, "blocks");
    let fit = folder.does(&["fit", "d.img", "new", "commit", "new"]);
    has(&fit, &format!("then: N 4,096, NWA 4,117, 595 sectors left, no new block: {LIMIT}"));
    folder.write("one", b"one");
    folder.does(&["save", "d.img", "new", "one"]);
    tells(&folder, &format!("1 new block fits: {LIMIT}"), 1, "blocks");
    folder.does(&["save", "d.img", "new", "one"]);
    tells(&folder, &format!("no new block: {LIMIT}"), 0, "blocks");
}

/// The empty VAT takes 1 sector, 4,096 blocks and their commit 4,106: with one sector more a block more would fit, but for the limit.
#[test]
fn the_sectors_bound_the_room_up_to_the_last() {
    for (length, room, fits, bounded_by) in [
        (4106, "4,095 new blocks fit, committed together".to_string(), 4095, "sectors"),
        (4107, "4,096 new blocks fit, committed together".to_string(), 4096, "sectors"),
        (4108, format!("4,096 new blocks fit, committed together: {LIMIT}"), 4096, "blocks"),
    ] {
        let folder = with_sectors(&format!("room-{length}"), 288 + length);
        tells(&folder, &room, fits, bounded_by);
    }
}

#[test]
fn a_disc_that_is_full() {
    let folder = with_sectors("room-full", 292);
    folder.write("one", b"one");
    tells(&folder, "2 new blocks fit, committed together", 2, "sectors");
    folder.does(&["save", "d.img", "new", "one"]);
    tells(&folder, "no new block fits", 0, "sectors");
}
