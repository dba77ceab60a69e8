//! A library that is older than the source that it is made from is seen.

use std::fs::{self, File};
use std::path::Path;
use std::time::{Duration, SystemTime};

use oracle::library::newer_source;

/// A file that was last written so many seconds after the others were.
fn write(path: &Path, seconds: u64) {
    fs::create_dir_all(path.parent().expect("a folder")).expect("the folder is made");
    let file = File::create(path).expect("the file is made");
    file.set_modified(SystemTime::UNIX_EPOCH + Duration::from_secs(1000 + seconds)).expect("its time is set");
}

#[test]
fn a_newer_source_is_found() {
    let room = std::env::temp_dir().join(format!("oracle-library-{}", std::process::id()));
    let (crates, archive) = (room.join("crates"), room.join("libhanjolum.a"));
    let (old, new) = (crates.join("fields/src/lib.rt"), crates.join("leg/src/deep/one.rt"));
    write(&archive, 10);
    write(&old, 9);
    write(&crates.join("fields/proofs/Laws.antt"), 20);
    write(&crates.join("sector_printer/src/main.rt"), 20);
    assert_eq!(newer_source(&crates, &archive), None);
    write(&new, 11);
    assert_eq!(newer_source(&crates, &archive), Some(new));
    fs::remove_dir_all(&room).expect("the folder goes");
}
