//! How far an offer reads the log, in instructions that valgrind counts: from the newest entry to the first outside the window, and no further.

use std::fs;
use std::path::Path;
use std::process::Command;

use native::counts::{beyond, is_there};
use native::lines::readings::LONG;

/// Half an instruction for each entry: no reading of all of them takes so few.
const FEW: u64 = LONG / 2;

#[test]
fn the_log_is_read_up_to_the_first_entry_outside_the_window() {
    if !is_there() {
        let say = concat!(env!("CARGO_MANIFEST_DIR"), "/../tools/skipped");
        let words = "how far the log is read, since there is no valgrind to count instructions with";
        assert!(Command::new(say).arg(words).status().expect("the gate's tool").success());
        return;
    }
    let folder = std::env::temp_dir().join(format!("mbrumzheg-counts-{}", std::process::id()));
    fs::create_dir_all(&folder).expect("a folder");
    let counted = beyond(Path::new(env!("CARGO_BIN_EXE_speed")), &folder);
    fs::remove_dir_all(folder).expect("the folder goes");
    println!("{counted:?}");
    // as much with 510 entries more behind the first that is outside
    assert!(counted.one.abs_diff(counted.short) <= FEW, "{counted:?}");
    // and at least two instructions more for each entry that is inside, so that a reading is seen where there is one
    assert!(counted.one + 2 * (LONG - 1) <= counted.all, "{counted:?}");
}
