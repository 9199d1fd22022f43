//! Keys at a terminal: Tab, arrows, history, control keys.
#[path = "../../tests/common/terminal.rs"]
mod terminal;
use std::fs;
use std::path::PathBuf;

fn workplace(name: &str) -> PathBuf {
    let place = std::env::temp_dir().join(format!("desk-keys-{name}-{}", std::process::id()));
    fs::create_dir_all(&place).expect("a folder");
    fs::write(place.join("profile"), "ABCD,rate_vol,XYZ,500,1000\nABCD,abs_vol,QQQ,5\n").expect("written");
    place
}

const DESK: &str = env!("CARGO_BIN_EXE_desk");

#[test]
fn tab_completes_commands_files_and_roots() {
    let place = workplace("tab");
    let steps = [
        ("> ", "arm pro\t\r"),
        ("  rule 1", "of\t0ms x\tc\tf\t7.00 450\r"),
        ("granted all 450", "ord\tnow X\tres\ts\t\r"),
        ("may pass", "\x04"),
        // the end of the input asks first, since nothing is saved
        ("2 events are not saved", "\x04"),
    ];
    let Some(said) = terminal::said(DESK, &place, &[], &steps) else { return };
    assert!(said.contains("> offer 0ms XYZ call front "), "{said:?}");
    assert!(said.contains("root XYZ reset; the order on XYZ may pass"), "{said:?}");
    fs::remove_dir_all(place).expect("removed");
}

#[test]
fn lines_can_be_edited_called_back_and_given_up() {
    let place = workplace("lines");
    let history = place.join("history");
    let environment = [("DESK_HISTORY", history.to_str().expect("a name"))];
    let steps = [
        ("> ", "stat"),
        ("stat", "\x03"),
        // to the line's start, and an s before what is there
        ("> ", "tatus\x01s\r"),
        ("type arm FILE first", "\x1b[A\r"),
        ("type arm FILE first", "quit\r"),
    ];
    let Some(said) = terminal::said(DESK, &place, &environment, &steps) else { return };
    assert_eq!(said.matches("type arm FILE first").count(), 2, "{said:?}");
    let kept = fs::read_to_string(&history).expect("a history");
    assert!(kept.contains("status") && kept.contains("quit"), "{kept}");
    let again = [("> ", "\x1b[A\x1b[A\r"), ("type arm FILE first", "\x04")];
    assert!(terminal::said(DESK, &place, &environment, &again).is_some(), "the history goes on in the next dialogue");
    fs::remove_dir_all(place).expect("removed");
}

#[test]
fn a_pipe_needs_no_editing() {
    let place = workplace("pipe");
    fs::write(place.join("script"), "arm profile\n").expect("written");
    let output = std::process::Command::new(DESK).arg("script").current_dir(&place).output().expect("the desk runs");
    assert!(output.status.success() && String::from_utf8_lossy(&output.stdout).starts_with("> arm profile\narmed for firm ABCD"));
    fs::remove_dir_all(place).expect("removed");
}
