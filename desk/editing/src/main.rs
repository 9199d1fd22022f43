//! `desk` with line editing, history and Tab; all else is the desk itself.

mod edited;

use std::process::ExitCode;

fn main() -> ExitCode {
    desk::program::main(edited::dialogue)
}
