//! `desk`: the bench desk over the standard library alone. `desk/editing` is the same program with line editing.

use std::process::ExitCode;

fn main() -> ExitCode {
    desk::program::main(desk::console::lines::by_the_terminal)
}
