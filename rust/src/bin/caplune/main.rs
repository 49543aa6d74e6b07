//! The program `caplune`: reads, sews, cleans, joins and compares sheets, and keeps a book of them.
//!
//! A command runs in a thread of its own, whose stack is long enough whatever the limits of the system are.
//!
//! It ends with status 0 if it did what was asked or the sheets are alike, 1 if they differ, and 2 if something is
//! refused, cannot be read or written, or was asked for wrongly; then one line on standard error says what.
mod arguments;
mod book;
mod commands;
mod comparing;
mod failure;
mod files;

use failure::Failure;
use std::ffi::OsString;
use std::process::ExitCode;
use std::thread::Builder;

/// How a command ends that is not refused.
#[derive(Clone, Copy, Debug, PartialEq, Eq)]
enum Status {
    Done = 0,
    Differing = 1,
}

/// The stack of a command. The library takes at most 176,615 bytes of it (docs/AREAS.md), and what is here no levels of
/// a tree; this is what systems usually give to a program.
const STACK: usize = 8 << 20;

fn main() -> ExitCode {
    let words: Vec<OsString> = std::env::args_os().skip(1).collect();
    match Builder::new().stack_size(STACK).spawn(move || ended(commands::run(&words))) {
        // why it panicked was told
        Ok(command) => command.join().unwrap_or_else(|panic| std::panic::resume_unwind(panic)),
        Err(error) => {
            ended(Err(Failure::Told(format!("no thread with a stack of {STACK} bytes can be made: {error}"))))
        }
    }
}

/// The status of a command, whose failure is told.
fn ended(command: Result<Status, Failure>) -> ExitCode {
    match command {
        Ok(status) => ExitCode::from(status as u8),
        Err(failure) => {
            failure.tell();
            ExitCode::from(2)
        }
    }
}
