//! What a command ends with that cannot do what was asked.
use caplune::{store, text, DamagedRegistry, Refusal};
use std::io::{self, Write};

/// Why a command ends with status 2.
#[derive(Debug)]
pub enum Failure {
    /// What to tell on standard error, in one line.
    Told(String),
    /// Nobody reads standard output any more.
    NoReader,
    /// It was told on standard error before.
    ToldBefore,
}

impl Failure {
    /// Something is wrong with a file.
    pub fn of_file(file: &str, why: impl std::fmt::Display) -> Self {
        Failure::Told(format!("{file}: {why}"))
    }

    /// The library refuses a file: its number, and what to do.
    pub fn refused(file: &str, refusal: Refusal) -> Self {
        Failure::of_file(file, format!("{refusal}; what to do: {}", refusal.remedy()))
    }

    /// A file is empty where something was expected, which the library refuses by this number.
    pub fn empty(file: &str, refusal: Option<Refusal>, expected: &str) -> Self {
        let number = refusal.map_or(String::new(), |refusal| format!("refused by {}: ", refusal.number()));
        Failure::of_file(file, format!("{number}it is empty, where {expected} was expected"))
    }

    /// A text is not read.
    pub fn of_text(file: &str, error: text::Error) -> Self {
        match error {
            text::Error::Refused(refusal) => {
                Failure::of_file(file, format!("{refusal}; what to do: {}", in_text(refusal)))
            }
            unexpected => Failure::Told(format!("{file}:{unexpected}")),
        }
    }

    /// The library refuses a file: why just here, and what to do about just this.
    pub fn refused_for(file: &str, refusal: Refusal, why: &str, remedy: &str) -> Self {
        Failure::of_file(file, format!("{refusal}: {why}; what to do: {remedy}"))
    }

    /// A book is not made, read or changed.
    pub fn of_book(file: &str, error: store::Error) -> Self {
        match error {
            store::Error::Damaged(damaged) => Failure::damaged(file, damaged),
            other => Failure::of_file(file, other),
        }
    }

    /// What is at a path is not a book that can be used.
    fn damaged(file: &str, damaged: DamagedRegistry) -> Self {
        let (number, remedy) = match damaged {
            DamagedRegistry::EarlierMake(_) => {
                let command = format!("`caplune book carry {file} NEW`");
                ("", format!("carry it over into a new one by {command}, which leaves this one as it is"))
            }
            DamagedRegistry::LaterMake(_) => ("", "use a newer caplune".to_string()),
            DamagedRegistry::NotARegistry => {
                ("refused by 9: ", "give the file of a book, or put back a copy of it".into())
            }
            _ => ("refused by 9: ", "put back a copy of it".to_string()),
        };
        Failure::of_file(file, format!("{number}{damaged}; what to do: {remedy}"))
    }

    /// Standard output cannot be written.
    pub fn of_output(error: io::Error) -> Self {
        match error.kind() {
            io::ErrorKind::BrokenPipe => Failure::NoReader,
            _ => Failure::of_file("standard output", error),
        }
    }

    /// Tells it on standard error.
    pub fn tell(&self) {
        if let Failure::Told(line) = self {
            // where that cannot be written either, the status is all that is left
            let _ = writeln!(io::stderr(), "caplune: {line}");
        }
    }
}

/// What to do about a text for which the library refuses what it stands for.
fn in_text(refusal: Refusal) -> &'static str {
    match refusal {
        Refusal::BadAlphabets => "name 1 to 16 part kinds, one of them with 0 places, and 1 to 64 block kinds",
        Refusal::BadTree => "draw at most 4,096 parts and 512 levels",
        Refusal::BadContents => "give at most 8,192 marks in all",
        Refusal::BadOutput => "give a plan of at most 4,096 blocks",
        other => other.remedy(),
    }
}
