//! The words of a command line.
use crate::failure::Failure;
use std::ffi::{OsStr, OsString};
use std::str::FromStr;

/// What an option takes that names a file to be written.
pub const FILE: &str = "FILE";

/// An option of a command.
pub struct Choice {
    /// How it is written.
    pub name: &'static str,
    /// What follows it, if anything does.
    pub takes: Option<&'static str>,
    /// What it is for.
    pub says: &'static str,
}

impl Choice {
    /// Whether this is how it is written, or was.
    fn is(&self, name: &str) -> bool {
        let former = FORMER.iter().find(|(former, _)| *former == name);
        self.name == former.map_or(name, |(_, now)| now)
    }
}

/// The names that options had before, and those that they have.
const FORMER: [(&str, &str); 1] = [("--area", "--size")];

/// An option apart from what it takes, if that stands in the same word: behind a `=`, or just behind a short option.
fn split<'a>(text: &'a str, choices: &[Choice]) -> (&'a str, Option<&'a str>) {
    let short = text.split_at_checked(2).filter(|(name, _)| choices.iter().any(|choice| choice.name == *name));
    match (short, text.split_once('=')) {
        (Some((name, "")), _) => (name, None),
        (Some((name, value)), _) => (name, Some(value.strip_prefix('=').unwrap_or(value))),
        (None, Some((name, value))) => (name, Some(value)),
        (None, None) => (text, None),
    }
}

/// What follows the name of a command.
pub struct Arguments {
    /// The words that are no options.
    pub plain: Vec<OsString>,
    chosen: Vec<(&'static str, OsString)>,
}

impl Arguments {
    /// Takes the words apart: the options among `choices`, each at most once, and the others. What follows `--` is no
    /// option.
    pub fn read(words: &[OsString], choices: &[Choice]) -> Result<Self, String> {
        let mut arguments = Arguments { plain: Vec::new(), chosen: Vec::new() };
        let mut words = words.iter();
        while let Some(word) = words.next() {
            let text = word.to_str().unwrap_or_default();
            if text == "--" {
                arguments.plain.extend(words.by_ref().cloned());
            } else if text.len() > 1 && text.starts_with('-') {
                arguments.choose(text, &mut words, choices)?;
            } else {
                arguments.plain.push(word.clone());
            }
        }
        Ok(arguments)
    }

    /// Takes the option `text`, with what it takes from its own end or from the next of `words`.
    fn choose<'a>(
        &mut self,
        text: &str,
        words: &mut impl Iterator<Item = &'a OsString>,
        choices: &[Choice],
    ) -> Result<(), String> {
        let (name, given) = split(text, choices);
        let choice = choices.iter().find(|choice| choice.is(name)).ok_or(format!("there is no option {name}"))?;
        if self.value(choice.name).is_some() {
            return Err(format!("{name} is given twice"));
        }
        let value = match (choice.takes, given) {
            (None, None) => OsString::new(),
            (None, Some(_)) => return Err(format!("{name} takes nothing")),
            (Some(_), Some(value)) => value.into(),
            (Some(takes), None) => words.next().cloned().ok_or(format!("{name} takes {takes}"))?,
        };
        self.chosen.push((choice.name, value));
        Ok(())
    }

    /// What follows an option, if it is chosen.
    pub fn value(&self, name: &str) -> Option<&OsStr> {
        self.chosen.iter().find(|(chosen, _)| *chosen == name).map(|(_, value)| value.as_os_str())
    }

    /// Whether an option is chosen.
    pub fn has(&self, name: &str) -> bool {
        self.value(name).is_some()
    }

    /// The number that follows an option, at most `most`; where it is not chosen, `usual`.
    pub fn number(&self, name: &str, usual: usize, most: usize) -> Result<usize, Failure> {
        let Some(value) = self.value(name) else { return Ok(usual) };
        let number = number(value).filter(|&number| number <= most);
        number.ok_or_else(|| Failure::Told(format!("{name} takes a number, at most {most}")))
    }
}

/// The number that a word is, if it is not too large.
pub fn number<N: FromStr>(word: &OsStr) -> Option<N> {
    digits(word)?.parse().ok()
}

/// A word that is a number, however large: digits and nothing else.
pub fn digits(word: &OsStr) -> Option<&str> {
    word.to_str().filter(|text| !text.is_empty() && text.bytes().all(|byte| byte.is_ascii_digit()))
}
