//! What is lent for writing, with a pattern in it, and how often each outcome occurred.

// Each test program uses some of it.
#![allow(dead_code)]

use caplune::Refusal;
use std::collections::BTreeMap;
use std::sync::OnceLock;

/// How often each function gave each outcome.
#[derive(Default)]
pub struct Tally(pub BTreeMap<(&'static str, String), usize>);

impl Tally {
    pub fn count<T>(&mut self, function: &'static str, answer: &Result<T, u32>, accepted: &str) {
        let outcome = match answer {
            Ok(_) => accepted.to_string(),
            Err(number) => format!("refused {number}"),
        };
        *self.0.entry((function, outcome)).or_default() += 1;
    }

    /// Prints all, and asks for each outcome that it occurred at least so often, and for no other.
    pub fn settle(&self, wanted: &[(&'static str, &str)], least: usize) {
        for ((function, outcome), times) in &self.0 {
            println!("{function:18} {outcome:12} {times:8}");
        }
        for &(function, outcome) in wanted {
            let times = self.0.get(&(function, outcome.to_string())).copied().unwrap_or(0);
            assert!(times >= least, "{function}, {outcome}: only {times} times");
        }
        assert_eq!(self.0.len(), wanted.len(), "an outcome that the paper does not have");
    }
}

pub fn number<T>(answer: Result<T, Refusal>) -> Result<T, u32> {
    answer.map_err(Refusal::number)
}

/// Numbers that a refusal has to leave.
pub const BEFORE: [usize; 3] = [usize::MAX - 5, 0x5a5a_0000_1234, 77];

/// The pattern of what is lent for writing.
fn pattern() -> &'static [u8] {
    static PATTERN: OnceLock<Vec<u8>> = OnceLock::new();
    PATTERN.get_or_init(|| (0..1 << 17).map(|index| (index * 167 + 91 + index / 256) as u8).collect())
}

/// An area of a longer buffer, all of it patterned.
pub struct Lent {
    buffer: Vec<u8>,
    from: usize,
    length: usize,
}

impl Lent {
    /// How much stands before and behind the area.
    const MARGIN: usize = 64;

    pub fn new(length: usize) -> Self {
        // The area starts at any remainder by 8.
        let from = Self::MARGIN + length % 8;
        Lent { buffer: pattern()[..from + length + Self::MARGIN].to_vec(), from, length }
    }

    pub fn area(&mut self) -> &mut [u8] {
        &mut self.buffer[self.from..self.from + self.length]
    }

    /// Whether the area starts with `written`, and nothing else of the buffer has changed.
    pub fn holds(&self, written: &[u8]) -> bool {
        let behind = self.from + written.len();
        let Lent { buffer, from, .. } = self;
        buffer[..*from] == pattern()[..*from]
            && buffer[*from..behind] == *written
            && buffer[behind..] == pattern()[behind..buffer.len()]
    }
}
