//! Registries that were written as an earlier make of the file, and lack what a later one keeps.
use super::Registry;
use crate::slices::{Head, Record, RECORDS};
use crate::text::Names;
use crate::{Alphabets, Transducer};
use std::fmt;

/// A registry that was written as an earlier make. It can be looked at; with what it lacks it becomes a [`Registry`].
///
/// Make 1 does not keep the entries answered with each number, and has the names of its symbols in a table beside it.
#[must_use]
#[derive(Clone, Debug, PartialEq, Eq)]
pub struct EarlierRegistry {
    make: u64,
    /// Its counts stand for others that are not known, and are not shown.
    registry: Registry,
}

impl EarlierRegistry {
    /// The one of this head, these records and this area, if it can have been made and entered into.
    pub(super) fn whole(make: u64, head: Head, records: [Record; RECORDS], area: Vec<u8>) -> Option<Self> {
        // any counts that entries can have left, so that the proved check can be asked
        let rest = head.answered.checked_sub(head.held as u64)?;
        let counts: Vec<u64> = (0..head.held.min(RECORDS)).map(|index| if index == 0 { 1 + rest } else { 1 }).collect();
        let registry = Registry::whole(head, counted(records, &counts), area)?;
        Some(EarlierRegistry { make, registry })
    }

    /// The make of its file.
    #[must_use]
    pub fn make(&self) -> u64 {
        self.make
    }

    /// Its alphabets.
    pub fn alphabets(&self) -> &Alphabets {
        self.registry.alphabets()
    }

    /// How many normal forms it holds, 0 to 32.
    #[must_use]
    pub fn held(&self) -> usize {
        self.registry.held()
    }

    /// How many bytes of its area are used.
    #[must_use]
    pub fn used(&self) -> usize {
        self.registry.used()
    }

    /// The length of its area.
    #[must_use]
    pub fn area(&self) -> usize {
        self.registry.area()
    }

    /// How many entries it has answered.
    #[must_use]
    pub fn answered(&self) -> u64 {
        self.registry.answered()
    }

    /// The normal form of this number; `None` for 0 and for a number that is not held.
    #[must_use]
    pub fn normal_form(&self, number: usize) -> Option<Transducer> {
        self.registry.normal_form(number)
    }

    /// The entries answered with each number, from 1 on, where no others are possible: none is held, or one, to which
    /// all answers went, or as many as there are answers, one each.
    #[must_use]
    pub fn determined_counts(&self) -> Option<Vec<u64>> {
        match (self.held(), self.answered()) {
            (0, _) => Some(Vec::new()),
            (1, answered) => Some(vec![answered]),
            (held, answered) if answered == held as u64 => Some(vec![1; held]),
            _ => None,
        }
    }

    /// The registry that has answered so many entries with each number, from 1 on, and whose symbols have these names.
    pub fn carried(&self, counts: &[u64], names: &Names) -> Result<Registry, NotCarried> {
        self.fit(counts)?;
        let records = counted(self.registry.records, counts);
        Registry { records, ..self.registry.clone() }.with_names(names.clone()).ok_or(NotCarried::Names)
    }

    /// These counts are one for each number, each at least 1, and sum to the entries answered.
    fn fit(&self, counts: &[u64]) -> Result<(), NotCarried> {
        let (held, answered) = (self.held(), self.answered());
        // at most 32 of 64 bits
        let sum = || counts.iter().map(|&count| u128::from(count)).sum();
        if counts.len() != held {
            return Err(NotCarried::Counts { given: counts.len(), held });
        }
        if let Some(index) = counts.iter().position(|&count| count == 0) {
            return Err(NotCarried::Zero { number: index + 1 });
        }
        match sum() == u128::from(answered) {
            true => Ok(()),
            false => Err(NotCarried::Sum { sum: sum(), answered }),
        }
    }
}

/// The records with these counts of the numbers from 1 on.
fn counted(mut records: [Record; RECORDS], counts: &[u64]) -> [Record; RECORDS] {
    for (record, &count) in records[1..].iter_mut().zip(counts) {
        record.count = count;
    }
    records
}

/// Why a registry of an earlier make is not carried over.
#[non_exhaustive]
#[derive(Clone, Copy, Debug, PartialEq, Eq)]
pub enum NotCarried {
    /// There is not one count for each number.
    Counts {
        /// How many counts there are.
        given: usize,
        /// How many normal forms are held.
        held: usize,
    },
    /// A count is 0, and every number was answered at least once.
    Zero {
        /// The number of this count.
        number: usize,
    },
    /// The counts do not sum to the entries answered.
    Sum {
        /// What they sum to.
        sum: u128,
        /// The entries answered.
        answered: u64,
    },
    /// There are not as many names as symbols.
    Names,
}

impl fmt::Display for NotCarried {
    fn fmt(&self, f: &mut fmt::Formatter) -> fmt::Result {
        match self {
            NotCarried::Counts { given, held } => {
                write!(f, "counts given: {given}, sheets held: {held}; each sheet has one")
            }
            NotCarried::Zero { number } => {
                write!(f, "the count of number {number} is 0, and each number was answered at least once")
            }
            NotCarried::Sum { sum, answered } => {
                write!(f, "the counts sum to {sum}, and the book has answered {answered}")
            }
            NotCarried::Names => f.write_str("there are not as many names as kinds"),
        }
    }
}

impl std::error::Error for NotCarried {}
