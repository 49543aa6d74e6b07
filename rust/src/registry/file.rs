//! The bytes of a registry's file, of every make (docs/FORMATS.md).
use super::{EarlierRegistry, Registry};
use crate::slices::{Head, Record, RECORDS};
use crate::text::LONGEST_NAMES;
use std::cmp::Ordering;
use std::fmt;

/// How the file of every make begins; its make and a line feed follow.
const FIRST_WORDS: &[u8] = b"caplune book ";

/// A make of the file: which numbers stand in it. All are eight bytes, the high one first.
pub(super) struct Make {
    /// Which one it is, from 1 on.
    pub number: u64,
    /// The numbers of the head: normal forms held, bytes used, entries answered.
    head: usize,
    /// The numbers of a record: start and size, and the count of entries where it is kept.
    record: usize,
    /// Whether the names stand in the file. Their length follows the head.
    names: bool,
}

/// Every make that is read, in order from 1 on; the last one is written.
const MAKES: [Make; 2] =
    [Make { number: 1, head: 3, record: 2, names: false }, Make { number: 2, head: 3, record: 3, names: true }];
pub(super) const CURRENT: &Make = &MAKES[MAKES.len() - 1];

impl Make {
    /// How many numbers stand before the bodies: the length of the area, the head, the length of the names, the records.
    const fn numbers(&self) -> usize {
        1 + self.head + self.names as usize + RECORDS * self.record
    }
}

/// The length of the longest file: the first line, the numbers, the longest area, the longest names, and the sum.
pub(crate) const LONGEST_FILE: u64 =
    (FIRST_WORDS.len() + 2 + 8 * (CURRENT.numbers() + 1) + Registry::LONGEST_AREA + LONGEST_NAMES) as u64;

pub(super) fn is_begun(bytes: &[u8]) -> bool {
    bytes.starts_with(FIRST_WORDS)
}

/// The file of these numbers with these bytes behind them.
pub(super) fn written(numbers: impl Iterator<Item = u64>, behind: &[&[u8]]) -> Vec<u8> {
    let mut bytes = [FIRST_WORDS, format!("{}\n", CURRENT.number).as_bytes()].concat();
    bytes.extend(numbers.flat_map(u64::to_be_bytes));
    bytes.extend(behind.concat());
    bytes.extend(check(&bytes).to_be_bytes());
    bytes
}

/// Eight bytes, the high one first.
fn number(bytes: &[u8]) -> u64 {
    bytes.iter().fold(0, |number, &byte| number << 8 | u64::from(byte))
}

/// The last number of the file: FNV-1a of all bytes before it. Each step takes different sums to different sums, so a
/// file of which one byte was altered has another sum.
fn check(bytes: &[u8]) -> u64 {
    bytes.iter().fold(0xcbf2_9ce4_8422_2325, |sum, &byte| (sum ^ u64::from(byte)).wrapping_mul(0x0100_0000_01b3))
}

/// The make that the first line tells, and what follows that line.
fn first_line(bytes: &[u8]) -> Result<(&'static Make, &[u8]), DamagedRegistry> {
    let rest = bytes.strip_prefix(FIRST_WORDS).ok_or(DamagedRegistry::NotARegistry)?;
    let digits = rest.iter().take_while(|byte| byte.is_ascii_digit()).count();
    let (digits, rest) = rest.split_at(digits);
    match (digits, rest) {
        (_, []) => Err(DamagedRegistry::Cut),
        ([b'1'..=b'9', ..], [b'\n', rest @ ..]) => {
            let told = decimal(digits);
            let make = MAKES.iter().find(|make| make.number == told);
            Ok((make.ok_or(DamagedRegistry::LaterMake(told))?, rest))
        }
        _ => Err(DamagedRegistry::Altered),
    }
}

/// The number of these digits, or the highest where it is higher.
fn decimal(digits: &[u8]) -> u64 {
    let next = |number: u64, digit: &u8| number.saturating_mul(10).saturating_add(u64::from(digit - b'0'));
    digits.iter().fold(0, next)
}

/// A number that no address can be is none of a registry.
fn size(number: u64) -> usize {
    usize::try_from(number).unwrap_or(usize::MAX)
}

/// What a file has, by its numbers and lengths. Where its make keeps no counts, they are 0.
struct Parts<'a> {
    make: &'static Make,
    area: usize,
    head: Head,
    records: [Record; RECORDS],
    bodies: &'a [u8],
    names: &'a [u8],
}

impl<'a> Parts<'a> {
    fn read(bytes: &'a [u8]) -> Result<Self, DamagedRegistry> {
        let (make, rest) = first_line(bytes)?;
        let (numbers, rest) = rest.split_at_checked(8 * make.numbers()).ok_or(DamagedRegistry::Cut)?;
        let mut numbers = numbers.chunks_exact(8).map(number);
        let mut next = |count: usize| numbers.by_ref().take(count).collect::<Vec<_>>();
        let (area, head) = (next(1)[0], next(make.head));
        let names = next(usize::from(make.names)).first().copied().unwrap_or(0);
        let records = std::array::from_fn(|_| record(&next(make.record)));
        let (used, head) = (head[1], Head { held: size(head[0]), used: size(head[1]), answered: head[2] });
        let (stored, sum) = rest.split_last_chunk::<8>().ok_or(DamagedRegistry::Cut)?;
        fit([used, names], stored)?;
        let is_right = number(sum) == check(&bytes[..bytes.len() - 8]);
        if !is_right || area < used || area > Registry::LONGEST_AREA as u64 {
            return Err(DamagedRegistry::Altered);
        }
        let (bodies, names) = stored.split_at(head.used);
        Ok(Parts { make, area: size(area), head, records, bodies, names })
    }

    /// The whole area; what is not used of it is 0.
    fn area(&self) -> Vec<u8> {
        let mut area = self.bodies.to_vec();
        area.resize(self.area, 0);
        area
    }
}

/// What is stored has these lengths together, which may be any numbers.
fn fit(lengths: [u64; 2], stored: &[u8]) -> Result<(), DamagedRegistry> {
    match lengths.into_iter().map(u128::from).sum::<u128>().cmp(&(stored.len() as u128)) {
        Ordering::Greater => Err(DamagedRegistry::Cut),
        Ordering::Less => Err(DamagedRegistry::Altered),
        Ordering::Equal => Ok(()),
    }
}

/// A record of these numbers: start, size, and the count where it is kept.
fn record(numbers: &[u64]) -> Record {
    Record { start: size(numbers[0]), size: size(numbers[1]), count: numbers.get(2).copied().unwrap_or(0) }
}

/// What the file of a registry holds: a registry, or one that was written as an earlier make and lacks something.
#[must_use]
#[derive(Clone, Debug, PartialEq, Eq)]
pub enum StoredRegistry {
    /// Of the make that is written.
    Current(Registry),
    /// Of an earlier make.
    Earlier(EarlierRegistry),
}

impl StoredRegistry {
    /// Reads the bytes of a file of any make up to the one that is written.
    pub fn from_bytes(bytes: &[u8]) -> Result<Self, DamagedRegistry> {
        let parts = Parts::read(bytes)?;
        let Parts { make, head, records, names, .. } = parts;
        let area = parts.area();
        let read = match make.number == CURRENT.number {
            true => {
                let registry = Registry::whole(head, records, area).and_then(|registry| registry.with_table(names));
                registry.map(StoredRegistry::Current)
            }
            false => EarlierRegistry::whole(make.number, head, records, area).map(StoredRegistry::Earlier),
        };
        read.ok_or(DamagedRegistry::Altered)
    }
}

/// Why bytes are not those of a registry's file.
#[non_exhaustive]
#[derive(Clone, Copy, Debug, PartialEq, Eq)]
pub enum DamagedRegistry {
    /// They do not begin as such a file does.
    NotARegistry,
    /// They end too early.
    Cut,
    /// They have been altered since the file was written.
    Altered,
    /// They are those of an earlier make, which [`EarlierRegistry`] reads.
    EarlierMake(u64),
    /// They begin as a make that is not known here: its number, or [`u64::MAX`] for a larger one.
    LaterMake(u64),
}

impl fmt::Display for DamagedRegistry {
    fn fmt(&self, f: &mut fmt::Formatter) -> fmt::Result {
        let last = CURRENT.number;
        match self {
            DamagedRegistry::NotARegistry => {
                f.write_str("not the file of a book: it does not begin with `caplune book`")
            }
            DamagedRegistry::Cut => f.write_str("the file of the book ends too early"),
            DamagedRegistry::Altered => f.write_str("the file of the book has been altered since it was written"),
            DamagedRegistry::EarlierMake(make) => {
                write!(f, "a book of make {make}, where one of make {last} is needed")
            }
            DamagedRegistry::LaterMake(u64::MAX) => {
                write!(f, "a book of a later make, and this caplune reads makes up to {last}")
            }
            DamagedRegistry::LaterMake(make) => {
                write!(f, "a book of make {make}, and this caplune reads makes up to {last}")
            }
        }
    }
}

impl std::error::Error for DamagedRegistry {}
