//! Why an input is sent back.
use std::fmt;

/// Why an input is sent back: a row of the paper's table. Nothing that was lent has changed.
///
/// ```
/// use caplune::{Alphabets, Refusal};
/// let refusal = Alphabets::read(&[1, 1, 1, 0]).unwrap_err();
/// assert_eq!((refusal, refusal.number()), (Refusal::BadAlphabets, 2));
/// assert_eq!(refusal.to_string(), "refused by 2: not a stock");
/// ```
#[must_use]
#[non_exhaustive]
#[derive(Clone, Copy, Debug, PartialEq, Eq, Hash, PartialOrd, Ord)]
pub enum Refusal {
    /// An area that is lent for writing is too short.
    ShortArea = 1,
    /// Not two ranked alphabets (a stock).
    BadAlphabets = 2,
    /// Not an input tree (a design), or over its limits.
    BadTree = 3,
    /// The number of states (passes), a count, their sum or a length is wrong.
    BadContents = 4,
    /// An initial term (opening) or right-hand side (line) is not one tree of known marks.
    BadBody = 5,
    /// The output tree (plan) has more symbols than its area has bytes.
    LongOutput = 6,
    /// The earliest form (trimmed sheet) is over the limits of a transducer.
    OverLimits = 7,
    /// The registry (book) is full.
    FullRegistry = 8,
    /// Not a registry (book).
    BadRegistry = 9,
    /// The output tree (plan) has more than 256 levels.
    DeepOutput = 10,
    /// Not an output tree (a plan) of 1 to 4,096 symbols, or not the XML of one.
    BadOutput = 11,
    /// The target area is shorter than the result.
    ShortTarget = 12,
    /// The entry would get another number than the commit claims.
    OtherNumber = 13,
    /// The output symbols of the first transducer are not the input symbols of the second.
    OtherAlphabet = 16,
    /// The joined transducer is over the limits of a transducer.
    JoinOverLimits = 17,
}

impl Refusal {
    /// Every refusal, by number.
    pub const ALL: &'static [Refusal] = &[
        Refusal::ShortArea,
        Refusal::BadAlphabets,
        Refusal::BadTree,
        Refusal::BadContents,
        Refusal::BadBody,
        Refusal::LongOutput,
        Refusal::OverLimits,
        Refusal::FullRegistry,
        Refusal::BadRegistry,
        Refusal::DeepOutput,
        Refusal::BadOutput,
        Refusal::ShortTarget,
        Refusal::OtherNumber,
        Refusal::OtherAlphabet,
        Refusal::JoinOverLimits,
    ];

    /// The number in the paper's table.
    #[must_use]
    pub fn number(self) -> u32 {
        self as u32
    }

    /// The refusal of this number, which a function of the library returned: by the contracts of crate `exports` it is
    /// a number of the table.
    pub(crate) fn of(number: u32) -> Self {
        let found = Self::ALL.iter().copied().find(|refusal| refusal.number() == number);
        found.unwrap_or_else(|| unreachable!("the library refuses by {number}, which no contract allows"))
    }

    /// What is wrong, in a few words, which are the paper's.
    #[must_use]
    pub fn meaning(self) -> &'static str {
        match self {
            Refusal::ShortArea => "what is lent for a result is too short",
            Refusal::BadAlphabets => "not a stock",
            Refusal::BadTree => "not a design, or over its limits",
            Refusal::BadContents => {
                "the number of passes, a count of marks, their sum or the length of the sheet is wrong"
            }
            Refusal::BadBody => "the opening or a line is not one tree of known marks",
            Refusal::LongOutput => "the plan has more blocks than there is room for",
            Refusal::OverLimits => "the trimmed sheet is over the limits of a sheet",
            Refusal::FullRegistry => "the book is full",
            Refusal::BadRegistry => "not a book",
            Refusal::DeepOutput => "the plan has more than 256 levels",
            Refusal::BadOutput => "not a plan of 1 to 4,096 blocks, or not the XML of one",
            Refusal::ShortTarget => "what is lent for the result is shorter than the result",
            Refusal::OtherNumber => "the sheet would get another number",
            Refusal::OtherAlphabet => "the block kinds of the first stock are not the part kinds of the second",
            Refusal::JoinOverLimits => "the joined sheet is over the limits of a sheet",
        }
    }

    /// What to do about it: the last column of docs/REFUSALS.md.
    #[must_use]
    pub fn remedy(self) -> &'static str {
        match self {
            Refusal::ShortArea => "lend more bytes for it",
            Refusal::BadAlphabets => {
                "P (1 to 16), the places of P part kinds (0 to 4 each), B (1 to 64), the places of B block kinds, nothing \
                 more; some part kind has 0 places"
            }
            Refusal::BadTree => {
                "the kind of each part, a part before its sub-parts, nothing behind the design; at most 4,096 parts and \
                 512 levels"
            }
            Refusal::BadContents => {
                "N (at most 128), two bytes for the count of marks of the opening and of each line (1 to 64, at most \
                 8,192 in all), two bytes for each mark, nothing more"
            }
            Refusal::BadBody => {
                "the opening and each line are one tree; block kinds below B, passes below N, sub-parts up to the places \
                 of the line's part kind (1 in the opening)"
            }
            Refusal::LongOutput => {
                "give it more room (`caplune sew --most N`, up to 1073741824); the block at one place can be had without \
                 any (`caplune place`)"
            }
            Refusal::OverLimits => "split the sheet: what it lays at once is too large for one line",
            Refusal::FullRegistry => {
                "make another book for the further sheets, or one with more room (`caplune book make --size N`, up to \
                 655538): numbers given stay"
            }
            Refusal::BadRegistry => "lend the book as it was left last; put back a copy of it if it is lost",
            Refusal::DeepOutput => {
                "take a design of fewer levels, or a sheet that nests less: 256 are the most, the top block being level \
                 1; the block at one place can be had at any level (`caplune place`)"
            }
            Refusal::BadOutput => {
                "a plan is the kind of each block, a block before its sub-trees, 1 to 4,096, nothing behind it; its XML \
                 is just as `caplune xml` writes it: no declaration, no space, no line end"
            }
            Refusal::ShortTarget => {
                "lend more bytes: 36,860 are enough for every text, 4,096 for every plan that is read"
            }
            Refusal::OtherNumber => {
                "ask again (`caplune book question`), and commit with the number that is answered now"
            }
            Refusal::OtherAlphabet => "join under a second stock whose part kinds are the first's block kinds",
            Refusal::JoinOverLimits => {
                "clean both sheets first, or split one: what the two lay at once is too large for one line"
            }
        }
    }
}

impl fmt::Display for Refusal {
    fn fmt(&self, f: &mut fmt::Formatter) -> fmt::Result {
        write!(f, "refused by {}: {}", self.number(), self.meaning())
    }
}

impl std::error::Error for Refusal {}
