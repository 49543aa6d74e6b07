//! The text form of the files: two alphabets, a transducer, an input tree, an output tree, and the names of symbols or
//! of states.
//!
//! docs/FORMATS.md describes it. A text is read into the bytes that the proved readers judge; only names, brackets,
//! ranks and the numbers of symbols, states and marks are checked here, so that an error says where in the text it is.
//!
//! ```
//! use caplune::text;
//! let (alphabets, names) = text::read_alphabets(b"stock parts a/1 e/0 blocks f/2 e/0")?;
//! assert_eq!(alphabets.as_bytes(), [2, 1, 0, 2, 2, 0]);
//! let sheet = "sheet\nopening f(q(x1), q(x1))\nq(a(x1)) -> f(q(x1), q(x1))\nq(e) -> e\n";
//! let (transducer, states) = text::read_transducer(sheet.as_bytes(), &alphabets, &names)?;
//! assert_eq!(text::write_transducer(&transducer, &names, &states), sheet);
//! let tree = text::read_input_tree(b"design a(e)", &alphabets, &names)?;
//! let mut plan = Vec::new();
//! text::write_output_tree(&transducer.translate(&tree, 7)?, &names, &mut plan)?;
//! assert_eq!(plan, b"plan f(f(e, e), f(e, e))\n");
//! let error = text::read_input_tree(b"design a(b)", &alphabets, &names).unwrap_err();
//! assert_eq!(error.to_string(), "1:10: expected a part kind (a, e), found `b`");
//! # Ok::<(), Box<dyn std::error::Error>>(())
//! ```
use crate::{slices, Alphabets, Refusal, Transducer};
use std::borrow::Cow;
use std::collections::HashSet;
use std::fmt;

mod reader;
mod reading;
mod rules;
mod words;
mod writing;

use words::{is_name, LONGEST_NAME};

pub use reading::{
    kind, read_alphabets, read_input_tree, read_names, read_output_tree, read_state_names, read_transducer,
};
pub use writing::{
    write_alphabets, write_card, write_input_tree, write_names, write_output_tree, write_state_names, write_transducer,
};

/// The bytes of the longest text that [`write_names`] writes: its words, and of each symbol a space and a name, of which
/// a character has at most four bytes.
pub(crate) const LONGEST_NAMES: usize =
    "names\nparts\nblocks\n".len() + (Alphabets::MOST_INPUTS + Alphabets::MOST_OUTPUTS) * (1 + 4 * LONGEST_NAME);

/// The names of the symbols of two alphabets. Within each of the two lists no name stands twice.
#[must_use]
#[derive(Clone, Debug, PartialEq, Eq, Hash)]
pub struct Names {
    inputs: Vec<String>,
    outputs: Vec<String>,
}

impl Names {
    /// These names of input symbols and of output symbols. `None` where one is not a name in a text (docs/FORMATS.md),
    /// or stands twice in its list.
    ///
    /// ```
    /// use caplune::text::Names;
    /// let strings = |names: &[&str]| names.iter().map(|name| name.to_string()).collect();
    /// assert!(Names::new(strings(&["a", "e"]), strings(&["f", "e"])).is_some());
    /// assert!(Names::new(strings(&["a", "a"]), vec![]).is_none() && Names::new(strings(&["x1"]), vec![]).is_none());
    /// ```
    #[must_use]
    pub fn new(inputs: Vec<String>, outputs: Vec<String>) -> Option<Names> {
        (are_names(&inputs) && are_names(&outputs)).then_some(Names { inputs, outputs })
    }

    /// The names that are used where there are no others: `a1` to `b8` for the input symbols, `A1` to `H8` for the
    /// output symbols.
    ///
    /// ```
    /// use caplune::{text::Names, Alphabets};
    /// let names = Names::codes(&Alphabets::new(&[1, 0], &[2, 0])?);
    /// assert_eq!(names.inputs(), ["a1", "a2"]);
    /// assert_eq!(names.outputs(), ["A1", "A2"]);
    /// # Ok::<(), caplune::Refusal>(())
    /// ```
    pub fn codes(alphabets: &Alphabets) -> Names {
        let [inputs, outputs] = [alphabets.input_ranks().len(), alphabets.output_ranks().len()];
        Names { inputs: input_codes(inputs), outputs: output_codes(outputs) }
    }

    /// The names of the input symbols (the paper: part kinds), by number.
    #[must_use]
    pub fn inputs(&self) -> &[String] {
        &self.inputs
    }

    /// The names of the output symbols (the paper: block kinds), by number.
    #[must_use]
    pub fn outputs(&self) -> &[String] {
        &self.outputs
    }

    /// The names for the composition of a transducer under the alphabets of these and one under those of `second`: the
    /// input symbols of these, the output symbols of the second.
    pub fn joined(&self, second: &Names) -> Names {
        Names { inputs: self.inputs.clone(), outputs: second.outputs.clone() }
    }
}

/// The names of the states of a transducer (the paper: the passes of a sheet), no name twice.
#[must_use]
#[derive(Clone, Debug, PartialEq, Eq, Hash)]
pub struct StateNames(Vec<String>);

impl StateNames {
    /// These names. `None` where one is not a name in a text (docs/FORMATS.md), or stands twice.
    #[must_use]
    pub fn new(names: Vec<String>) -> Option<Self> {
        are_names(&names).then_some(StateNames(names))
    }

    /// The names that are used where there are no others: `q0`, `q1` and so on.
    pub fn numbered(states: usize) -> Self {
        StateNames(state_codes(states.min(Transducer::MOST_STATES)))
    }

    /// The names, by number.
    #[must_use]
    pub fn as_slice(&self) -> &[String] {
        &self.0
    }
}

/// Whether all of these are names, and no two the same.
fn are_names(names: &[String]) -> bool {
    let mut used = HashSet::new();
    names.iter().all(|name| is_name(name) && used.insert(name))
}

/// The codes of the first output symbols, at most 64, from the proved library's table.
fn output_codes(count: usize) -> Vec<String> {
    let mut codes = [0; slices::CODES_AREA];
    // only a shorter area is refused
    let _ = slices::write_codes(&mut codes);
    codes.chunks(2).take(count).map(|code| code.iter().copied().map(char::from).collect()).collect()
}

/// Those of input symbols: the same with a small letter.
fn input_codes(count: usize) -> Vec<String> {
    output_codes(count).iter().map(|code| code.to_ascii_lowercase()).collect()
}

fn state_codes(count: usize) -> Vec<String> {
    (0..count).map(|state| format!("q{state}")).collect()
}

/// The names of so many symbols or states: their codes where there are too few names, as with the names of other
/// alphabets.
fn fitted(names: &[String], count: usize, codes: fn(usize) -> Vec<String>) -> Vec<Cow<'_, str>> {
    match names.get(..count) {
        Some(names) => names.iter().map(|name| Cow::from(name.as_str())).collect(),
        None => codes(count).into_iter().map(Cow::from).collect(),
    }
}

/// One of two alphabets, with the names of its symbols.
struct Symbols<'a> {
    /// What the paper calls one of them.
    kind: &'static str,
    names: Vec<Cow<'a, str>>,
    ranks: &'a [u8],
}

impl<'a> Symbols<'a> {
    fn inputs(alphabets: &'a Alphabets, names: &'a Names) -> Self {
        let ranks = alphabets.input_ranks();
        Symbols { kind: "part kind", names: fitted(&names.inputs, ranks.len(), input_codes), ranks }
    }

    fn outputs(alphabets: &'a Alphabets, names: &'a Names) -> Self {
        let ranks = alphabets.output_ranks();
        Symbols { kind: "block kind", names: fitted(&names.outputs, ranks.len(), output_codes), ranks }
    }

    fn find(&self, name: &str) -> Option<u8> {
        self.names.iter().position(|known| known == name).and_then(|symbol| u8::try_from(symbol).ok())
    }

    /// The name, or no text for what is no symbol.
    fn name(&self, symbol: u8) -> &str {
        self.names.get(usize::from(symbol)).map_or("", |name| name)
    }

    /// The rank, 0 for what is no symbol.
    fn rank(&self, symbol: u8) -> u8 {
        self.ranks.get(usize::from(symbol)).copied().unwrap_or(0)
    }
}

/// Whether a file is text rather than bytes: it has a byte of 32 or more, and none under 9.
///
/// No alphabets, transducer or input tree in bytes is taken for text: byte 1 of the alphabets (a stock) is a rank, at
/// most 4; byte 1 of a transducer (a sheet) is the high byte of a number of at most 64, so 0; and an input tree (a
/// design) has no byte over 15. An output tree (a plan) in bytes can be: see [`is_output_text`].
///
/// ```
/// use caplune::text::is_text;
/// assert!(is_text(b"stock\nparts e/0\nblocks e/0\n"));
/// assert!(!is_text(&[2, 1, 0, 2, 2, 0]) && !is_text(&[]));
/// ```
#[must_use]
pub fn is_text(bytes: &[u8]) -> bool {
    bytes.iter().any(|&byte| byte >= 32) && bytes.iter().all(|&byte| byte >= 9)
}

/// Whether a file in which an output tree (a plan) is expected is text rather than bytes: it is text by [`is_text`], and
/// has a byte of 64 or more, as the letters of `plan` are. No symbol of an output tree is over 63.
///
/// ```
/// use caplune::text::{is_output_text, is_text};
/// assert!(is_output_text(b"plan e"));
/// // one symbol, 40, which as text would be a bracket
/// assert!(is_text(&[40]) && !is_output_text(&[40]));
/// ```
#[must_use]
pub fn is_output_text(bytes: &[u8]) -> bool {
    is_text(bytes) && bytes.iter().any(|&byte| byte >= 64)
}

/// What a text says it is by its first word.
#[non_exhaustive]
#[derive(Clone, Copy, Debug, PartialEq, Eq)]
pub enum Kind {
    /// Two alphabets: `stock`.
    Alphabets,
    /// A transducer: `sheet`.
    Transducer,
    /// An input tree: `design`.
    InputTree,
    /// An output tree: `plan`.
    OutputTree,
    /// The names of symbols or of states: `names`.
    Names,
}

/// Why a text is not read. Displayed it is one line.
#[must_use]
#[non_exhaustive]
#[derive(Clone, Debug, PartialEq, Eq)]
pub enum Error {
    /// Something else should stand in the text here.
    Unexpected {
        /// The line, from 1 on.
        line: usize,
        /// The column, from 1 on, in characters.
        column: usize,
        /// What should stand there.
        expected: String,
        /// What stands there.
        found: String,
    },
    /// The proved reader refuses what the text stands for.
    Refused(Refusal),
}

impl fmt::Display for Error {
    fn fmt(&self, f: &mut fmt::Formatter) -> fmt::Result {
        match self {
            Error::Unexpected { line, column, expected, found } => {
                write!(f, "{line}:{column}: expected {expected}, found {found}")
            }
            Error::Refused(refusal) => refusal.fmt(f),
        }
    }
}

impl std::error::Error for Error {
    fn source(&self) -> Option<&(dyn std::error::Error + 'static)> {
        match self {
            Error::Unexpected { .. } => None,
            Error::Refused(refusal) => Some(refusal),
        }
    }
}

impl From<Refusal> for Error {
    fn from(refusal: Refusal) -> Self {
        Error::Refused(refusal)
    }
}
