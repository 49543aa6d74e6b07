//! Transducers, and what two of them have to do with each other.
use crate::{slices, Address, Alphabets, InputTree, OutputTree, Refusal};

/// A function that writes a form of a transducer.
type WriteForm = fn(&[u8], &[u8], &mut [u8]) -> Result<slices::Form, Refusal>;

/// One letter of an initial term or a right-hand side.
#[derive(Clone, Copy, Debug, PartialEq, Eq, Hash)]
pub enum Mark {
    /// An output symbol (the paper: a block).
    Symbol(u8),
    /// A state that goes on with a child of the node (the paper: an open end). In the initial term the child is 1: the
    /// whole input tree.
    Call {
        /// The number of the child, from 1 on.
        child: u8,
        /// The state.
        state: u8,
    },
}

impl Mark {
    fn bytes(self) -> [u8; 2] {
        match self {
            Mark::Symbol(symbol) => [0, symbol],
            // in a file a child 0 would be a symbol; no rank reaches 255, so the reader refuses it
            Mark::Call { child: 0, state } => [u8::MAX, state],
            Mark::Call { child, state } => [child, state],
        }
    }

    fn of(bytes: &[u8]) -> Self {
        match bytes[0] {
            0 => Mark::Symbol(bytes[1]),
            child => Mark::Call { child, state: bytes[1] },
        }
    }
}

/// A total deterministic top-down tree transducer (the paper: a sheet).
///
/// Its functions read trees and other transducers under its own alphabets, whatever alphabets these were made with.
///
/// ```
/// use caplune::{Address, Alphabets, Comparison, InputTree, Refusal, Transducer};
/// // a of rank 1 and e of rank 0; f of rank 2 and e of rank 0
/// let alphabets = Alphabets::new(&[1, 0], &[2, 0])?;
/// // q(a(x1)) = f(q(x1), q(x1)), q(e) = e, with the initial term f(q(x1), q(x1))
/// let file = [1, 0, 3, 0, 3, 0, 1, 0, 0, 1, 0, 1, 0, 0, 0, 1, 0, 1, 0, 0, 1];
/// let transducer = Transducer::read(&alphabets, &file)?;
/// assert_eq!((transducer.states(), transducer.marks(), transducer.is_linear()), (1, 7, false));
///
/// // the output tree on a(e) is f(f(e, e), f(e, e))
/// let tree = InputTree::read(&alphabets, &[0, 1])?;
/// assert_eq!(transducer.translate(&tree, 7)?.as_bytes(), [0, 0, 1, 1, 0, 1, 1]);
/// assert_eq!(transducer.translate(&tree, 6), Err(Refusal::LongOutput));
/// assert_eq!(transducer.symbol_at(&tree, &Address::from(vec![2, 1]))?, Some(1));
///
/// // the same translation, with the initial term q(x1) and q(e) = f(e, e)
/// let other = Transducer::read(&alphabets, &[1, 0, 1, 0, 3, 0, 3, 1, 0, 0, 0, 1, 0, 1, 0, 0, 0, 0, 1, 0, 1])?;
/// assert_eq!(other.normal_form()?, transducer);
/// assert_eq!(transducer.compare(&other)?, Comparison::Alike);
/// # Ok::<(), Refusal>(())
/// ```
#[doc(alias = "sheet")]
#[must_use]
#[derive(Clone, Debug, PartialEq, Eq, Hash)]
pub struct Transducer {
    alphabets: Alphabets,
    file: Vec<u8>,
    /// Where in the file the initial term and each right-hand side start, and the end of the file.
    starts: Vec<usize>,
}

impl Transducer {
    /// The most states.
    pub const MOST_STATES: usize = 128;
    /// The most marks of the initial term and of each right-hand side.
    pub const MOST_MARKS_OF_A_TERM: usize = 64;
    /// The most marks in all.
    pub const MOST_MARKS: usize = 8_192;
    /// The most symbols of an output tree that [`translate`](Self::translate) gives.
    pub const MOST_OUTPUT: usize = 1 << 30;
    /// The most levels of an output tree that [`translate`](Self::translate) gives; the root is level 1.
    pub const MOST_OUTPUT_LEVELS: usize = 256;
    /// The length of the longest file: one byte, two for each count and two for each mark.
    pub const LONGEST_FILE: usize = 1 + 2 * (1 + Self::MOST_STATES * Alphabets::MOST_INPUTS) + 2 * Self::MOST_MARKS;

    /// Reads the file of a transducer. Refuses by 4 one whose number of states, counts or length are wrong, and by 5
    /// one with a term that is not one tree of known marks.
    pub fn read(alphabets: &Alphabets, file: &[u8]) -> Result<Self, Refusal> {
        let parts = slices::read_transducer(alphabets.as_bytes(), file)?;
        let mut starts = vec![1 + parts.counts.len()];
        for count in parts.counts.chunks_exact(2) {
            let marks = usize::from(u16::from_be_bytes([count[0], count[1]]));
            starts.push(starts[starts.len() - 1] + 2 * marks);
        }
        Ok(Transducer { alphabets: alphabets.clone(), file: file.to_vec(), starts })
    }

    /// The transducer of this initial term and these right-hand sides, those of state 0 by input symbol first, then
    /// those of state 1, and so on. Refuses by 4 and 5 as [`read`](Self::read) does.
    ///
    /// ```
    /// use caplune::{Alphabets, Mark, Refusal, Transducer};
    /// let alphabets = Alphabets::new(&[1, 0], &[2, 0])?;
    /// let call = Mark::Call { child: 1, state: 0 };
    /// let doubled = vec![Mark::Symbol(0), call, call];
    /// let transducer = Transducer::new(&alphabets, 1, &doubled, &[doubled.clone(), vec![Mark::Symbol(1)]])?;
    /// assert_eq!(transducer.as_bytes(), [1, 0, 3, 0, 3, 0, 1, 0, 0, 1, 0, 1, 0, 0, 0, 1, 0, 1, 0, 0, 1]);
    /// # Ok::<(), Refusal>(())
    /// ```
    pub fn new(
        alphabets: &Alphabets,
        states: usize,
        initial_term: &[Mark],
        right_hand_sides: &[Vec<Mark>],
    ) -> Result<Self, Refusal> {
        let (mut counts, mut marks) = (Vec::new(), Vec::new());
        for term in std::iter::once(initial_term).chain(right_hand_sides.iter().map(Vec::as_slice)) {
            let count = u16::try_from(term.len()).map_err(|_| Refusal::BadContents)?;
            counts.extend(count.to_be_bytes());
            marks.extend(term.iter().flat_map(|mark| mark.bytes()));
        }
        let mut area = vec![0; Self::LONGEST_FILE];
        let length = slices::write_transducer(alphabets.as_bytes(), states, &counts, &marks, &mut area)?;
        Self::read(alphabets, &area[..length])
    }

    /// Its alphabets.
    pub fn alphabets(&self) -> &Alphabets {
        &self.alphabets
    }

    /// The file.
    #[must_use]
    pub fn as_bytes(&self) -> &[u8] {
        &self.file
    }

    /// The number of its states (the paper: passes), 0 to 128.
    #[must_use]
    pub fn states(&self) -> usize {
        usize::from(self.file[0])
    }

    /// The number of its marks, 1 to 8,192.
    #[must_use]
    pub fn marks(&self) -> usize {
        (self.file.len() - self.starts[0]) / 2
    }

    /// The initial term (the paper: the opening), in preorder.
    #[must_use]
    pub fn initial_term(&self) -> Vec<Mark> {
        self.term(0)
    }

    /// The right-hand side (the paper: the line) of a state and an input symbol, in preorder; `None` where there is no
    /// such state or symbol.
    #[must_use]
    pub fn right_hand_side(&self, state: usize, symbol: usize) -> Option<Vec<Mark>> {
        let inputs = self.alphabets.input_ranks().len();
        (state < self.states() && symbol < inputs).then(|| self.term(1 + state * inputs + symbol))
    }

    fn term(&self, number: usize) -> Vec<Mark> {
        self.file[self.starts[number]..self.starts[number + 1]].chunks_exact(2).map(Mark::of).collect()
    }

    /// Whether in its initial term, and in each right-hand side of a state that is reached from there through any
    /// number of calls, no child is called twice (the paper: whether the sheet is single).
    #[must_use]
    pub fn is_linear(&self) -> bool {
        slices::is_linear(self.alphabets.as_bytes(), &self.file) == Ok(true)
    }

    /// The output tree on an input tree (the paper: sewing), if it has at most `most` symbols. Refuses by 3, by 6 an
    /// output tree of more symbols, of over [`MOST_OUTPUT`](Self::MOST_OUTPUT), or of more than there is memory for,
    /// and by 10 one of over [`MOST_OUTPUT_LEVELS`](Self::MOST_OUTPUT_LEVELS).
    pub fn translate(&self, tree: &InputTree, most: usize) -> Result<OutputTree, Refusal> {
        let most = most.min(Self::MOST_OUTPUT);
        let mut length = most.min(1 << 12);
        loop {
            let mut area = Vec::new();
            area.try_reserve_exact(length).map_err(|_| Refusal::LongOutput)?;
            area.resize(length, 0);
            match slices::translate(self.alphabets.as_bytes(), &self.file, tree.as_bytes(), &mut area) {
                // that an area is too short is found out without writing, so it is made twice as long
                Err(Refusal::LongOutput) if length < most => length = most.min(2 * length),
                written => {
                    area.truncate(written?);
                    area.shrink_to_fit();
                    return Ok(OutputTree::new(&self.alphabets, area));
                }
            }
        }
    }

    /// The symbol at an address of the output tree on an input tree, or `None` where the output tree has no such
    /// address. The output tree is not built, and may have any size and any number of levels. Refuses by 3.
    pub fn symbol_at(&self, tree: &InputTree, address: &Address) -> Result<Option<u8>, Refusal> {
        slices::symbol_at(self.alphabets.as_bytes(), &self.file, tree.as_bytes(), address.as_bytes())
    }

    /// The earliest form (the paper: the trimmed sheet). Refuses by 7.
    pub fn earliest_form(&self) -> Result<Self, Refusal> {
        self.form(slices::earliest_form)
    }

    /// The normal form (the paper: the clean sheet): two transducers over the same alphabets have the same exactly if
    /// their output trees are equal on every input tree. Refuses by 7.
    pub fn normal_form(&self) -> Result<Self, Refusal> {
        self.form(slices::clean)
    }

    fn form(&self, write: WriteForm) -> Result<Self, Refusal> {
        let mut area = vec![0; Self::LONGEST_FILE];
        let form = write(self.alphabets.as_bytes(), &self.file, &mut area)?;
        Self::read(&self.alphabets, &area[..form.length])
    }

    /// The composition (the paper: the joined sheet): its output tree is that of `second` on the output tree of this
    /// one. Refuses by 16 and 17.
    ///
    /// ```
    /// use caplune::{Alphabets, Refusal, Transducer};
    /// let (one, two) = (Alphabets::new(&[1, 0], &[2, 0])?, Alphabets::new(&[2, 0], &[2, 0])?);
    /// let first = Transducer::read(&one, &[1, 0, 1, 0, 3, 0, 3, 1, 0, 0, 0, 1, 0, 1, 0, 0, 0, 0, 1, 0, 1])?;
    /// let second = Transducer::read(&two, &[1, 0, 3, 0, 3, 0, 1, 0, 0, 1, 0, 1, 0, 0, 0, 1, 0, 2, 0, 0, 1])?;
    /// let joined = first.then(&second)?;
    /// assert_eq!((joined.states(), joined.marks(), joined.alphabets()), (1, 9, &one));
    /// assert_eq!(first.then(&first), Err(Refusal::OtherAlphabet));
    /// # Ok::<(), Refusal>(())
    /// ```
    #[doc(alias = "join")]
    pub fn then(&self, second: &Transducer) -> Result<Self, Refusal> {
        let mut area = vec![0; Self::LONGEST_FILE];
        let [one, two] = [self.alphabets.as_bytes(), second.alphabets.as_bytes()];
        let form = slices::join(one, two, &self.file, &second.file, &mut area)?;
        Self::read(&self.alphabets.joined(&second.alphabets)?, &area[..form.length])
    }

    /// Whether this and `second` give equal output trees on every input tree (the paper: whether two sheets sew alike);
    /// if not, an input tree and an address that show it. Refuses by 7, and by 4 and 5 a second that is no transducer
    /// under these alphabets.
    pub fn compare(&self, second: &Transducer) -> Result<Comparison, Refusal> {
        let (mut tree, mut address) = (vec![0; slices::TREE_AREA], vec![0; slices::ADDRESS_AREA]);
        let stock = self.alphabets.as_bytes();
        Ok(match slices::compare(stock, &self.file, &second.file, &mut tree, &mut address)? {
            slices::Comparison::Alike => Comparison::Alike,
            slices::Comparison::Differ(shown) => Comparison::Differ(Difference {
                tree: InputTree::read(&self.alphabets, shown.tree)?,
                address: Address::from(shown.address.to_vec()),
                first: shown.first,
                second: shown.second,
            }),
        })
    }

    /// The marks of the shorter of two equivalent transducers, of this one if both have as many, as a part of its file;
    /// `None` where the two are not equivalent or [`compare`](Self::compare) refuses.
    #[must_use]
    pub fn shorter<'a>(&'a self, second: &'a Transducer) -> Option<&'a [u8]> {
        slices::shorter(self.alphabets.as_bytes(), &self.file, &second.file)
    }
}

/// What a comparison finds.
#[must_use]
#[derive(Clone, Debug, PartialEq, Eq)]
pub enum Comparison {
    /// The output trees are equal on every input tree.
    Alike,
    /// They are not on this one.
    Differ(Difference),
}

/// An input tree, and an address at which its two output trees have two symbols.
#[must_use]
#[non_exhaustive]
#[derive(Clone, Debug, PartialEq, Eq)]
pub struct Difference {
    /// The input tree: at most 1,536 nodes and 384 levels.
    pub tree: InputTree,
    /// The address: at most 16,128 numbers.
    pub address: Address,
    /// The symbol there in the output tree of the first transducer.
    pub first: u8,
    /// The symbol there in the output tree of the second transducer.
    pub second: u8,
}
