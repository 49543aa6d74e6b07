//! The functions of the proved library over files of bytes and lent memory: nothing is allocated.
//!
//! All of them read slices, and those that write do so into an area that the caller lends. A refusal leaves all that
//! was lent as it was. The types of the crate's root call them and own their memory.
//!
//! ```
//! use caplune::slices;
//! // a of rank 1 and e of rank 0; f of rank 2 and e of rank 0
//! let stock = [2, 1, 0, 2, 2, 0];
//! // q(a(x1)) = f(q(x1), q(x1)), q(e) = e, with the initial term f(q(x1), q(x1))
//! let file = [1, 0, 3, 0, 3, 0, 1, 0, 0, 1, 0, 1, 0, 0, 0, 1, 0, 1, 0, 0, 1];
//! let parts = slices::read_transducer(&stock, &file).unwrap();
//! assert_eq!((parts.states, parts.counts.len(), parts.marks.len()), (1, 6, 14));
//! assert_eq!(slices::is_linear(&stock, &file), Ok(false));
//! assert_eq!(slices::read_tree(&stock, &[0]).unwrap_err().number(), 3);
//! // the output tree on a(e) is f(f(e, e), f(e, e)), and an area of six bytes is too short for it
//! let mut area = [9; 8];
//! assert_eq!(slices::translate(&stock, &file, &[0, 1], &mut area[..6]).unwrap_err().number(), 6);
//! assert_eq!(slices::translate(&stock, &file, &[0, 1], &mut area), Ok(7));
//! assert_eq!(area, [0, 0, 1, 1, 0, 1, 1, 9]);
//! assert_eq!(slices::symbol_at(&stock, &file, &[0, 1], &[2, 1]), Ok(Some(1)));
//! assert_eq!(slices::symbol_at(&stock, &file, &[0, 1], &[2, 1, 1]), Ok(None));
//! // the same translation with another initial term, q(x1), and q(e) = f(e, e): its normal form is `file`
//! let other = [1, 0, 1, 0, 3, 0, 3, 1, 0, 0, 0, 1, 0, 1, 0, 0, 0, 0, 1, 0, 1];
//! let mut area = vec![9; 20_483];
//! assert_eq!(slices::clean(&stock, &other, &mut area), Ok(slices::Form { states: 1, marks: 7, length: 21 }));
//! assert_eq!((&area[..21], area[21]), (&file[..], 9));
//! // the two are equivalent, of equally many marks; the third has q(e) = f(e, e)
//! let third = [1, 0, 3, 0, 3, 0, 3, 0, 0, 1, 0, 1, 0, 0, 0, 1, 0, 1, 0, 0, 0, 0, 1, 0, 1];
//! let (mut tree, mut address) = ([0; slices::TREE_AREA], [0; slices::ADDRESS_AREA]);
//! let mut compare = |other: &[u8]| match slices::compare(&stock, &file, other, &mut tree, &mut address).unwrap() {
//!     slices::Comparison::Alike => true,
//!     slices::Comparison::Differ(shown) => {
//!         let symbol = |file: &[u8]| slices::symbol_at(&stock, file, shown.tree, shown.address).unwrap();
//!         assert_eq!((symbol(&file), symbol(other)), (Some(shown.first), Some(shown.second)));
//!         assert_ne!(shown.first, shown.second);
//!         false
//!     }
//! };
//! assert!(compare(&other) && !compare(&third));
//! assert_eq!(slices::shorter(&stock, &other, &file), Some(&other[7..]));
//! assert_eq!(slices::shorter(&stock, &other, &third), None);
//! // a second transducer, over f and e as input symbols: q(f(x1, x2)) = f(q(x1), q(x2)), q(e) = e, with the
//! // initial term f(q(x1), q(x1)); after `other` it is one with the initial term f(p(x1), p(x1)), where
//! // p(a(x1)) = f(p(x1), p(x1)) and p(e) = f(e, e), which is `third`
//! let second_stock = [2, 2, 0, 2, 2, 0];
//! let second = [1, 0, 3, 0, 3, 0, 1, 0, 0, 1, 0, 1, 0, 0, 0, 1, 0, 2, 0, 0, 1];
//! let joined = slices::join(&stock, &second_stock, &other, &second, &mut area);
//! assert_eq!(joined, Ok(slices::Form { states: 1, marks: 9, length: 25 }));
//! assert_eq!(area[..25], third);
//! assert_eq!(slices::join(&stock, &stock, &other, &file, &mut area).unwrap_err().number(), 16);
//! // a registry: equivalent transducers get one number
//! let mut head = slices::Head::default();
//! let (mut records, mut area) = ([slices::Record::default(); slices::RECORDS], [9; 60]);
//! slices::make_registry(&mut head, &mut records, &mut area, &stock).unwrap();
//! let mut enter = |file: &[u8]| slices::enter(&mut head, &mut records, &mut area, file).unwrap();
//! assert_eq!((enter(&file), enter(&other), enter(&third)), (1, 1, 2));
//! assert_eq!(head, slices::Head { held: 2, used: 56, answered: 3 });
//! // two entries got the number 1, and one the number 2
//! assert_eq!(records.map(|record| record.count)[..4], [0, 2, 1, 0]);
//! assert_eq!(slices::body(&head, &records, &area, 1), &file[..]);
//! // a question answers the number and the normal form, and leaves the registry; a commit is an entry with that number
//! let mut out = vec![9; 20_483];
//! let asked = slices::question(&head, &records, &area, &other, &mut out);
//! assert_eq!(asked, Ok(slices::Asked { number: 1, length: 21 }));
//! assert_eq!((&out[..21], out[21], head.answered), (&file[..], 9, 3));
//! let mut commit = |claim| slices::commit(&mut head, &mut records, &mut area, &other, claim);
//! assert_eq!((commit(2).unwrap_err().number(), commit(1)), (13, Ok(1)));
//! assert_eq!(head.answered, 4);
//! // the codes of all output symbols: that of symbol 63 are the last two bytes
//! let mut codes = [0; slices::CODES_AREA];
//! slices::write_codes(&mut codes).unwrap();
//! assert_eq!((&codes[..4], &codes[126..]), (&b"A1A2"[..], &b"H8"[..]));
//! // f(e, e) as XML, and back; an area that is shorter than the result is refused
//! let (mut text, mut tree) = ([b'.'; 20], [9; 4]);
//! assert_eq!(slices::write_xml(&stock, &[0, 1, 1], &mut text), Ok(19));
//! assert_eq!(&text, b"<A1><A2/><A2/></A1>.");
//! assert_eq!(slices::read_xml(&stock, &text[..19], &mut tree), Ok(3));
//! assert_eq!(tree, [0, 1, 1, 9]);
//! assert_eq!(slices::read_xml(&stock, &text, &mut tree).unwrap_err().number(), 11);
//! assert_eq!(slices::read_xml(&stock, &text[..19], &mut tree[..2]).unwrap_err().number(), 12);
//! ```
use crate::{ffi, Refusal};

/// The answer of a call that returned `number`: `value`, or the refusal.
fn answer<T>(number: u32, value: impl FnOnce() -> T) -> Result<T, Refusal> {
    match number {
        0 => Ok(value()),
        refusal => Err(Refusal::of(refusal)),
    }
}

/// How many symbols two alphabets have.
#[derive(Clone, Copy, Debug, PartialEq, Eq)]
pub struct Symbols {
    /// The input symbols, 1 to 16.
    pub inputs: usize,
    /// The output symbols, 1 to 64.
    pub outputs: usize,
}

/// The size of an input tree.
#[derive(Clone, Copy, Debug, PartialEq, Eq)]
pub struct Size {
    /// Its nodes, 1 to 4,096.
    pub nodes: usize,
    /// The nodes of its longest path, 1 to 512.
    pub levels: usize,
}

/// The parts of a transducer's file.
#[derive(Clone, Copy, Debug, PartialEq, Eq)]
pub struct Parts<'a> {
    /// The number of states, 0 to 128.
    pub states: usize,
    /// How many marks the initial term and each right-hand side have: two bytes each, high byte
    /// first.
    pub counts: &'a [u8],
    /// The marks of the initial term and of the right-hand sides, two bytes each.
    pub marks: &'a [u8],
}

/// The size of a form of a transducer.
#[derive(Clone, Copy, Debug, PartialEq, Eq)]
pub struct Form {
    /// The number of its states, 0 to 128.
    pub states: usize,
    /// The number of its marks, 1 to 8,192.
    pub marks: usize,
    /// The length of its file, 5 to 20,483.
    pub length: usize,
}

/// What a question answers.
#[derive(Clone, Copy, Debug, PartialEq, Eq)]
pub struct Asked {
    /// The number that an entry would get, 1 to 32.
    pub number: usize,
    /// The length of the normal form's file, 5 to 20,483.
    pub length: usize,
}

/// The least length of the area for the input tree of a difference: 384 levels of four nodes.
pub const TREE_AREA: usize = 1_536;
/// The least length of the area for the address of a difference: 256 right-hand sides of 63 levels.
pub const ADDRESS_AREA: usize = 16_128;
/// The least length of the area for the codes of all output symbols: 64 of two bytes.
pub const CODES_AREA: usize = 128;
/// The most symbols of an output tree that is written as XML or read from it.
pub const MOST_XML_SYMBOLS: usize = 4_096;
/// The longest XML of an output tree: all symbols but one in a chain, of 9 bytes each, and one of rank 0, of 5.
pub const LONGEST_XML: usize = 9 * (MOST_XML_SYMBOLS - 1) + 5;

/// What a comparison finds.
#[derive(Clone, Copy, Debug, PartialEq, Eq)]
pub enum Comparison<'a> {
    /// The output trees are equal on every input tree.
    Alike,
    /// They are not on this one.
    Differ(Difference<'a>),
}

/// An input tree, and an address at which its two output trees have two symbols.
#[derive(Clone, Copy, Debug, PartialEq, Eq)]
pub struct Difference<'a> {
    /// The input tree: at most 1,536 nodes and 384 levels.
    pub tree: &'a [u8],
    /// The address: at most 16,128 numbers.
    pub address: &'a [u8],
    /// The symbol there in the output tree of the first transducer.
    pub first: u8,
    /// The symbol there in the output tree of the second transducer.
    pub second: u8,
}

/// How many records a registry has: one of the stock, and one of each of 32 normal forms.
pub const RECORDS: usize = 33;

/// The head of a registry.
#[repr(C)]
#[derive(Clone, Copy, Debug, Default, PartialEq, Eq)]
pub struct Head {
    /// The normal forms held, 0 to 32.
    pub held: usize,
    /// The bytes of the area that are used.
    pub used: usize,
    /// The entries answered.
    pub answered: u64,
}

/// Where a registry has the stock or a normal form in its area, and how often it answered with that number; unused
/// ones are 0, 0 and 0.
#[repr(C)]
#[derive(Clone, Copy, Debug, Default, PartialEq, Eq)]
pub struct Record {
    /// The byte at which it starts.
    pub start: usize,
    /// How many bytes it has.
    pub size: usize,
    /// The entries answered with its number; 0 for the stock.
    pub count: u64,
}

/// Reads two alphabets.
///
/// Returns how many input and output symbols there are. Refuses by 2 what is not a stock.
pub fn read_alphabets(stock: &[u8]) -> Result<Symbols, Refusal> {
    let (mut inputs, mut outputs) = (0, 0);
    let number = ffi::read_alphabets(stock, &mut inputs, &mut outputs);
    answer(number, || Symbols { inputs, outputs })
}

/// Reads an input tree.
///
/// Returns how many nodes and levels it has. Refuses by 2 what is not a stock, and by 3 what is not
/// a tree over its input symbols or has more than 4,096 nodes or 512 levels.
pub fn read_tree(stock: &[u8], tree: &[u8]) -> Result<Size, Refusal> {
    let (mut nodes, mut levels) = (0, 0);
    let number = ffi::read_tree(stock, tree, &mut nodes, &mut levels);
    answer(number, || Size { nodes, levels })
}

/// Reads a transducer.
///
/// Returns the number of its states, and its counts and its marks as parts of `file`. Refuses by 2
/// what is not a stock, by 4 a file whose number of states, counts or length are wrong, and by 5
/// one with a term that is not one tree of known marks.
pub fn read_transducer<'a>(stock: &[u8], file: &'a [u8]) -> Result<Parts<'a>, Refusal> {
    let (mut states, mut counts, mut marks) = (0, 0, 0);
    let number = ffi::read_transducer(stock, file, &mut states, &mut counts, &mut marks);
    answer(number, || Parts { states, counts: &file[1..1 + counts], marks: &file[1 + counts..1 + counts + marks] })
}

/// Writes the file of a transducer to the start of `area`.
///
/// Returns the length of the file; what follows it in the area stays. Refuses by 1 an area under
/// 20,483 bytes, by 2 what is not a stock, by 4 counts that are not two bytes for the initial term
/// and for each right-hand side, and by 4 and 5 what [`read_transducer`] would; the area then is as
/// it was.
pub fn write_transducer(
    stock: &[u8],
    states: usize,
    counts: &[u8],
    marks: &[u8],
    area: &mut [u8],
) -> Result<usize, Refusal> {
    let mut length = 0;
    let number = ffi::write_transducer(stock, states, counts, marks, area, &mut length);
    answer(number, || length)
}

/// Tests a transducer for being linear (the paper: single), as it is read.
///
/// Returns whether in its initial term, and in each right-hand side of a state that is reached from
/// there through any number of calls, no sub-tree is called twice. Refuses by 2, 4 and 5 as
/// [`read_transducer`] does, whatever is reached.
pub fn is_linear(stock: &[u8], file: &[u8]) -> Result<bool, Refusal> {
    let mut linear = 0;
    let number = ffi::is_linear(stock, file, &mut linear);
    answer(number, || linear == 1)
}

/// Writes the output tree of a transducer on an input tree to the start of `area` (the paper:
/// sewing).
///
/// Returns how many symbols it has; what follows them in the area stays. Refuses by 2, 4 and 5 as
/// [`read_transducer`] does, by 3 as [`read_tree`] does, by 6 an output tree with more symbols than
/// the area has bytes, and by 10 one of more than 256 levels, its root being level 1; the area then
/// is as it was.
pub fn translate(stock: &[u8], file: &[u8], tree: &[u8], area: &mut [u8]) -> Result<usize, Refusal> {
    let mut length = 0;
    let number = ffi::translate(stock, file, tree, area, &mut length);
    answer(number, || length)
}

/// Reads the output tree at an address, without building it.
///
/// Returns the symbol there, or `None` where the output tree has no such address. Refuses by 2, 4
/// and 5 as [`read_transducer`] does, and by 3 as [`read_tree`] does. No address is refused.
pub fn symbol_at(stock: &[u8], file: &[u8], tree: &[u8], address: &[u8]) -> Result<Option<u8>, Refusal> {
    let (mut there, mut symbol) = (0, 0);
    let number = ffi::symbol_at(stock, file, tree, address, &mut there, &mut symbol);
    answer(number, || (there == 1).then_some(symbol as u8))
}

/// A C function that writes a form.
type WriteForm = fn(&[u8], &[u8], &mut [u8], &mut usize, &mut usize, &mut usize) -> u32;

/// The answer of a C function that writes a form.
fn form(write: WriteForm, stock: &[u8], file: &[u8], area: &mut [u8]) -> Result<Form, Refusal> {
    let (mut states, mut marks, mut length) = (0, 0, 0);
    let number = write(stock, file, area, &mut states, &mut marks, &mut length);
    answer(number, || Form { states, marks, length })
}

/// Writes the earliest form of a transducer to the start of `area` (the paper: the trimmed sheet).
///
/// Its states are pairs of a state and an open end of that state's largest common prefix, numbered as
/// first met. Returns how many states and marks it has and how long its file is; what follows the file
/// in the area stays. Refuses by 1 an area under 20,483 bytes, by 2, 4 and 5 as [`read_transducer`]
/// does, and by 7 an earliest form of over 128 states, of over 64 marks in its initial term or a
/// right-hand side, or of over 8,192 marks in all; the area then is as it was.
pub fn earliest_form(stock: &[u8], file: &[u8], area: &mut [u8]) -> Result<Form, Refusal> {
    form(ffi::earliest_form, stock, file, area)
}

/// Writes the normal form of a transducer to the start of `area` (the paper: cleaning).
///
/// It is the earliest form with equivalent states made one, numbered as first met: two transducers
/// over one stock have the same normal form exactly if their outputs are equal on every input tree.
/// Returns how many states and marks it has and how long its file is; what follows the file in the
/// area stays. Refuses by 1, 2, 4, 5 and 7 as [`earliest_form`] does; the area then is as it was.
pub fn clean(stock: &[u8], file: &[u8], area: &mut [u8]) -> Result<Form, Refusal> {
    form(ffi::clean, stock, file, area)
}

/// Writes the composition of two transducers to the start of `area` (the paper: the joined sheet).
///
/// Its output on an input tree is that of `second` on that of `first`; its input symbols are those of
/// the first stock and its output symbols those of the second. Its states are the pairs of a state of
/// the first and one of the second that are met from its initial term on, numbered as first met; its
/// initial term is what the initial term of the second gives on that of the first, and the right-hand
/// side of a pair what the second state gives on the right-hand side of the first one. Returns how many
/// states and marks it has and how long its file is; what follows the file in the area stays. Refuses by
/// 1 an area under 20,483 bytes, by 2 what is not a stock, first `first_stock` and then `second_stock`, by
/// 16 stocks of which the output symbols of the first are not the input symbols of the second, as many
/// and of the same ranks, by 4 and 5 as [`read_transducer`] does first `first` and then `second`, each
/// under its stock, and by 17 a composition of over 128 states, of over 64 marks in its initial term or a
/// right-hand side, or of over 8,192 marks in all; the area then is as it was.
pub fn join(
    first_stock: &[u8],
    second_stock: &[u8],
    first: &[u8],
    second: &[u8],
    area: &mut [u8],
) -> Result<Form, Refusal> {
    let (mut states, mut marks, mut length) = (0, 0, 0);
    let number = ffi::join(first_stock, second_stock, first, second, area, &mut states, &mut marks, &mut length);
    answer(number, || Form { states, marks, length })
}

/// Compares two transducers (the paper: whether two sheets sew alike).
///
/// Returns that they are equivalent; or a difference, whose input tree is written to the start of
/// `tree` and whose address to the start of `address`; which difference is the library's choice. What
/// follows them in the areas stays, and all of both where the two are equivalent. Refuses by 1 an area
/// under [`TREE_AREA`] or [`ADDRESS_AREA`] bytes, by 2 what is not a stock, by 4 and 5 as
/// [`read_transducer`] does first `first` and then `second`, and by 7 as [`earliest_form`] does first
/// `first` and then `second`; the areas then are as they were.
pub fn compare<'a>(
    stock: &[u8],
    first: &[u8],
    second: &[u8],
    tree: &'a mut [u8],
    address: &'a mut [u8],
) -> Result<Comparison<'a>, Refusal> {
    let (mut alike, mut nodes, mut numbers, mut left, mut right) = (0, 0, 0, 0, 0);
    let number =
        ffi::compare(stock, first, second, tree, address, &mut alike, &mut nodes, &mut numbers, &mut left, &mut right);
    answer(number, || match alike {
        1 => Comparison::Alike,
        _ => Comparison::Differ(Difference {
            tree: &tree[..nodes],
            address: &address[..numbers],
            first: left as u8,
            second: right as u8,
        }),
    })
}

/// Finds the shorter of two equivalent transducers.
///
/// Returns the marks of the one that has fewer, of `first` if both have as many, as a part of that
/// file; they are never empty. Returns `None` where the two differ, and where [`compare`] with areas
/// that are long enough would refuse.
pub fn shorter<'a>(stock: &[u8], first: &'a [u8], second: &'a [u8]) -> Option<&'a [u8]> {
    let (mut start, mut size) = (0, 0);
    let which = ffi::shorter(stock, first, second, &mut start, &mut size);
    match which {
        0 => None,
        1 => Some(&first[start..start + size]),
        _ => Some(&second[start..start + size]),
    }
}

/// Makes a registry of normal forms of transducers over one stock (the paper: a book).
///
/// It is the head, the first [`RECORDS`] records and the area, all of them lent to each call that has
/// to do with it, and holds the stock alone, whatever stood there before; the counts in these are 0.
/// Records past these, and the area behind the stock, stay. Refuses by 9 fewer records, by 2 what is not a
/// stock, and by 8 an area that is shorter than the stock; head, records and area then are as they were.
pub fn make_registry(head: &mut Head, records: &mut [Record], area: &mut [u8], stock: &[u8]) -> Result<(), Refusal> {
    let number = ffi::make_registry(head, records, area, stock);
    answer(number, || ())
}

/// Enters a transducer into a registry.
///
/// Returns the lowest number, from 1 on, under which its normal form is held; a normal form that is not
/// held is added behind the others and gets the next number. Either way one more answer is counted, in
/// the head and in the record of that number, and in no other. So two transducers get one number exactly
/// if they are equivalent, and the count of a record is how many entries were answered with its number.
///
/// Refuses by 9 what is not a registry, also where the counts of the first [`RECORDS`] records do not sum
/// to the answers of the head, or record 0 or an unused one has another count than 0, and one that has
/// counted as many answers as can be counted, which are [`u64::MAX`]; a count of 0 in a record that is
/// used is no fault. Then refuses by 4, 5 and 7 as [`clean`] does under the stock of the registry, and by
/// 8 a normal form that is not held where 32 are or the area has no room for it; head, records and area
/// then are as they were.
pub fn enter(head: &mut Head, records: &mut [Record], area: &mut [u8], file: &[u8]) -> Result<usize, Refusal> {
    let mut entered = 0;
    let number = ffi::enter(head, records, area, file, &mut entered);
    answer(number, || entered)
}

/// Asks which number an entry of a transducer would get, and for its normal form (the paper: looks before entering).
///
/// The registry is only read, and nothing is counted. Returns the number that [`enter`] would, and the length of
/// the normal form, which is written to the start of `out`; what follows it there stays. Refuses by 1 where `out`
/// is under 20,483 bytes, and by 9, 4, 5, 7 and 8 as [`enter`] would refuse the entry, also where no further answer
/// can be counted; `out` then is as it was.
pub fn question(head: &Head, records: &[Record], area: &[u8], file: &[u8], out: &mut [u8]) -> Result<Asked, Refusal> {
    let (mut asked, mut length) = (0, 0);
    let number = ffi::question(head, records, area, file, out, &mut asked, &mut length);
    answer(number, || Asked { number: asked, length })
}

/// Enters a transducer into a registry under the number that a question answered, its claim.
///
/// Does what [`enter`] does and returns the number, if it is the claim. After a [`question`] that was answered,
/// with no more than questions and refused calls between, and nobody else writing the registry, a commit of the
/// same file with the number of the answer is accepted with it. Any two entries or commits that are accepted get
/// one number exactly if the transducers are equivalent.
///
/// Refuses by 9, 4, 5, 7 and 8 as [`enter`] does, whatever the claim, and last by 13 where the entry would get
/// another number; head, records and area then are as they were.
pub fn commit(
    head: &mut Head,
    records: &mut [Record],
    area: &mut [u8],
    file: &[u8],
    claim: usize,
) -> Result<usize, Refusal> {
    let mut entered = 0;
    let number = ffi::commit(head, records, area, file, claim, &mut entered);
    answer(number, || entered)
}

/// Finds a normal form in a registry by its number.
///
/// Returns its file as a part of `area`; an empty part for 0, for a number that is not held, and where
/// [`enter`] would refuse by 9, for wrong counts too.
pub fn body<'a>(head: &Head, records: &[Record], area: &'a [u8], number: usize) -> &'a [u8] {
    let mut start = 0;
    let size = ffi::body(head, records, area, number, &mut start);
    &area[start..start + size]
}

/// Writes the codes of all 64 output symbols to the start of `area` (the paper: the codes of blocks).
///
/// A code is two bytes, a letter from `A` to `H` and a digit from `1` to `8`, and that of symbol k stands
/// from byte 2 k on. What follows them in the area stays. Refuses by 1 an area under [`CODES_AREA`]
/// bytes, which then is as it was.
pub fn write_codes(area: &mut [u8]) -> Result<(), Refusal> {
    answer(ffi::write_codes(area), || ())
}

/// Writes an output tree as XML to the start of `text` (the paper: a plan).
///
/// A symbol of rank 0 is an empty element, as `<A2/>`, and any other the element of its children, as
/// `<A1>`, these in their order and `</A1>`, named by the codes that [`write_codes`] gives; there is no
/// space, no declaration and no line end. Returns how long the text is, at most [`LONGEST_XML`]; what
/// follows it stays. Refuses by 2 what is not a stock, by 11 what is not one tree over its output symbols
/// or has more than [`MOST_XML_SYMBOLS`], of however many levels, and by 12 where `text` is shorter than
/// this very text; it then is as it was.
pub fn write_xml(stock: &[u8], tree: &[u8], text: &mut [u8]) -> Result<usize, Refusal> {
    let mut length = 0;
    let number = ffi::write_xml(stock, tree, text, &mut length);
    answer(number, || length)
}

/// Reads the XML of an output tree, which it writes to the start of `area`.
///
/// Just the texts are read that [`write_xml`] writes under the same stock, so that each of the two undoes
/// the other. Returns how many symbols the tree has, at most [`MOST_XML_SYMBOLS`]; what follows them in
/// the area stays. Refuses by 2 what is not a stock, by 11 any other text, and by 12 an area that has
/// fewer bytes than this tree has symbols; the area then is as it was.
pub fn read_xml(stock: &[u8], text: &[u8], area: &mut [u8]) -> Result<usize, Refusal> {
    let mut length = 0;
    let number = ffi::read_xml(stock, text, area, &mut length);
    answer(number, || length)
}
