//! Top-down tree transducers over files of bytes, written from the paper.
//!
//! Nothing here calls the proved library or is copied from it (docs/DECISIONS.md): the two share the
//! paper and no more, so that `tests/compare.rs` can hold one against the other and
//! `src/bin/bench.rs` has a plain Rust program to measure against.
//!
//! The paper's words, and the words used here: a stock is a pair of ranked *alphabets* (part kinds
//! are input symbols, block kinds are output symbols, and the places of a kind are its rank); a
//! design is an input *tree* and a plan an output tree; a sheet is a *transducer*, a pass a
//! *state*, a line a *right-hand side*, the opening the *initial term*, an open end a *call*;
//! a place is an *address*. A head is a *prefix*, the trimmed sheet the *earliest form*, and the clean
//! sheet the *minimal earliest transducer*. Sheets are *joined* to the composition of two transducers.
//! A blank is a *variable* of a *partial tree*.
//!
//! Every function answers `Result<_, u32>`, where the error is the paper's refusal number, and
//! tests in the paper's order: 1, 9, 2, 16, 11, 12, 4, 5, 3, 6, 10, 7, 8, then 13 or 17. A refusal changes nothing
//! that was lent.

mod book;
mod earliest;
mod join;
mod minimal;
mod partial;
mod search;
mod xml;

pub use book::{Book, Head, Record, MAX_HELD, RECORDS};
pub use earliest::{earliest, prefixes, Trimmed};
pub use join::{join, join_into};
pub use minimal::{clean, clean_into, compare, Verdict};
pub use partial::lay;
pub use search::{count_trees, search_difference};
pub use xml::{read_xml, write_xml, MAX_XML, MAX_XML_NODES};

/// Refusal 1: an area is shorter than its length in the paper.
pub const AREA_TOO_SHORT: u32 = 1;
/// Refusal 2: not a pair of ranked alphabets.
pub const NOT_ALPHABETS: u32 = 2;
/// Refusal 3: not an input tree, or over its limits.
pub const NOT_A_TREE: u32 = 3;
/// Refusal 4: the number of states, a count, their sum or a length is wrong.
pub const WRONG_COUNTS: u32 = 4;
/// Refusal 5: an initial term or a right-hand side is not one tree of known marks.
pub const WRONG_TERM: u32 = 5;
/// Refusal 6: the output tree has more symbols than its area has bytes.
pub const OUTPUT_TOO_LONG: u32 = 6;
/// Refusal 7: the earliest form passes a limit of transducers.
pub const OVER_LIMITS: u32 = 7;
/// Refusal 8: a book has no room.
pub const BOOK_FULL: u32 = 8;
/// Refusal 9: not a book.
pub const NOT_A_BOOK: u32 = 9;
/// Refusal 10: the output tree has too many levels.
pub const OUTPUT_TOO_DEEP: u32 = 10;
/// Refusal 11: not an output tree within the limits of XML, or not the XML of one.
pub const NOT_AN_OUTPUT: u32 = 11;
/// Refusal 12: the area is shorter than the result.
pub const TARGET_TOO_SHORT: u32 = 12;
/// Refusal 13: the entry of a commit would get another number.
pub const OTHER_NUMBER: u32 = 13;
/// Refusal 16: the output symbols of the first transducer are not the input symbols of the second.
pub const OTHER_ALPHABET: u32 = 16;
/// Refusal 17: the joined transducer passes a limit of transducers.
pub const JOIN_OVER_LIMITS: u32 = 17;

/// The most input symbols.
pub const MAX_INPUTS: usize = 16;
/// The most output symbols.
pub const MAX_OUTPUTS: usize = 64;
/// The highest rank of a symbol.
pub const MAX_RANK: u8 = 4;
/// The most nodes of an input tree.
pub const MAX_NODES: usize = 4096;
/// The most levels of an input tree; the root is level 1.
pub const MAX_LEVELS: usize = 512;
/// The most levels of an output tree that is given; the root is level 1.
pub const MAX_OUTPUT_LEVELS: usize = 256;
/// The most states.
pub const MAX_STATES: usize = 128;
/// The most marks of the initial term and of each right-hand side.
pub const MAX_TERM: usize = 64;
/// The most marks of a transducer.
pub const MAX_MARKS: usize = 8192;
/// The longest transducer's file: one byte, two for each count, two for each mark.
pub const MAX_FILE: usize = 1 + 2 * (1 + MAX_STATES * MAX_INPUTS) + 2 * MAX_MARKS;

/// The codes of all output symbols: a letter and a digit each.
pub const CODES: usize = 2 * MAX_OUTPUTS;

/// The two ranked alphabets: the rank of each symbol, a symbol being its index.
#[derive(Clone, Copy, Debug, PartialEq, Eq)]
pub struct Alphabets<'a> {
    /// The ranks of the input symbols.
    pub inputs: &'a [u8],
    /// The ranks of the output symbols.
    pub outputs: &'a [u8],
}

/// An input tree, in preorder.
#[derive(Clone, Debug, PartialEq, Eq)]
pub struct Tree<'a> {
    /// The symbol of each node.
    pub symbols: &'a [u8],
    /// The length of the longest path, in nodes.
    pub levels: usize,
    /// For each node, the index behind its sub-tree.
    ends: Vec<u16>,
}

/// A transducer, its counts and marks being parts of the file that was read.
#[derive(Clone, Debug, PartialEq, Eq)]
pub struct Transducer<'a> {
    /// The number of states.
    pub states: usize,
    /// The number of marks of the initial term and of each right-hand side, two bytes each.
    pub counts: &'a [u8],
    /// The marks, two bytes each.
    pub marks: &'a [u8],
    /// The marks of each term: term 0 is the initial term, and term `1 + state * inputs + symbol` a
    /// right-hand side.
    terms: Vec<&'a [u8]>,
    /// The number of input symbols.
    inputs: usize,
}

/// Reads the two alphabets of `stock`. Refuses by 2.
pub fn read_alphabets(stock: &[u8]) -> Result<Alphabets<'_>, u32> {
    let read = || {
        let (inputs, rest) = split_ranks(stock, MAX_INPUTS)?;
        let (outputs, rest) = split_ranks(rest, MAX_OUTPUTS)?;
        (rest.is_empty() && inputs.contains(&0)).then_some(Alphabets { inputs, outputs })
    };
    read().ok_or(NOT_ALPHABETS)
}

/// One alphabet, at the start of `bytes`: how many symbols, then their ranks. And what follows it.
fn split_ranks(bytes: &[u8], most: usize) -> Option<(&[u8], &[u8])> {
    let (&count, rest) = bytes.split_first()?;
    let count = usize::from(count);
    if count == 0 || count > most || count > rest.len() {
        return None;
    }
    let (ranks, rest) = rest.split_at(count);
    ranks.iter().all(|&rank| rank <= MAX_RANK).then_some((ranks, rest))
}

/// Reads the input tree `tree` under the alphabets of `stock`. Refuses by 2 and 3.
pub fn read_tree<'a>(stock: &[u8], tree: &'a [u8]) -> Result<Tree<'a>, u32> {
    parse_tree(read_alphabets(stock)?, tree).ok_or(NOT_A_TREE)
}

fn parse_tree<'a>(alphabets: Alphabets, symbols: &'a [u8]) -> Option<Tree<'a>> {
    if symbols.is_empty() || symbols.len() > MAX_NODES {
        return None;
    }
    let mut ends = vec![0; symbols.len()];
    let mut levels = 0;
    // The nodes above the one at hand, each with how many of its sub-trees have not ended yet.
    let mut above: Vec<(usize, u8)> = Vec::with_capacity(MAX_LEVELS);
    for (node, &symbol) in symbols.iter().enumerate() {
        let rank = *alphabets.inputs.get(usize::from(symbol))?;
        if above.is_empty() && node > 0 || above.len() == MAX_LEVELS {
            return None;
        }
        levels = levels.max(above.len() + 1);
        if rank > 0 {
            above.push((node, rank));
            continue;
        }
        let end = node + 1;
        ends[node] = end as u16;
        while let Some((parent, missing)) = above.last_mut() {
            *missing -= 1;
            if *missing > 0 {
                break;
            }
            ends[*parent] = end as u16;
            above.pop();
        }
    }
    above.is_empty().then_some(Tree { symbols, levels, ends })
}

impl Tree<'_> {
    /// The `index`-th of the neighbours that start with the node `first`, counted from 1.
    #[inline]
    fn neighbour(&self, first: usize, index: u8) -> usize {
        (1..index).fold(first, |node, _| usize::from(self.ends[node]))
    }
}

/// Reads the transducer `file` under the alphabets of `stock`. Refuses by 2, 4 and 5.
pub fn read_transducer<'a>(stock: &[u8], file: &'a [u8]) -> Result<Transducer<'a>, u32> {
    parse_transducer(read_alphabets(stock)?, file)
}

fn parse_transducer<'a>(alphabets: Alphabets, file: &'a [u8]) -> Result<Transducer<'a>, u32> {
    let (&states, rest) = file.split_first().ok_or(WRONG_COUNTS)?;
    let states = usize::from(states);
    let bytes = 2 * (1 + states * alphabets.inputs.len());
    if bytes > rest.len() {
        return Err(WRONG_COUNTS);
    }
    let (counts, marks) = rest.split_at(bytes);
    join_parts(alphabets, states, counts, marks)
}

/// The transducer of these parts, once they are found in order. Refuses by 4 and 5.
fn join_parts<'a>(
    alphabets: Alphabets,
    states: usize,
    counts: &'a [u8],
    marks: &'a [u8],
) -> Result<Transducer<'a>, u32> {
    let inputs = alphabets.inputs.len();
    if states > MAX_STATES || counts.len() != 2 * (1 + states * inputs) {
        return Err(WRONG_COUNTS);
    }
    let mut terms = Vec::with_capacity(counts.len() / 2);
    let mut rest = marks;
    for pair in counts.chunks_exact(2) {
        let count = usize::from(u16::from_be_bytes([pair[0], pair[1]]));
        if count == 0 || count > MAX_TERM {
            return Err(WRONG_COUNTS);
        }
        let (term, behind) = rest.split_at_checked(2 * count).ok_or(WRONG_COUNTS)?;
        terms.push(term);
        rest = behind;
    }
    if !rest.is_empty() || marks.len() > 2 * MAX_MARKS {
        return Err(WRONG_COUNTS);
    }
    let reaches = std::iter::once(&1).chain(alphabets.inputs.iter().cycle());
    if terms.iter().zip(reaches).all(|(term, &reach)| is_term(alphabets.outputs, states, reach, term)) {
        Ok(Transducer { states, counts, marks, terms, inputs })
    } else {
        Err(WRONG_TERM)
    }
}

/// Whether `term` is one whole tree of output symbols and of calls of states on sub-trees 1 to
/// `reach`.
fn is_term(outputs: &[u8], states: usize, reach: u8, term: &[u8]) -> bool {
    let mut owed = 1;
    for mark in term.chunks_exact(2) {
        let rank = match *mark {
            [0, symbol] => match outputs.get(usize::from(symbol)) {
                Some(&rank) => usize::from(rank),
                None => return false,
            },
            [child, state] if child <= reach && usize::from(state) < states => 0,
            _ => return false,
        };
        if owed == 0 {
            return false;
        }
        owed = owed - 1 + rank;
    }
    owed == 0
}

impl<'a> Transducer<'a> {
    /// The marks of the right-hand side of a state at an input symbol.
    #[inline]
    fn right_hand_side(&self, state: u8, symbol: u8) -> &'a [u8] {
        self.terms[1 + usize::from(state) * self.inputs + usize::from(symbol)]
    }

    /// The right-hand sides of a state, by input symbol.
    fn right_hand_sides(&self, state: u8) -> &[&'a [u8]] {
        let first = 1 + usize::from(state) * self.inputs;
        &self.terms[first..first + self.inputs]
    }
}

/// Writes the transducer with these parts to the start of `area`, and answers its length. Refuses
/// by 1 an area under 20,483 bytes, and by 2, 4 and 5 what [`read_transducer`] would.
pub fn write_transducer(
    stock: &[u8],
    states: usize,
    counts: &[u8],
    marks: &[u8],
    area: &mut [u8],
) -> Result<usize, u32> {
    if area.len() < MAX_FILE {
        return Err(AREA_TOO_SHORT);
    }
    join_parts(read_alphabets(stock)?, states, counts, marks)?;
    let behind_counts = 1 + counts.len();
    let length = behind_counts + marks.len();
    area[0] = states as u8;
    area[1..behind_counts].copy_from_slice(counts);
    area[behind_counts..length].copy_from_slice(marks);
    Ok(length)
}

/// Writes the codes of all output symbols to the start of `area`, each letter from A to H with each digit
/// from 1 to 8. Refuses by 1 an area that is too short for them.
pub fn write_codes(area: &mut [u8]) -> Result<(), u32> {
    let codes = (b'A'..=b'H').flat_map(|letter| (b'1'..=b'8').flat_map(move |digit| [letter, digit]));
    let start = area.get_mut(..CODES).ok_or(AREA_TOO_SHORT)?;
    start.iter_mut().zip(codes).for_each(|(byte, code)| *byte = code);
    Ok(())
}

/// Whether the transducer is linear (the paper: single): in the initial term, and in each right-hand
/// side of a state that is reached from it, no sub-tree is called twice. A state is reached if the
/// initial term calls it, or a right-hand side of a reached state does. Refuses by 2, 4 and 5.
pub fn is_linear(stock: &[u8], file: &[u8]) -> Result<bool, u32> {
    let transducer = read_transducer(stock, file)?;
    let mut met = [false; MAX_STATES];
    // The terms that are reached and not looked at yet: first the initial term, then all of a state.
    let mut waiting = vec![&transducer.terms[..1]];
    while let Some(terms) = waiting.pop() {
        for term in terms {
            if !calls_each_once(term) {
                return Ok(false);
            }
            for state in called_states(term) {
                if !std::mem::replace(&mut met[usize::from(state)], true) {
                    waiting.push(transducer.right_hand_sides(state));
                }
            }
        }
    }
    Ok(true)
}

/// The states that `term` calls.
fn called_states(term: &[u8]) -> impl Iterator<Item = u8> + '_ {
    term.chunks_exact(2).filter(|mark| mark[0] != 0).map(|mark| mark[1])
}

/// Whether no two calls of `term` are on one sub-tree.
fn calls_each_once(term: &[u8]) -> bool {
    let mut called = [false; 1 + MAX_RANK as usize];
    term.chunks_exact(2)
        .filter(|mark| mark[0] != 0)
        .all(|mark| !std::mem::replace(&mut called[usize::from(mark[0])], true))
}

/// The output tree of the transducer `file` on the input tree `tree`, of at most `limit` symbols and
/// [`MAX_OUTPUT_LEVELS`] levels. Refuses by 2, 4, 5, 3 and 6 as [`output_tree`] does, and then by 10.
pub fn translate(stock: &[u8], file: &[u8], tree: &[u8], limit: usize) -> Result<Vec<u8>, u32> {
    let output = output_tree(stock, file, tree, limit)?;
    if levels(read_alphabets(stock)?.outputs, &output) > MAX_OUTPUT_LEVELS {
        return Err(OUTPUT_TOO_DEEP);
    }
    Ok(output)
}

/// The nodes of the longest path of an output tree.
fn levels(outputs: &[u8], tree: &[u8]) -> usize {
    let mut levels = 0;
    // For each node above the one at hand, how many of its sub-trees have not ended yet.
    let mut above: Vec<u8> = Vec::new();
    for &symbol in tree {
        levels = levels.max(above.len() + 1);
        let rank = outputs[usize::from(symbol)];
        if rank > 0 {
            above.push(rank);
            continue;
        }
        while let Some(missing) = above.last_mut() {
            *missing -= 1;
            if *missing > 0 {
                break;
            }
            above.pop();
        }
    }
    levels
}

/// The output tree of the transducer `file` on the input tree `tree`, of at most `limit` symbols and
/// any number of levels. Refuses by 2, 4, 5, 3 and 6, the last as soon as one symbol more is due: what
/// is built is never longer than `limit`.
pub fn output_tree(stock: &[u8], file: &[u8], tree: &[u8], limit: usize) -> Result<Vec<u8>, u32> {
    let alphabets = read_alphabets(stock)?;
    let transducer = parse_transducer(alphabets, file)?;
    let tree = parse_tree(alphabets, tree).ok_or(NOT_A_TREE)?;
    let mut output = Vec::with_capacity(limit.min(2 * tree.symbols.len()));
    // A term's marks and an output tree both are in preorder, so what a call gives stands where the
    // call does. `term` is what is left of the term at hand, and its calls are on the neighbours from
    // the node `first` on: the children of a node, or for the initial term the root alone. The terms
    // above it that are not at their end wait, at most one for each level of the tree.
    let mut term = transducer.terms[0];
    let mut first = 0;
    let mut waiting: Vec<(&[u8], usize)> = Vec::with_capacity(tree.levels);
    loop {
        while let Some((&[child, name], rest)) = term.split_first_chunk() {
            term = rest;
            if child == 0 {
                if output.len() == limit {
                    return Err(OUTPUT_TOO_LONG);
                }
                output.push(name);
            } else {
                if !rest.is_empty() {
                    waiting.push((rest, first));
                }
                let node = tree.neighbour(first, child);
                term = transducer.right_hand_side(name, tree.symbols[node]);
                first = node + 1;
            }
        }
        match waiting.pop() {
            Some(next) => (term, first) = next,
            None => return Ok(output),
        }
    }
}

/// Writes the output tree to the start of `area`, and answers its length. Refuses as [`translate`]
/// does, with the area's length as the limit.
pub fn translate_into(stock: &[u8], file: &[u8], tree: &[u8], area: &mut [u8]) -> Result<usize, u32> {
    let output = translate(stock, file, tree, area.len())?;
    area[..output.len()].copy_from_slice(&output);
    Ok(output.len())
}

/// The output tree's symbol at `address`, or `None` where it has no such address. Walks down the
/// address and builds no output tree: the cost past the reading is at most one pass over a
/// right-hand side for each level of the input tree. Refuses by 2, 4, 5 and 3.
pub fn symbol_at(stock: &[u8], file: &[u8], tree: &[u8], address: &[u8]) -> Result<Option<u8>, u32> {
    let alphabets = read_alphabets(stock)?;
    let transducer = parse_transducer(alphabets, file)?;
    let tree = parse_tree(alphabets, tree).ok_or(NOT_A_TREE)?;
    // The walk stands before the marks of `term`, whose calls are on the neighbours from `first` on.
    let mut term = transducer.terms[0];
    let mut first = 0;
    let mut steps = address.iter();
    loop {
        if term[0] != 0 {
            let node = tree.neighbour(first, term[0]);
            term = transducer.right_hand_side(term[1], tree.symbols[node]);
            first = node + 1;
            continue;
        }
        let symbol = term[1];
        let Some(&step) = steps.next() else {
            return Ok(Some(symbol));
        };
        if step == 0 || step > alphabets.outputs[usize::from(symbol)] {
            return Ok(None);
        }
        term = skip_trees(alphabets.outputs, &term[2..], usize::from(step) - 1);
    }
}

/// What is left of `term` behind its first `owed` trees.
fn skip_trees<'a>(outputs: &[u8], mut term: &'a [u8], mut owed: usize) -> &'a [u8] {
    while owed > 0 {
        let rank = if term[0] == 0 { outputs[usize::from(term[1])] } else { 0 };
        owed = owed - 1 + usize::from(rank);
        term = &term[2..];
    }
    term
}
