//! What a transducer gives on a partial tree, by the definition (document 000, section 2.1; the paper: what
//! a sheet lays for a design with blanks, of document 02).
//!
//! A partial tree is an input tree with variables among its leaves, all of them different ones. A state on
//! a node gives its right-hand side there, with each call replaced by what it gives on the child; and on a
//! variable the call stays. So the definition is two functions that call each other, one for a state on a
//! partial tree and one for a term, down to 512 levels at most.
use super::{parse_transducer, read_alphabets, Transducer, MAX_LEVELS, MAX_NODES, NOT_A_TREE, OUTPUT_TOO_LONG};

/// What the transducer `file` gives on the partial tree `partial`, in preorder. In `partial` the number
/// after the last input symbol is a variable, and counts as a node like any other; in the answer the
/// number after the last output symbol is a call that stays (the paper: an open end). Refuses by 2, 4, 5,
/// by 3 what is not one partial tree of at most 4,096 nodes and 512 levels, and by 6 as soon as one byte
/// more than `limit` is due: what is built is never longer.
pub fn lay(stock: &[u8], file: &[u8], partial: &[u8], limit: usize) -> Result<Vec<u8>, u32> {
    let alphabets = read_alphabets(stock)?;
    let transducer = parse_transducer(alphabets, file)?;
    let tree = Partial::parse(alphabets.inputs, partial).ok_or(NOT_A_TREE)?;
    let call = alphabets.outputs.len() as u8;
    let mut laying = Laying { transducer: &transducer, call, limit, laid: Vec::new() };
    laying.term(transducer.terms[0], &[tree])?;
    Ok(laying.laid)
}

/// A partial tree.
enum Partial {
    /// A symbol over its children.
    Node { symbol: u8, children: Vec<Partial> },
    /// A leaf for which any tree may stand (the paper: a blank).
    Variable,
}

impl Partial {
    /// The partial tree that these bytes are in preorder, if they are one within the limits.
    fn parse(inputs: &[u8], bytes: &[u8]) -> Option<Self> {
        if bytes.len() > MAX_NODES {
            return None;
        }
        let mut rest = bytes;
        let tree = Partial::read(inputs, &mut rest, MAX_LEVELS)?;
        rest.is_empty().then_some(tree)
    }

    /// The partial tree at the start of `bytes`, which are left behind it, if it has at most so many levels.
    fn read(inputs: &[u8], bytes: &mut &[u8], levels: usize) -> Option<Self> {
        let below = levels.checked_sub(1)?;
        let symbol = *bytes.split_off_first()?;
        if usize::from(symbol) == inputs.len() {
            return Some(Partial::Variable);
        }
        let rank = *inputs.get(usize::from(symbol))?;
        let children = (0..rank).map(|_| Partial::read(inputs, bytes, below)).collect::<Option<_>>()?;
        Some(Partial::Node { symbol, children })
    }
}

/// A transducer, and what it has laid so far.
struct Laying<'t, 'a> {
    transducer: &'t Transducer<'a>,
    /// The byte of a call that stays.
    call: u8,
    /// The most bytes.
    limit: usize,
    laid: Vec<u8>,
}

impl Laying<'_, '_> {
    /// What a term gives, its calls being on these trees.
    fn term(&mut self, term: &[u8], trees: &[Partial]) -> Result<(), u32> {
        term.as_chunks().0.iter().try_for_each(|&[child, name]| match child {
            0 => self.put(name),
            _ => self.state(name, &trees[usize::from(child) - 1]),
        })
    }

    /// What a state gives on a partial tree.
    fn state(&mut self, state: u8, tree: &Partial) -> Result<(), u32> {
        match tree {
            Partial::Node { symbol, children } => self.term(self.transducer.right_hand_side(state, *symbol), children),
            Partial::Variable => self.put(self.call),
        }
    }

    fn put(&mut self, byte: u8) -> Result<(), u32> {
        if self.laid.len() == self.limit {
            return Err(OUTPUT_TOO_LONG);
        }
        self.laid.push(byte);
        Ok(())
    }
}
