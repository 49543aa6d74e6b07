//! Two transducers joined into one, by the product construction (Baker, *Composition of top-down and
//! bottom-up tree transductions*, 1979).
//!
//! A state of the second transducer, run on a right-hand side of the first, gives a term: at a symbol
//! it goes on by its own right-hand side there, and at a call of the first transducer it stops, as the
//! call of a *pair* of states on the same sub-tree. The pairs are the states of the joined transducer.
//!
//! Such a term may be far too long to be built: where the second transducer doubles what is below each
//! of 63 symbols it has over 2^63 marks. So the marks are counted first, once for each state and symbol
//! that meet, by numbers that stay at their highest value, and only what is within the limits is
//! written.
use super::{
    parse_transducer, read_alphabets, Transducer, AREA_TOO_SHORT, JOIN_OVER_LIMITS, MAX_FILE, MAX_MARKS, MAX_STATES,
    MAX_TERM, OTHER_ALPHABET,
};

/// The file of the transducer whose output is that of `second` on the output of `first` (the paper:
/// the joined sheet), over the input symbols of the first stock and the output symbols of the second.
/// Its states are the pairs met from its initial term on, numbered as first met. Refuses by 2 for
/// `first_stock`, by 2 for `second_stock`, by 16 where the output symbols of the first are not the input
/// symbols of the second, by 4 and 5 for `first`, by 4 and 5 for `second`, and by 17 a joined transducer
/// of over 128 states, of over 64 marks in its initial term or a right-hand side, or of over 8,192 marks
/// in all.
pub fn join(first_stock: &[u8], second_stock: &[u8], first: &[u8], second: &[u8]) -> Result<Vec<u8>, u32> {
    let first_alphabets = read_alphabets(first_stock)?;
    let second_alphabets = read_alphabets(second_stock)?;
    if first_alphabets.outputs != second_alphabets.inputs {
        return Err(OTHER_ALPHABET);
    }
    let first = parse_transducer(first_alphabets, first)?;
    let second = parse_transducer(second_alphabets, second)?;
    Joined::new(first_alphabets.outputs, &first, &second).write().ok_or(JOIN_OVER_LIMITS)
}

/// Writes what [`join`] gives to the start of `area`, and answers its length. Refuses by 1 an area under
/// 20,483 bytes, and by 2, 16, 4, 5 and 17.
pub fn join_into(
    first_stock: &[u8],
    second_stock: &[u8],
    first: &[u8],
    second: &[u8],
    area: &mut [u8],
) -> Result<usize, u32> {
    if area.len() < MAX_FILE {
        return Err(AREA_TOO_SHORT);
    }
    let joined = join(first_stock, second_stock, first, second)?;
    area[..joined.len()].copy_from_slice(&joined);
    Ok(joined.len())
}

/// A term of the first transducer.
enum Term {
    /// A symbol over its sub-trees, and how many symbols stand before it.
    Symbol { before: usize, symbol: u8, below: Vec<Term> },
    /// A call of a state on a sub-tree of the input tree.
    Call { child: u8, state: u8 },
}

impl Term {
    /// The tree at the start of `marks`, which are left behind it. `symbols` are read before it.
    fn read(outputs: &[u8], marks: &mut &[u8], symbols: &mut usize) -> Term {
        let (&[child, name], rest) = marks.split_first_chunk().expect("the term is a tree");
        *marks = rest;
        if child != 0 {
            return Term::Call { child, state: name };
        }
        let before = *symbols;
        *symbols += 1;
        let below = (0..outputs[usize::from(name)]).map(|_| Term::read(outputs, marks, symbols)).collect();
        Term::Symbol { before, symbol: name, below }
    }
}

/// A term of the first transducer, and what is known of it.
struct Known {
    term: Term,
    /// For each symbol of the term and each state of the second transducer the number of marks that the
    /// state gives on the tree at that symbol; 0 where it is not counted yet.
    marks: Vec<u64>,
}

/// The number of marks that a term of the second transducer gives, its calls being on these trees.
fn count(second: &Transducer, term: &[u8], trees: &[Term], known: &mut [u64]) -> u64 {
    let mut marks = 0u64;
    for &[child, name] in term.as_chunks().0 {
        let more = match usize::from(child).checked_sub(1).map(|child| &trees[child]) {
            None | Some(Term::Call { .. }) => 1,
            Some(Term::Symbol { before, symbol, below }) => {
                let at = before * second.states + usize::from(name);
                if known[at] == 0 {
                    known[at] = count(second, second.right_hand_side(name, *symbol), below, known);
                }
                known[at]
            }
        };
        marks = marks.saturating_add(more);
    }
    marks
}

/// The joined transducer, as far as it is written.
struct Joined<'t, 'a> {
    /// The ranks of the output symbols of the first transducer.
    outputs: &'a [u8],
    first: &'t Transducer<'a>,
    second: &'t Transducer<'a>,
    /// The terms of the first transducer, once they are needed.
    terms: Vec<Option<Known>>,
    /// For each pair of states its number, or `UNMET`.
    numbers: Vec<u8>,
    /// The pairs met.
    met: Vec<(u8, u8)>,
    counts: Vec<u8>,
    marks: Vec<u8>,
}

const UNMET: u8 = u8::MAX;

impl<'t, 'a> Joined<'t, 'a> {
    fn new(outputs: &'a [u8], first: &'t Transducer<'a>, second: &'t Transducer<'a>) -> Self {
        let terms = first.terms.iter().map(|_| None).collect();
        let numbers = vec![UNMET; first.states * second.states];
        Joined { outputs, first, second, terms, numbers, met: Vec::new(), counts: Vec::new(), marks: Vec::new() }
    }

    /// The file, unless a limit is passed. What is written only grows, so that a limit passed on the way
    /// is passed in the end.
    fn write(mut self) -> Option<Vec<u8>> {
        // What the second transducer's initial term gives on the first's; and what a state of the second
        // gives on a right-hand side is what the call of that state gives there.
        self.term(self.second.terms[0], 0)?;
        let mut next = 0;
        while let Some(&(state, other)) = self.met.get(next) {
            for symbol in 0..self.first.inputs {
                self.term(&[1, other], 1 + usize::from(state) * self.first.inputs + symbol)?;
            }
            next += 1;
        }
        Some([&[self.met.len() as u8], &self.counts[..], &self.marks[..]].concat())
    }

    /// Writes what `term` gives on the term of this number of the first transducer, as the next term.
    fn term(&mut self, term: &[u8], number: usize) -> Option<()> {
        let mut known = self.terms[number].take().unwrap_or_else(|| {
            let mut symbols = 0;
            let term = Term::read(self.outputs, &mut &self.first.terms[number][..], &mut symbols);
            Known { term, marks: vec![0; symbols * self.second.states] }
        });
        let trees = std::slice::from_ref(&known.term);
        let count = count(self.second, term, trees, &mut known.marks);
        if count > MAX_TERM as u64 || self.marks.len() / 2 + count as usize > MAX_MARKS {
            return None;
        }
        self.counts.extend((count as u16).to_be_bytes());
        self.write_on(term, trees)?;
        self.terms[number] = Some(known);
        Some(())
    }

    /// Writes what a term of the second transducer gives, its calls being on these trees.
    fn write_on(&mut self, term: &[u8], trees: &[Term]) -> Option<()> {
        for &[child, name] in term.as_chunks().0 {
            match usize::from(child).checked_sub(1).map(|child| &trees[child]) {
                None => self.marks.extend([0, name]),
                Some(&Term::Call { child, state }) => {
                    let number = self.number(state, name)?;
                    self.marks.extend([child, number]);
                }
                Some(Term::Symbol { symbol, below, .. }) => {
                    self.write_on(self.second.right_hand_side(name, *symbol), below)?
                }
            }
        }
        Some(())
    }

    /// The number of a pair, the next one where it is first met.
    fn number(&mut self, state: u8, other: u8) -> Option<u8> {
        let number = &mut self.numbers[usize::from(state) * self.second.states + usize::from(other)];
        if *number == UNMET {
            if self.met.len() == MAX_STATES {
                return None;
            }
            *number = self.met.len() as u8;
            self.met.push((state, other));
        }
        Some(*number)
    }
}
