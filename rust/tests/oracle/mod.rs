//! Prefixes, earliest form, minimal transducer and joined transducer once more, by the definitions word
//! for word and without a thought for speed: terms are trees, open ends are addresses, prefixes are the
//! section's fixpoint iteration over trees, and states are merged by Moore's rounds.
use std::collections::HashMap;

/// A term. The calls of the earliest form name a state and an address in its prefix.
#[derive(Clone, Debug, PartialEq, Eq)]
pub enum Term {
    Symbol(u8, Vec<Term>),
    Call(u8, u8, Vec<u8>),
    /// An open end of a pattern.
    Open,
}

use Term::{Call, Open, Symbol};

impl Term {
    fn read(outputs: &[u8], marks: &mut std::slice::Iter<u8>) -> Term {
        match (*marks.next().unwrap(), *marks.next().unwrap()) {
            (0, symbol) => {
                let children = (0..outputs[usize::from(symbol)]).map(|_| Term::read(outputs, marks));
                Symbol(symbol, children.collect())
            }
            (child, state) => Call(child, state, vec![]),
        }
    }

    /// An output tree, in preorder.
    pub fn tree(outputs: &[u8], symbols: &mut std::slice::Iter<u8>) -> Term {
        let symbol = *symbols.next().expect("the tree is whole");
        Symbol(symbol, (0..outputs[usize::from(symbol)]).map(|_| Term::tree(outputs, symbols)).collect())
    }

    /// The least upper bound of two patterns.
    pub fn join(&self, other: &Term) -> Term {
        match (self, other) {
            (Symbol(one, children), Symbol(two, others)) if one == two => {
                Symbol(*one, children.iter().zip(others).map(|(child, other)| child.join(other)).collect())
            }
            _ => Open,
        }
    }

    /// The term with each call replaced by the pattern of its state, if there is one for each.
    fn substitute(&self, patterns: &[Option<Term>]) -> Option<Term> {
        match self {
            Symbol(symbol, children) => {
                let children: Option<Vec<Term>> = children.iter().map(|child| child.substitute(patterns)).collect();
                Some(Symbol(*symbol, children?))
            }
            Call(_, state, _) => patterns[usize::from(*state)].clone(),
            Open => unreachable!("a term has no open ends"),
        }
    }

    /// The pattern with calls of its open ends, which are those of a state's prefix at these
    /// addresses, on a sub-tree.
    fn called(&self, child: u8, state: u8, address: &[u8]) -> Term {
        match self {
            Symbol(symbol, children) => {
                let below = (1..).zip(children).map(|(k, below)| below.called(child, state, &[address, &[k]].concat()));
                Symbol(*symbol, below.collect())
            }
            _ => Call(child, state, address.to_vec()),
        }
    }

    /// The term with each call replaced by the prefix of its state, with calls as open ends.
    fn with_prefixes(&self, prefixes: &[Term]) -> Term {
        match self {
            Symbol(symbol, children) => {
                Symbol(*symbol, children.iter().map(|child| child.with_prefixes(prefixes)).collect())
            }
            Call(child, state, _) => prefixes[usize::from(*state)].called(*child, *state, &[]),
            Open => unreachable!("a term has no open ends"),
        }
    }

    fn at(&self, address: &[u8]) -> &Term {
        match (self, address) {
            (_, []) => self,
            (Symbol(_, children), [first, rest @ ..]) => children[usize::from(*first) - 1].at(rest),
            _ => unreachable!("the address is one of the prefix"),
        }
    }

    /// The marks, calls being named by `name`.
    fn marks(&self, name: &mut impl FnMut(u8, &[u8]) -> u8, marks: &mut Vec<u8>) {
        match self {
            Symbol(symbol, children) => {
                marks.extend([0, *symbol]);
                children.iter().for_each(|child| child.marks(name, marks));
            }
            Call(child, state, address) => marks.extend([*child, name(*state, address)]),
            Open => unreachable!("a term has no open ends"),
        }
    }

    /// The addresses of a pattern's open ends, from left to right.
    fn open_ends(&self) -> Vec<Vec<u8>> {
        match self {
            Symbol(_, children) => {
                let below = |(k, child): (u8, &Term)| child.open_ends().into_iter().map(move |v| [vec![k], v].concat());
                (1..).zip(children).flat_map(below).collect()
            }
            _ => vec![vec![]],
        }
    }

    /// The pattern in preorder.
    pub fn preorder(&self) -> Vec<Option<u8>> {
        match self {
            Symbol(symbol, children) => {
                std::iter::once(Some(*symbol)).chain(children.iter().flat_map(Term::preorder)).collect()
            }
            _ => vec![None],
        }
    }
}

/// What is made of a transducer that is read without a refusal.
pub struct Oracle {
    inputs: Vec<u8>,
    /// The initial term and the right-hand sides.
    terms: Vec<Term>,
    pub prefixes: Vec<Term>,
    /// The rounds of the iteration.
    pub rounds: usize,
}

/// A transducer by the marks of its terms.
#[derive(Clone, PartialEq, Eq, Debug)]
pub struct Plain {
    pub states: usize,
    pub terms: Vec<Vec<u8>>,
}

impl Plain {
    pub fn file(&self) -> Vec<u8> {
        let counts = self.terms.iter().flat_map(|term| ((term.len() / 2) as u16).to_be_bytes());
        std::iter::once(self.states as u8).chain(counts).chain(self.terms.concat()).collect()
    }
}

impl Oracle {
    pub fn new(inputs: &[u8], outputs: &[u8], states: usize, marks: &[u8]) -> Self {
        let mut marks = marks.iter();
        let count = 1 + states * inputs.len();
        let terms: Vec<Term> = (0..count).map(|_| Term::read(outputs, &mut marks)).collect();
        let mut patterns: Vec<Option<Term>> = vec![None; states];
        let mut rounds = 0;
        loop {
            let next: Vec<Option<Term>> = (0..states)
                .map(|state| {
                    let sides = &terms[1 + state * inputs.len()..][..inputs.len()];
                    let sides = sides.iter().filter_map(|side| side.substitute(&patterns));
                    sides.reduce(|one, other| one.join(&other))
                })
                .collect();
            if next == patterns {
                break;
            }
            patterns = next;
            rounds += 1;
        }
        let prefixes = patterns.into_iter().map(|pattern| pattern.expect("there are outputs")).collect();
        Oracle { inputs: inputs.to_vec(), terms, prefixes, rounds }
    }

    /// The earliest form with the pairs that its states are, or `None` if it is over the limits.
    pub fn earliest(&self) -> Option<(Plain, Vec<(u8, u8)>)> {
        let mut met: Vec<(u8, Vec<u8>)> = Vec::new();
        let mut terms = Vec::new();
        let mut write = |term: &Term, met: &mut Vec<(u8, Vec<u8>)>| {
            let mut marks = Vec::new();
            let mut name = |state: u8, address: &[u8]| {
                let number = met.iter().position(|(q, v)| *q == state && v == address).unwrap_or_else(|| {
                    met.push((state, address.to_vec()));
                    met.len() - 1
                });
                number.min(255) as u8
            };
            term.marks(&mut name, &mut marks);
            terms.push(marks);
        };
        write(&self.terms[0].with_prefixes(&self.prefixes), &mut met);
        let mut next = 0;
        while next < met.len() {
            if met.len() > 128 {
                return None;
            }
            let (state, address) = met[next].clone();
            for symbol in 0..self.inputs.len() {
                let side = &self.terms[1 + usize::from(state) * self.inputs.len() + symbol];
                write(side.with_prefixes(&self.prefixes).at(&address), &mut met);
            }
            next += 1;
        }
        let within = terms.iter().all(|term| term.len() <= 128) && terms.iter().map(Vec::len).sum::<usize>() <= 16384;
        let pairs = met.iter().map(|(state, address)| {
            let open_ends = self.prefixes[usize::from(*state)].open_ends();
            (*state, open_ends.iter().position(|open| open == address).expect("an open end") as u8)
        });
        (met.len() <= 128 && within).then(|| (Plain { states: met.len(), terms }, pairs.collect()))
    }

    /// The earliest form with equal states merged, numbered as first met.
    pub fn merge(&self, earliest: &Plain) -> Plain {
        let inputs = self.inputs.len();
        let sides = |state: usize| &earliest.terms[1 + state * inputs..][..inputs];
        let mut classes = vec![0; earliest.states];
        loop {
            let named = |term: &Vec<u8>| -> Vec<[usize; 2]> {
                let mark = |mark: &[u8]| match mark[0] {
                    0 => [0, mark[1].into()],
                    child => [child.into(), classes[usize::from(mark[1])]],
                };
                term.chunks(2).map(mark).collect()
            };
            let mut seen = HashMap::new();
            let next: Vec<usize> = (0..earliest.states)
                .map(|state| {
                    let count = seen.len();
                    let signature = sides(state).iter().map(named).collect::<Vec<_>>();
                    *seen.entry((classes[state], signature)).or_insert(count)
                })
                .collect();
            if next == classes {
                break;
            }
            classes = next;
        }
        // a class is read through any of its states
        let mut met: Vec<usize> = Vec::new();
        let mut terms = Vec::new();
        let mut read = |term: &Vec<u8>, met: &mut Vec<usize>| {
            let mut marks = Vec::new();
            for mark in term.chunks(2) {
                if mark[0] == 0 {
                    marks.extend(mark);
                    continue;
                }
                let class = classes[usize::from(mark[1])];
                let number = met.iter().position(|&other| other == class).unwrap_or_else(|| {
                    met.push(class);
                    met.len() - 1
                });
                marks.extend([mark[0], number as u8]);
            }
            terms.push(marks);
        };
        read(&earliest.terms[0], &mut met);
        let mut next = 0;
        while next < met.len() {
            let state = classes.iter().rposition(|&class| class == met[next]).expect("a class has a state");
            sides(state).iter().for_each(|side| read(side, &mut met));
            next += 1;
        }
        Plain { states: met.len(), terms }
    }
}

/// Two transducers, the second of which runs on the output of the first.
pub struct Join {
    /// The initial terms and right-hand sides of the first and of the second.
    terms: [Vec<Term>; 2],
    /// The numbers of input symbols.
    inputs: [usize; 2],
}

impl Join {
    /// By the numbers of input symbols, the ranks of the output symbols, and the marks.
    pub fn new(inputs: [usize; 2], outputs: [&[u8]; 2], marks: [&[u8]; 2]) -> Self {
        let terms = [0, 1].map(|which| {
            let mut marks = marks[which].iter();
            std::iter::from_fn(|| (marks.len() > 0).then(|| Term::read(outputs[which], &mut marks))).collect()
        });
        Join { terms, inputs }
    }

    /// What a term of the second gives, its calls being on these trees: a call of the first that it meets
    /// is the call of a pair, of which the second state stands as the address. `None` if it has more marks
    /// than are left.
    fn given(&self, term: &Term, trees: &[Term], left: &mut usize) -> Option<Term> {
        if let Call(child, state, _) = term {
            if let Symbol(symbol, below) = &trees[usize::from(*child) - 1] {
                let side = 1 + usize::from(*state) * self.inputs[1] + usize::from(*symbol);
                return self.given(&self.terms[1][side], below, left);
            }
        }
        *left = left.checked_sub(1)?;
        match term {
            Symbol(symbol, below) => {
                let below: Option<Vec<Term>> = below.iter().map(|term| self.given(term, trees, left)).collect();
                Some(Symbol(*symbol, below?))
            }
            Call(child, second, _) => match &trees[usize::from(*child) - 1] {
                Call(child, first, _) => Some(Call(*child, *first, vec![*second])),
                _ => unreachable!("a term has no open ends"),
            },
            Open => unreachable!("a term has no open ends"),
        }
    }

    /// The joined transducer; or which of its limits it passes first.
    pub fn joined(&self) -> Result<Plain, &'static str> {
        let mut met: Vec<(u8, u8)> = Vec::new();
        let mut terms: Vec<Vec<u8>> = Vec::new();
        let mut write = |term: &Term, tree: &Term, met: &mut Vec<(u8, u8)>| {
            let given = self.given(term, std::slice::from_ref(tree), &mut 64).ok_or("over 64 marks in a term")?;
            let mut name = |first: u8, second: &[u8]| {
                let pair = (first, second[0]);
                let number = met.iter().position(|&other| other == pair).unwrap_or_else(|| {
                    met.push(pair);
                    met.len() - 1
                });
                number as u8
            };
            let mut marks = Vec::new();
            given.marks(&mut name, &mut marks);
            terms.push(marks);
            match terms.iter().map(Vec::len).sum::<usize>() {
                _ if met.len() > 128 => Err("over 128 states"),
                bytes if bytes > 2 * 8192 => Err("over 8,192 marks"),
                _ => Ok(()),
            }
        };
        write(&self.terms[1][0], &self.terms[0][0], &mut met)?;
        let mut next = 0;
        while next < met.len() {
            let (first, second) = met[next];
            for symbol in 0..self.inputs[0] {
                let side = &self.terms[0][1 + usize::from(first) * self.inputs[0] + symbol];
                write(&Call(1, second, vec![]), side, &mut met)?;
            }
            next += 1;
        }
        Ok(Plain { states: met.len(), terms })
    }
}
