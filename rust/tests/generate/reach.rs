//! Transducers of which some states are not reached, and what is reached in them.
use super::{Alphabets, Random, Transducer};
use std::ops::Range;

/// Whether a term calls a child twice.
fn copies(term: &[u8]) -> bool {
    let mut children: Vec<u8> = term.chunks(2).map(|mark| mark[0]).filter(|&child| child > 0).collect();
    children.sort_unstable();
    children.windows(2).any(|pair| pair[0] == pair[1])
}

/// Who calls whom. A set of states is a number, of which state q is bit q.
pub struct Calls {
    /// The states that the initial term calls.
    pub initial: u128,
    /// For each state those that its right-hand sides call.
    pub states: Vec<u128>,
    /// Whether the initial term calls a child twice.
    pub initial_copies: bool,
    /// The states of which a right-hand side does.
    pub copying: u128,
}

impl Calls {
    pub fn of(sheet: &Transducer) -> Self {
        let called = |term: &Vec<u8>| term.chunks(2).filter(|mark| mark[0] > 0).fold(0, |set, mark| set | 1 << mark[1]);
        let sides = |state| sheet.right_hand_sides(state).iter();
        let copying = (0..sheet.states).filter(|&state| sides(state).any(|side| copies(side)));
        Calls {
            initial: called(&sheet.terms[0]),
            states: (0..sheet.states).map(|state| sides(state).fold(0, |set, side| set | called(side))).collect(),
            initial_copies: copies(&sheet.terms[0]),
            copying: copying.fold(0, |set, state| set | 1 << state),
        }
    }

    /// The states that are reached, by Warshall's closure of who calls whom.
    pub fn reached(&self) -> u128 {
        let mut closed = self.states.clone();
        for middle in 0..closed.len() {
            let behind = closed[middle];
            closed.iter_mut().filter(|set| **set >> middle & 1 == 1).for_each(|set| *set |= behind);
        }
        members(self.initial).fold(self.initial, |reached, state| reached | closed[state])
    }

    /// How many calls from the initial term on the nearest term is that calls a child twice, if one is reached: 0 for
    /// the initial term itself, 1 for the states that it calls, and so on.
    pub fn nearest_copy(&self) -> Option<usize> {
        if self.initial_copies {
            return Some(0);
        }
        let (mut within, mut calls) = (self.initial, 1);
        while within & self.copying == 0 {
            let more = members(within).fold(within, |more, state| more | self.states[state]);
            if more == within {
                return None;
            }
            (within, calls) = (more, calls + 1);
        }
        Some(calls)
    }
}

/// The states of a set.
pub fn members(set: u128) -> impl Iterator<Item = usize> {
    (0..128).filter(move |state| set >> state & 1 == 1)
}

impl Transducer {
    /// Whether a term calls a child twice, be its state reached or not: document 01's test, which did not ask.
    pub fn copies(&self) -> bool {
        self.terms.iter().any(|term| copies(term))
    }

    /// With the states of this set alone, in their order. The initial term and these states call no others.
    pub fn only(&self, kept: u128) -> Self {
        let sides = members(kept).flat_map(|state| self.right_hand_sides(state));
        let terms = self.terms[..1].iter().chain(sides).cloned().collect();
        let mut only = Transducer { states: kept.count_ones() as usize, terms };
        only.rename(|child, state| vec![child, (kept & ((1 << state) - 1)).count_ones() as u8]);
        only
    }
}

/// Alphabets with an input symbol and an output symbol that have children, and an output symbol with two or more.
fn alphabets(random: &mut Random) -> Alphabets {
    let last = [vec![0; 15], vec![1]].concat();
    let most = [vec![1; 15], vec![0]].concat();
    let inputs: &[u8] = match random.below(12) {
        0 => &last,
        1 => &most,
        _ => random.pick(&[&[1, 0][..], &[1, 0], &[1, 1, 0], &[2, 0], &[0, 1, 2], &[0, 0, 1], &[4, 0], &[3, 1, 0]]),
    };
    let outputs: &[u8] = random.pick(&[&[2, 0][..], &[2, 0], &[0, 2, 1], &[3, 0], &[1, 4, 0, 0]]);
    Alphabets { inputs: inputs.to_vec(), outputs: outputs.to_vec() }
}

/// Alphabets and a transducer within the limits: some have states that are not reached, and that call a child twice,
/// themselves, or what is reached; in some the way to a state is long.
pub fn any(random: &mut Random) -> (Alphabets, Transducer) {
    loop {
        let alphabets = alphabets(random);
        let sheet = Draft::random(random, &alphabets).transducer(random);
        if sheet.fits() {
            let sheet = if random.once_in(3) { sheet } else { sheet.permuted(random) };
            return (alphabets, sheet);
        }
    }
}

/// The calls of a transducer that is being made. The states that are reached come first. Callers are numbered from 0
/// on: the initial term, and then the states.
struct Draft<'a> {
    alphabets: &'a Alphabets,
    reached: usize,
    states: usize,
    /// The calls of each term.
    calls: Vec<Vec<[u8; 2]>>,
}

impl<'a> Draft<'a> {
    fn random(random: &mut Random, alphabets: &'a Alphabets) -> Self {
        let (reached, others) = match random.below(10) {
            0 => (0, random.range(0, 4)),
            1 => {
                let reached = random.range(1, 128);
                (reached, random.range(0, 128 - reached))
            }
            2 => {
                let reached = random.pick(&[1, 2, 64, 126, 127, 128]);
                (reached, 128 - reached)
            }
            _ => (random.range(1, 6), random.pick(&[0, 0, 1, 1, 2, 3])),
        };
        let states = reached + others;
        let calls = vec![vec![]; 1 + states * alphabets.inputs.len()];
        let mut draft = Draft { alphabets, reached, states, calls };
        draft.reach_states(random);
        draft.call_more(random);
        draft.copy_some(random);
        draft
    }

    fn terms(&self, caller: usize) -> Range<usize> {
        let inputs = self.alphabets.inputs.len();
        caller.checked_sub(1).map_or(0..1, |state| 1 + state * inputs..1 + (state + 1) * inputs)
    }

    /// The terms of a caller with the children that they can call.
    fn children(&self, caller: usize) -> Vec<(usize, u8)> {
        let rank = |term: usize| if caller == 0 { 1 } else { self.alphabets.inputs[term - self.terms(caller).start] };
        self.terms(caller).flat_map(|term| (1..=rank(term)).map(move |child| (term, child))).collect()
    }

    /// Those that they do not call yet.
    fn free(&self, caller: usize) -> Vec<(usize, u8)> {
        let called = |term: usize, child: u8| self.calls[term].iter().any(|call| call[0] == child);
        self.children(caller).into_iter().filter(|&(term, child)| !called(term, child)).collect()
    }

    /// Lets each state that is to be reached be called by the one before it, or by any before it.
    fn reach_states(&mut self, random: &mut Random) {
        let in_a_row = random.once_in(2);
        for state in 0..self.reached {
            let caller = if in_a_row { state } else { random.range(0, state) };
            // the one before it calls nothing yet
            let free = [caller, state].map(|caller| self.free(caller)).into_iter().find(|free| !free.is_empty());
            let (term, child) = random.pick(&free.expect("a symbol has children"));
            self.calls[term].push([child, state as u8]);
        }
    }

    /// A state that a caller may call: one that is reached calls no other.
    fn callee(&self, random: &mut Random, caller: usize) -> u8 {
        let state = match random.below(3) {
            _ if caller <= self.reached => random.below(self.reached),
            0 => caller - 1,
            1 if self.reached > 0 => random.below(self.reached),
            _ => random.range(self.reached, self.states - 1),
        };
        state as u8
    }

    /// Adds calls on children that are not called, or none.
    fn call_more(&mut self, random: &mut Random) {
        let times = random.pick(&[0, 0, 0, 2, 8, 16]);
        for caller in 1..=self.states {
            for (term, child) in self.free(caller) {
                if random.below(16) < times {
                    let callee = self.callee(random, caller);
                    self.calls[term].push([child, callee]);
                }
            }
        }
    }

    /// Lets a child be called twice by some caller, or by none.
    fn copy_some(&mut self, random: &mut Random) {
        let kind = random.below(8);
        if (1..5).contains(&kind) && self.reached < self.states {
            let times = random.pick(&[1, 8, 16]);
            let first = random.range(self.reached, self.states - 1);
            for state in self.reached..self.states {
                if state == first || random.below(16) < times {
                    self.copy(random, state + 1);
                }
            }
        }
        if kind > 3 && self.reached > 0 {
            let any = random.range(0, self.reached);
            let caller = random.pick(&[0, 1, any, self.reached, self.reached]);
            self.copy(random, caller);
        }
    }

    fn copy(&mut self, random: &mut Random, caller: usize) {
        let (term, child) = random.pick(&self.children(caller));
        while self.calls[term].iter().filter(|call| call[0] == child).count() < 2 {
            let callee = self.callee(random, caller);
            self.calls[term].push([child, callee]);
        }
    }

    fn transducer(mut self, random: &mut Random) -> Transducer {
        let terms = self.calls.iter_mut().map(|calls| {
            (1..calls.len()).for_each(|last| calls.swap(last, random.range(0, last)));
            term(random, &self.alphabets.outputs, calls)
        });
        Transducer { states: self.states, terms: terms.collect() }
    }
}

/// A term with these calls in this order.
fn term(random: &mut Random, outputs: &[u8], calls: &[[u8; 2]]) -> Vec<u8> {
    let of = |wanted: fn(u8) -> bool| -> Vec<u8> {
        (0..outputs.len()).filter(|&symbol| wanted(outputs[symbol])).map(|symbol| symbol as u8).collect()
    };
    match calls {
        [] => return vec![0, random.pick(&of(|rank| rank == 0))],
        [call] if !random.once_in(4) => return call.to_vec(),
        _ => {}
    }
    let fork = random.pick(&of(|rank| rank > 1));
    let rank = usize::from(outputs[usize::from(fork)]);
    // two of the children have calls below them, if there are two calls
    let cut = random.range(1, (calls.len() - 1).max(1));
    let first = random.below(rank - 1);
    let second = random.range(first + 1, rank - 1);
    let below = |child: usize| match child {
        _ if child == first => &calls[..cut],
        _ if child == second => &calls[cut..],
        _ => &[],
    };
    (0..rank).fold(vec![0, fork], |marks, child| [marks, term(random, outputs, below(child))].concat())
}
