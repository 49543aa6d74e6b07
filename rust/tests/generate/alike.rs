//! Transducers that are equivalent by construction, and ones that differ in one mark.
use super::{Alphabets, Random, Transducer};

/// Alphabets of which there are few input trees of each size.
pub fn small_alphabets(random: &mut Random) -> Alphabets {
    let inputs: &[u8] = random.pick(&[
        &[1, 0][..],
        &[1, 0],
        &[1, 1, 0],
        &[0, 1, 0],
        &[2, 0],
        &[2, 0],
        &[2, 0, 0],
        &[0, 2],
        &[1, 2, 0],
        &[3, 0],
        &[4, 0],
        &[0, 0],
    ]);
    let outputs: &[u8] = random.pick(&[
        &[2, 0][..],
        &[2, 0, 0],
        &[2, 0, 0],
        &[2, 1, 0, 0],
        &[1, 0],
        &[1, 0, 0],
        &[0, 1, 2],
        &[3, 0, 0],
        &[0, 0],
        &[4, 0],
    ]);
    Alphabets { inputs: inputs.to_vec(), outputs: outputs.to_vec() }
}

/// A transducer of at most `states` states, with terms of about `most` marks at most. The right-hand
/// sides of some states are one tree in which they differ in a few places, so that they have a prefix.
pub fn small_transducer(random: &mut Random, alphabets: &Alphabets, states: usize, most: usize) -> Transducer {
    let least = usize::from(!random.once_in(20));
    let states = random.range(least, states);
    let (grow, call) = (random.pick(&[4, 8, 12]), random.pick(&[6, 10, 14]));
    let new = |random: &mut Random, number: usize, most: usize| {
        let most = random.range(1, most);
        super::term(random, &alphabets.outputs, states, reach(alphabets, number), most, grow, call, false)
    };
    // most initial terms call a state
    let initial = (0..3).map(|_| new(random, 0, most)).find(|term| term.chunks(2).any(|mark| mark[0] != 0));
    let mut terms = vec![initial.unwrap_or_else(|| new(random, 0, most))];
    let inputs = alphabets.inputs.len();
    for state in 0..states {
        let shared = super::term(random, &alphabets.outputs, 0, 0, most, 12, 0, false);
        let shares = !random.once_in(3);
        for number in 1 + state * inputs..1 + (state + 1) * inputs {
            let mut side = if shares { shared.clone() } else { new(random, number, most) };
            for _ in 0..if shares { random.range(1, 2) } else { 0 } {
                let from = 2 * random.below(side.len() / 2);
                let behind = end(&alphabets.outputs, &side, from);
                side.splice(from..behind, new(random, number, most.min(4)));
            }
            terms.push(side);
        }
    }
    Transducer { states, terms }
}

/// A transducer of so many states, whose right-hand sides all are one tree of at most `most` marks
/// with other leaves: all states have that tree in their prefix, and in the earliest form there may
/// be a state for each of its leaves.
pub fn prefixed_transducer(random: &mut Random, alphabets: &Alphabets, states: usize, most: usize) -> Transducer {
    let outputs = &alphabets.outputs;
    let grow = random.pick(&[8, 12, 14]);
    let shared = super::term(random, outputs, 0, 0, most, grow, 0, false);
    let call = random.range(2, 15);
    let mut initial = super::term(random, outputs, states, 1, most, 8, 16, false);
    if random.once_in(2) {
        initial = vec![1, random.below(states) as u8];
    }
    let mut terms = vec![initial];
    for number in 1..1 + states * alphabets.inputs.len() {
        let mut side = Vec::new();
        for mark in shared.chunks(2) {
            match outputs[usize::from(mark[1])] {
                0 => side.extend(super::term(random, outputs, states, reach(alphabets, number), 2, 2, call, false)),
                _ => side.extend(mark),
            }
        }
        terms.push(side);
    }
    Transducer { states, terms }
}

/// Alphabets, and a transducer with long prefixes.
pub fn prefixed(random: &mut Random) -> (Alphabets, Transducer) {
    let alphabets = small_alphabets(random);
    let (states, most) = (random.pick(&[1, 2, 4, 10, 40, 70]), random.range(3, 12));
    let sheet = prefixed_transducer(random, &alphabets, states, most);
    (alphabets, sheet)
}

/// Alphabets and a transducer: any ones, small ones or ones with long prefixes, some of them changed in
/// ways that keep them equivalent.
pub fn any(random: &mut Random) -> (Alphabets, Transducer) {
    let (alphabets, sheet) = match random.below(4) {
        0 => prefixed(random),
        1 => {
            let alphabets = Alphabets::random(random);
            let sheet = Transducer::random(random, &alphabets);
            return (alphabets, sheet);
        }
        _ => {
            let alphabets = small_alphabets(random);
            let (states, most) = (random.pick(&[2, 5, 12]), random.pick(&[3, 5, 9, 16]));
            let sheet = small_transducer(random, &alphabets, states, most);
            (alphabets, sheet)
        }
    };
    let steps = random.pick(&[0, 0, 3, 8]);
    let alike = sheet.alike(random, &alphabets, steps);
    (alphabets, alike)
}

/// The number of sub-trees that a term can call.
fn reach(alphabets: &Alphabets, number: usize) -> u8 {
    number.checked_sub(1).map_or(1, |number| alphabets.inputs[number % alphabets.inputs.len()])
}

/// The byte behind the tree that starts at a byte of a term.
fn end(outputs: &[u8], term: &[u8], from: usize) -> usize {
    let (mut owed, mut at) = (1, from);
    while owed > 0 {
        owed -= 1;
        if term[at] == 0 {
            owed += usize::from(outputs[usize::from(term[at + 1])]);
        }
        at += 2;
    }
    at
}

/// The term with each call replaced by the marks that `of` gives for its two bytes.
fn replace_calls(term: &[u8], mut of: impl FnMut(u8, u8) -> Vec<u8>) -> Vec<u8> {
    term.chunks(2).flat_map(|mark| if mark[0] == 0 { mark.to_vec() } else { of(mark[0], mark[1]) }).collect()
}

impl Transducer {
    /// Whether it is within the limits.
    pub fn fits(&self) -> bool {
        self.states <= 128
            && self.terms.iter().all(|term| term.len() <= 2 * 64)
            && self.terms.iter().map(Vec::len).sum::<usize>() <= 2 * 8192
    }

    pub(super) fn right_hand_sides(&self, state: usize) -> &[Vec<u8>] {
        let inputs = (self.terms.len() - 1) / self.states;
        &self.terms[1 + state * inputs..][..inputs]
    }

    pub(super) fn rename(&mut self, mut of: impl FnMut(u8, u8) -> Vec<u8>) {
        self.terms.iter_mut().for_each(|term| *term = replace_calls(term, &mut of));
    }

    /// The same states in another order.
    pub fn permuted(&self, random: &mut Random) -> Self {
        let mut order: Vec<usize> = (0..self.states).collect();
        (1..self.states).for_each(|last| order.swap(last, random.range(0, last)));
        let mut terms = vec![self.terms[0].clone()];
        order.iter().for_each(|&state| terms.extend_from_slice(self.right_hand_sides(state)));
        let mut names = vec![0; self.states];
        order.iter().enumerate().for_each(|(name, &state)| names[state] = name as u8);
        let mut permuted = Transducer { states: self.states, terms };
        permuted.rename(|child, state| vec![child, names[usize::from(state)]]);
        permuted
    }

    /// With a copy of a state, which some calls of that state go to.
    pub fn duplicated(&self, random: &mut Random) -> Self {
        let state = random.below(self.states);
        let mut duplicated = self.clone();
        duplicated.terms.extend_from_slice(self.right_hand_sides(state));
        duplicated.rename(|child, called| {
            let copy = usize::from(called) == state && random.once_in(2);
            vec![child, if copy { self.states as u8 } else { called }]
        });
        duplicated.states += 1;
        duplicated
    }

    /// With a state that nobody calls.
    pub fn with_unreached(&self, random: &mut Random, alphabets: &Alphabets) -> Self {
        let mut with = self.clone();
        with.states += 1;
        for &rank in &alphabets.inputs {
            with.terms.push(super::term(random, &alphabets.outputs, with.states, rank, 9, 8, 10, false));
        }
        with
    }

    /// With a tree of a term delayed: a tree whose calls are all on one sub-tree becomes the call of
    /// a new state there, which gives what that tree would. From T of the paper's samples this makes
    /// T'.
    pub fn delayed(&self, random: &mut Random, alphabets: &Alphabets) -> Option<Self> {
        let number = random.below(self.terms.len());
        let (term, reach) = (&self.terms[number], reach(alphabets, number));
        let from = 2 * random.below(term.len() / 2);
        let behind = end(&alphabets.outputs, term, from);
        let tree = &term[from..behind];
        let mut children = tree.chunks(2).map(|mark| mark[0]).filter(|&child| child > 0);
        let child = match children.next() {
            _ if reach == 0 => return None,
            None => random.range(1, reach.into()) as u8,
            Some(child) => children.all(|other| other == child).then_some(child)?,
        };
        let mut delayed = self.clone();
        for symbol in 0..alphabets.inputs.len() {
            let moved = |_, state: u8| self.right_hand_sides(state.into())[symbol].clone();
            delayed.terms.push(replace_calls(tree, moved));
        }
        delayed.terms[number].splice(from..behind, [child, self.states as u8]);
        delayed.states += 1;
        Some(delayed)
    }

    /// With the root symbol that all right-hand sides of a state share moved into the callers: the
    /// state becomes one for each child of the root.
    pub fn advanced(&self, random: &mut Random, alphabets: &Alphabets) -> Option<Self> {
        let shares = |&state: &usize| {
            let sides = self.right_hand_sides(state);
            sides[0][0] == 0 && sides.iter().all(|side| side[..2] == sides[0][..2])
        };
        let sharing: Vec<usize> = (0..self.states).filter(shares).collect();
        if sharing.is_empty() {
            return None;
        }
        let state = random.pick(&sharing);
        let sides = self.right_hand_sides(state);
        let symbol = sides[0][1];
        let rank = alphabets.outputs[usize::from(symbol)];
        let mut advanced = self.clone();
        let mut starts = vec![2; sides.len()];
        for _ in 0..rank {
            for (side, start) in sides.iter().zip(&mut starts) {
                let behind = end(&alphabets.outputs, side, *start);
                advanced.terms.push(side[*start..behind].to_vec());
                *start = behind;
            }
        }
        let first = self.states as u8;
        advanced.rename(|child, called| match usize::from(called) == state {
            true => [0, symbol].into_iter().chain((0..rank).flat_map(|k| [child, first + k])).collect(),
            false => vec![child, called],
        });
        advanced.states += usize::from(rank);
        Some(advanced)
    }

    /// An equivalent transducer within the limits, by some steps of the kinds above.
    pub fn alike(&self, random: &mut Random, alphabets: &Alphabets, steps: usize) -> Self {
        let mut alike = self.clone();
        for _ in 0..steps {
            let next = match random.below(8) {
                _ if alike.states > 120 => break,
                0 if alike.states > 0 => Some(alike.permuted(random)),
                1 if alike.states > 0 => Some(alike.duplicated(random)),
                2 => Some(alike.with_unreached(random, alphabets)),
                3 | 4 if alike.states > 0 => alike.advanced(random, alphabets),
                _ => alike.delayed(random, alphabets),
            };
            if let Some(next) = next.filter(Transducer::fits) {
                alike = next;
            }
        }
        alike
    }

    /// With so many copies of each state, of which each call goes to any.
    pub fn multiplied(&self, random: &mut Random, copies: usize) -> Self {
        let sides = (0..copies).flat_map(|_| &self.terms[1..]);
        let terms = self.terms[..1].iter().chain(sides).cloned().collect();
        let mut multiplied = Transducer { states: copies * self.states, terms };
        multiplied.rename(|child, state| vec![child, state + (self.states * random.below(copies)) as u8]);
        multiplied
    }

    /// Equivalent transducers within the limits: by one step of each kind above, and by some.
    pub fn changed(&self, random: &mut Random, alphabets: &Alphabets) -> Vec<Self> {
        let mut changed = vec![
            Some(self.with_unreached(random, alphabets)),
            self.delayed(random, alphabets),
            Some(self.alike(random, alphabets, 6)),
            Some(self.alike(random, alphabets, 25)),
        ];
        if self.states > 0 {
            changed.push(Some(self.permuted(random)));
            changed.push(Some(self.duplicated(random)));
            changed.push(self.advanced(random, alphabets));
        }
        changed.into_iter().flatten().filter(Transducer::fits).collect()
    }

    /// With one mark changed to another of the same rank, if there is another.
    pub fn with_one_mark_changed(&self, random: &mut Random, alphabets: &Alphabets) -> Option<Self> {
        let mut changed = self.clone();
        let number = random.below(self.terms.len());
        let term = &mut changed.terms[number];
        let at = 2 * random.below(term.len() / 2);
        let rank = if term[at] == 0 { alphabets.outputs[usize::from(term[at + 1])] } else { 0 };
        let blocks = (0..alphabets.outputs.len()).filter(|&symbol| alphabets.outputs[symbol] == rank);
        let mut marks: Vec<[u8; 2]> = blocks.map(|symbol| [0, symbol as u8]).collect();
        if rank == 0 {
            let calls =
                (1..=reach(alphabets, number)).flat_map(|child| (0..self.states).map(move |q| [child, q as u8]));
            marks.extend(calls);
        }
        marks.retain(|mark| *mark != term[at..at + 2]);
        if marks.is_empty() {
            return None;
        }
        term[at..at + 2].copy_from_slice(&random.pick(&marks));
        Some(changed)
    }
}

/// The alphabets of [`chain`]: u of rank 1 and e of rank 0; g of rank 1, c and d of rank 0.
pub fn chain_alphabets() -> Alphabets {
    Alphabets { inputs: vec![1, 0], outputs: vec![1, 0, 0] }
}

/// A chain of states, each calling the next at u below `symbols` times g and giving c at e; the last
/// one gives c at u, and at e the symbol `last`.
pub fn chain(states: usize, symbols: usize, last: u8) -> Transducer {
    let mut terms = vec![vec![1, 0]];
    for state in 0..states {
        let end = state + 1 == states;
        terms.push([vec![0; 2 * symbols], if end { vec![0, 1] } else { vec![1, state as u8 + 1] }].concat());
        terms.push(vec![0, if end { last } else { 1 }]);
    }
    Transducer { states, terms }
}
