//! The minimal earliest transducer (Maneth and Seidl, section 6), and equivalence by it.
use super::earliest::{earliest_form, Trimmed};
use super::{parse_transducer, read_alphabets, Alphabets, Transducer, AREA_TOO_SHORT, MAX_FILE};

/// Whether two transducers are equivalent: whether their outputs are equal on every input tree.
#[derive(Clone, Copy, Debug, PartialEq, Eq)]
pub enum Verdict {
    Alike,
    Differ,
}

/// The file of the minimal earliest transducer that is equivalent to `file` (the paper: the clean
/// sheet). Refuses by 2, 4, 5 and 7 as `earliest` does.
pub fn clean(stock: &[u8], file: &[u8]) -> Result<Vec<u8>, u32> {
    let alphabets = read_alphabets(stock)?;
    clean_form(alphabets, &parse_transducer(alphabets, file)?)
}

/// Writes what [`clean`] gives to the start of `area`, and answers its length. Refuses by 1 an area
/// under 20,483 bytes, and by 2, 4, 5 and 7.
pub fn clean_into(stock: &[u8], file: &[u8], area: &mut [u8]) -> Result<usize, u32> {
    if area.len() < MAX_FILE {
        return Err(AREA_TOO_SHORT);
    }
    let clean = clean(stock, file)?;
    area[..clean.len()].copy_from_slice(&clean);
    Ok(clean.len())
}

/// Whether two transducers are equivalent. They are if their minimal earliest transducers are one.
/// Refuses by 2, by 4 and 5 for `first`, by 4 and 5 for `second`, by 7 for `first`, and by 7 for
/// `second`.
pub fn compare(stock: &[u8], first: &[u8], second: &[u8]) -> Result<Verdict, u32> {
    let alphabets = read_alphabets(stock)?;
    let first = parse_transducer(alphabets, first)?;
    let second = parse_transducer(alphabets, second)?;
    let alike = clean_form(alphabets, &first)? == clean_form(alphabets, &second)?;
    Ok(if alike { Verdict::Alike } else { Verdict::Differ })
}

pub(super) fn clean_form(alphabets: Alphabets, transducer: &Transducer) -> Result<Vec<u8>, u32> {
    Ok(merge(&earliest_form(alphabets, transducer)?, alphabets.inputs.len()))
}

/// The file of the earliest transducer with its equal states merged.
fn merge(earliest: &Trimmed, inputs: usize) -> Vec<u8> {
    let states = States::new(earliest, inputs);
    let classes = Partition::coarsest(&states).class_of;
    // The states are numbered as first met, and reading a state of a class again meets no class that
    // reading the first one did not: so the classes are first met as their first states are.
    let mut names = [u8::MAX; 128];
    let mut kept = Vec::with_capacity(earliest.pairs.len());
    for state in 0..earliest.pairs.len() {
        let name = &mut names[usize::from(classes[state])];
        if *name == u8::MAX {
            *name = kept.len() as u8;
            kept.push(state);
        }
    }
    let mut file = Vec::with_capacity(1 + earliest.counts.len() + earliest.marks.len());
    file.push(kept.len() as u8);
    file.extend(&earliest.counts[..2]);
    kept.iter().for_each(|&state| file.extend(states.counts(state)));
    let initial = &earliest.marks[..states.starts[0]];
    for marks in std::iter::once(initial).chain(kept.iter().map(|&state| states.marks(state))) {
        file.extend(marks.as_chunks().0.iter().flat_map(|&[child, name]| match child {
            0 => [0, name],
            _ => [child, names[usize::from(classes[usize::from(name)])]],
        }));
    }
    file
}

/// The right-hand sides of each state of an earliest transducer.
struct States<'a> {
    earliest: &'a Trimmed,
    inputs: usize,
    /// The byte at which the marks of each state start, and at the end the number of bytes.
    starts: Vec<usize>,
}

impl<'a> States<'a> {
    fn new(earliest: &'a Trimmed, inputs: usize) -> Self {
        let mut states = States { earliest, inputs, starts: Vec::with_capacity(earliest.pairs.len() + 1) };
        let marks = |counts: &[u8]| -> usize {
            counts.as_chunks().0.iter().map(|&count| 2 * usize::from(u16::from_be_bytes(count))).sum()
        };
        states.starts.push(marks(&earliest.counts[..2]));
        for state in 0..earliest.pairs.len() {
            states.starts.push(states.starts[state] + marks(states.counts(state)));
        }
        states
    }

    fn counts(&self, state: usize) -> &'a [u8] {
        let bytes = 2 * self.inputs;
        &self.earliest.counts[2 + state * bytes..][..bytes]
    }

    fn marks(&self, state: usize) -> &'a [u8] {
        &self.earliest.marks[self.starts[state]..self.starts[state + 1]]
    }
}

/// A partition of at most 128 states; a set of states is a word of 128 bits.
struct Partition {
    class_of: [u8; 128],
    classes: Vec<u128>,
}

/// The states of a set.
fn members(mut set: u128) -> impl Iterator<Item = usize> {
    std::iter::from_fn(move || {
        let first = set.trailing_zeros() as usize;
        set &= set.wrapping_sub(1);
        (first < 128).then_some(first)
    })
}

impl Partition {
    /// The coarsest partition in which states of one class have right-hand sides that agree but for
    /// the names of the states called, and call states of one class at the same places. By Hopcroft's
    /// algorithm: the places of the calls are the letters, and each class is used to split the others,
    /// of two new classes only the smaller one.
    fn coarsest(states: &States) -> Self {
        let count = states.starts.len() - 1;
        let mut partition = Partition::by_pattern(states);
        // For each state the calls of it: place, and in the low 7 bits the caller. A place is known by
        // the first class of its callers and its distance from the start of their marks.
        let mut starts = vec![0u32; count + 1];
        let calls = |state: usize| {
            let marks = states.marks(state).as_chunks::<2>().0.iter().enumerate();
            marks.filter(|(_, mark)| mark[0] != 0).map(|(at, mark)| (at as u32, usize::from(mark[1])))
        };
        (0..count).for_each(|state| calls(state).for_each(|(_, called)| starts[called + 1] += 1));
        (0..count).for_each(|state| starts[state + 1] += starts[state]);
        let mut callers = vec![0u32; starts[count] as usize];
        let mut next = starts.clone();
        for state in 0..count {
            let class = u32::from(partition.class_of[state]);
            for (at, called) in calls(state) {
                callers[next[called] as usize] = class << 20 | at << 7 | state as u32;
                next[called] += 1;
            }
        }
        // The classes that have not been used yet.
        let mut waiting: Vec<usize> = (0..partition.classes.len()).collect();
        let mut into = Vec::new();
        while partition.classes.len() < count {
            let Some(class) = waiting.pop() else { break };
            into.clear();
            for state in members(partition.classes[class]) {
                into.extend_from_slice(&callers[starts[state] as usize..starts[state + 1] as usize]);
            }
            into.sort_unstable();
            for place in into.chunk_by(|one, other| one >> 7 == other >> 7) {
                let set = place.iter().fold(0, |set, caller| set | 1u128 << (caller & 127));
                partition.split(set, &mut waiting);
            }
        }
        partition
    }

    /// The states by their right-hand sides without the names of the states called. As each is one
    /// tree, their marks in a row tell where one ends and the next starts.
    fn by_pattern(states: &States) -> Self {
        let mut patterns = states.earliest.marks.clone();
        for mark in patterns.as_chunks_mut::<2>().0 {
            if mark[0] != 0 {
                mark[1] = 0;
            }
        }
        let pattern = |state: usize| &patterns[states.starts[state]..states.starts[state + 1]];
        let mut order: Vec<usize> = (0..states.starts.len() - 1).collect();
        order.sort_unstable_by(|&one, &other| pattern(one).cmp(pattern(other)));
        let mut partition = Partition { class_of: [0; 128], classes: Vec::with_capacity(order.len()) };
        for class in order.chunk_by(|&one, &other| pattern(one) == pattern(other)) {
            for &state in class {
                partition.class_of[state] = partition.classes.len() as u8;
            }
            partition.classes.push(class.iter().fold(0, |set, &state| set | 1 << state));
        }
        partition
    }

    /// Splits each class into what is in `set` and what is not; the smaller part is a new class. A
    /// class that still waits to be used does so as both of its parts.
    fn split(&mut self, set: u128, waiting: &mut Vec<usize>) {
        let mut left = set;
        while left != 0 {
            let class = usize::from(self.class_of[left.trailing_zeros() as usize]);
            let (inside, outside) = (self.classes[class] & set, self.classes[class] & !set);
            left &= !inside;
            if outside == 0 {
                continue;
            }
            let (small, large) =
                if inside.count_ones() <= outside.count_ones() { (inside, outside) } else { (outside, inside) };
            self.classes[class] = large;
            members(small).for_each(|state| self.class_of[state] = self.classes.len() as u8);
            waiting.push(self.classes.len());
            self.classes.push(small);
        }
    }
}
