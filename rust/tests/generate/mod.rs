//! Random alphabets, trees, transducers and addresses, valid ones and damaged ones, from a seed.

// Each test program uses some of it.
#![allow(dead_code)]

pub mod alike;
pub mod cases;
pub mod deep;
pub mod joins;
pub mod memory;
pub mod partials;
pub mod reach;
pub mod rows;
pub mod samples;

/// A small generator of numbers: xorshift, with a multiplication at the end.
pub struct Random(u64);

impl Random {
    pub fn new(seed: u64) -> Self {
        let mut random = Random(seed.wrapping_mul(0x9e37_79b9_7f4a_7c15) | 1);
        for _ in 0..8 {
            random.next();
        }
        random
    }

    pub fn next(&mut self) -> u64 {
        self.0 ^= self.0 >> 12;
        self.0 ^= self.0 << 25;
        self.0 ^= self.0 >> 27;
        self.0.wrapping_mul(0x2545_f491_4f6c_dd1d)
    }

    /// A number below `bound`.
    pub fn below(&mut self, bound: usize) -> usize {
        ((u128::from(self.next()) * bound as u128) >> 64) as usize
    }

    /// A number from `low` to `high`, both included.
    pub fn range(&mut self, low: usize, high: usize) -> usize {
        low + self.below(high - low + 1)
    }

    pub fn byte(&mut self) -> u8 {
        self.next() as u8
    }

    /// True once in `of` times.
    pub fn once_in(&mut self, of: usize) -> bool {
        self.below(of) == 0
    }

    pub fn pick<T: Copy>(&mut self, from: &[T]) -> T {
        from[self.below(from.len())]
    }

    /// A number from `low` to `high`: now and then an end, and most often a small one above `low`.
    pub fn sized(&mut self, low: usize, high: usize) -> usize {
        match self.below(12) {
            0 => low,
            1 => high,
            2 | 3 => self.range(low, high),
            _ => self.range(low + 1, low + 4),
        }
    }
}

/// Two alphabets, by the ranks of their symbols.
#[derive(Clone, Debug)]
pub struct Alphabets {
    pub inputs: Vec<u8>,
    pub outputs: Vec<u8>,
}

impl Alphabets {
    pub fn file(&self) -> Vec<u8> {
        [&[self.inputs.len() as u8], &self.inputs[..], &[self.outputs.len() as u8], &self.outputs[..]].concat()
    }

    /// Some alphabets. There is an input symbol of rank 0, and nearly always an output symbol.
    pub fn random(random: &mut Random) -> Self {
        let mut ranks = |most: usize, leaf: bool| {
            let highest = random.pick(&[0, 1, 2, 2, 2, 3, 3, 4, 4, 4]);
            let count = random.sized(1, most);
            let mut ranks: Vec<u8> = (0..count).map(|_| random.range(0, highest) as u8).collect();
            if leaf && !ranks.contains(&0) {
                let at = random.below(ranks.len());
                ranks[at] = 0;
            }
            ranks
        };
        let inputs = ranks(16, true);
        let outputs = ranks(64, true);
        let mut alphabets = Alphabets { inputs, outputs };
        if random.once_in(60) {
            alphabets.outputs.iter_mut().for_each(|rank| *rank = (*rank).max(1));
        }
        alphabets
    }
}

/// How a tree grows.
#[derive(Clone, Copy, Debug)]
pub enum Growth {
    /// Each node has children, so many times of 16.
    Even(usize),
    /// Only the last child has children.
    Right,
    /// Only the first child has children.
    Left,
}

/// A tree over symbols of these ranks, of at most `nodes` nodes and `levels` levels, which grows
/// until one of the limits stops it. At least one rank is 0.
pub fn tree(random: &mut Random, ranks: &[u8], nodes: usize, levels: usize, growth: Growth) -> Vec<u8> {
    let of = |wanted: fn(u8) -> bool| -> Vec<u8> {
        (0..ranks.len()).filter(|&symbol| wanted(ranks[symbol])).map(|symbol| symbol as u8).collect()
    };
    let (leaves, forks) = (of(|rank| rank == 0), of(|rank| rank > 0));
    let mut written = Vec::new();
    // For each node above: how many children it has, and how many of them are not written yet.
    let mut above: Vec<(u8, u8)> = Vec::new();
    // How many nodes there are at least, if all that is not written yet is leaves.
    let mut promised = 1;
    loop {
        let grows = match growth {
            Growth::Even(times) => random.below(16) < times,
            Growth::Right => above.last().is_none_or(|&(_, left)| left == 1),
            Growth::Left => above.last().is_none_or(|&(all, left)| left == all),
        };
        let mut symbol = random.pick(&leaves);
        if grows && !forks.is_empty() && above.len() + 1 < levels {
            let fork = random.pick(&forks);
            if promised + usize::from(ranks[usize::from(fork)]) <= nodes {
                symbol = fork;
            }
        }
        let rank = ranks[usize::from(symbol)];
        promised += usize::from(rank);
        written.push(symbol);
        if rank > 0 {
            above.push((rank, rank));
            continue;
        }
        loop {
            match above.last_mut() {
                None => return written,
                Some((_, left)) => *left -= 1,
            }
            if above.last().unwrap().1 > 0 {
                break;
            }
            above.pop();
        }
    }
}

/// All trees of at most `levels` levels over symbols of these ranks, unless they are over `most`.
pub fn trees(ranks: &[u8], levels: usize, most: usize) -> Option<Vec<Vec<u8>>> {
    let mut trees: Vec<Vec<u8>> = Vec::new();
    for _ in 0..levels {
        let mut next = Vec::new();
        for (symbol, &rank) in ranks.iter().enumerate() {
            let mut starts = vec![vec![symbol as u8]];
            for _ in 0..rank {
                if starts.len() * trees.len() > most {
                    return None;
                }
                starts =
                    starts.iter().flat_map(|start| trees.iter().map(move |tree| [&start[..], tree].concat())).collect();
            }
            next.extend(starts);
        }
        trees = next;
    }
    Some(trees)
}

/// All input trees up to the most levels with at most `most` trees, and up to 12.
pub fn small_trees(ranks: &[u8], most: usize) -> Vec<Vec<u8>> {
    (1..=12).map_while(|levels| trees(ranks, levels, most)).last().unwrap_or_default()
}

/// The number of nodes up to which all input trees are tried: not more than `most` trees.
pub fn affordable(ranks: &[u8], most: usize) -> usize {
    (1..40).take_while(|&limit| caplune_independent::count_trees(ranks, limit) <= most).last().unwrap_or(0)
}

/// The nodes of an input tree that is enough to tell two transducers apart.
///
/// Let their minimal earliest transducers have K states together, and not be one. From their initial
/// terms on, calls at the same places lead down an input tree, one level for each call, to states
/// whose right-hand sides differ in more than the names called: by Moore's rounds at most K - 1
/// levels, and one for the symbol of these right-hand sides. There a symbol stands against another
/// symbol, or against a call, or two calls on different sub-trees against each other; a call can be
/// given two roots, and with one of them differs from the other side, whose input can be left as it
/// is. The least trees for two roots have at most K + 1 levels: one for each call at the root of a
/// right-hand side, and no state has to be called twice. These levels are a path; what is beside it
/// can be leaves.
pub fn enough(states: usize, ranks: &[u8]) -> usize {
    let highest = usize::from(*ranks.iter().max().unwrap());
    1 + highest.max(1) * (2 * states + 1)
}

/// An input tree, most of them within the limits.
pub fn input_tree(random: &mut Random, alphabets: &Alphabets) -> Vec<u8> {
    let growth = match random.below(6) {
        0 => Growth::Right,
        1 => Growth::Left,
        2 => Growth::Even(16),
        _ => Growth::Even(random.range(4, 15)),
    };
    let (nodes, levels) = match random.below(24) {
        0 => (4096, 512),
        1 => (4097, 512),
        2 => (4096, 513),
        3 => (random.range(4000, 4300), random.range(500, 530)),
        4 | 5 => (random.range(1, 4096), random.range(1, 512)),
        6 => (4096, random.range(5, 14)),
        _ => (random.range(1, 60), random.range(1, 30)),
    };
    tree(random, &alphabets.inputs, nodes, levels, growth)
}

/// A transducer in its parts.
#[derive(Clone, Debug)]
pub struct Transducer {
    pub states: usize,
    pub terms: Vec<Vec<u8>>,
}

impl Transducer {
    pub fn counts(&self) -> Vec<u8> {
        self.terms.iter().flat_map(|term| ((term.len() / 2) as u16).to_be_bytes()).collect()
    }

    pub fn marks(&self) -> Vec<u8> {
        self.terms.concat()
    }

    pub fn file(&self) -> Vec<u8> {
        [vec![self.states as u8], self.counts(), self.marks()].concat()
    }

    /// A transducer within the limits, or hardly over them. Without an output symbol of rank 0 there
    /// is none; what is made then has terms that are not trees.
    pub fn random(random: &mut Random, alphabets: &Alphabets) -> Self {
        let states = random.sized(0, 128);
        let count = 1 + states * alphabets.inputs.len();
        let most = random.pick(&[1, 3, 5, 7, 9, 20, 64, 64]);
        let grow = random.pick(&[4, 8, 12, 14, 16, 16]);
        let call = random.pick(&[2, 6, 10, 14, 16]);
        // Whether sub-trees are called in turn, so that none is called twice.
        let linear = random.once_in(3);
        let mut left = if random.once_in(40) { 8300 } else { 8192 };
        let mut terms = Vec::with_capacity(count);
        for number in 0..count {
            let reach = if number == 0 { 1 } else { alphabets.inputs[(number - 1) % alphabets.inputs.len()] };
            let room = (left - (count - 1 - number)).min(most).max(1);
            let term = term(random, &alphabets.outputs, states, reach, room, grow, call, linear);
            left -= term.len() / 2;
            terms.push(term);
        }
        Transducer { states, terms }
    }
}

/// A term of at most `most` marks: a mark has sub-trees `grow` times of 16 where there is room, and
/// else is a call `call` times of 16.
#[allow(clippy::too_many_arguments)]
fn term(
    random: &mut Random,
    outputs: &[u8],
    states: usize,
    reach: u8,
    most: usize,
    grow: usize,
    call: usize,
    linear: bool,
) -> Vec<u8> {
    let (leaves, forks): (Vec<usize>, Vec<usize>) = (0..outputs.len()).partition(|&symbol| outputs[symbol] == 0);
    let mut marks = Vec::new();
    let (mut owed, mut length, mut called) = (1, 0, 0);
    while owed > 0 {
        length += 1;
        owed -= 1;
        if !forks.is_empty() && random.below(16) < grow {
            let fork = random.pick(&forks);
            let rank = usize::from(outputs[fork]);
            if length + owed + rank <= most {
                marks.extend([0, fork as u8]);
                owed += rank;
                continue;
            }
        }
        if reach > 0 && states > 0 && random.below(16) < call && !(linear && called == reach) {
            called += 1;
            let child = if linear { called } else { random.range(1, usize::from(reach)) as u8 };
            marks.extend([child, random.below(states) as u8]);
        } else {
            let symbol = if leaves.is_empty() { random.below(outputs.len()) } else { random.pick(&leaves) };
            marks.extend([0, symbol as u8]);
        }
    }
    marks
}

/// Damages the bytes: most often in one place.
pub fn damage(random: &mut Random, bytes: &mut Vec<u8>) {
    loop {
        let length = bytes.len();
        match random.below(10) {
            _ if length == 0 => bytes.push(random.byte()),
            0 | 1 => bytes[random.below(length)] = random.byte(),
            2 => {
                let at = random.below(length);
                bytes[at] = if random.once_in(2) { bytes[at].wrapping_add(1) } else { bytes[at].wrapping_sub(1) };
            }
            3 => bytes[random.below(length.min(8))] = random.below(6) as u8,
            4 => drop(bytes.remove(random.below(length))),
            5 => bytes.insert(random.range(0, length), random.pick(&[0, 0, 1, 2, 255])),
            6 => bytes.truncate(random.below(length)),
            7 => bytes.swap(random.below(length), random.below(length)),
            8 => {
                let from = random.below(length);
                let again = bytes[from..random.range(from, length.min(from + 9))].to_vec();
                bytes.splice(from..from, again);
            }
            _ => bytes.extend((0..random.range(1, 4)).map(|_| random.below(3) as u8)),
        }
        if !random.once_in(6) {
            return;
        }
    }
}

/// An address, most often one that goes down an output tree over these ranks.
pub fn address(random: &mut Random, plan: Option<&[u8]>, outputs: &[u8]) -> Vec<u8> {
    let mut address = match plan {
        Some(plan) if !random.once_in(4) => address_of(plan, outputs, random.below(plan.len())),
        _ => {
            let highest = random.pick(&[1, 2, 2, 3, 4]);
            (0..random.pick(&[0, 1, 2, 3, 5, 8, 13, 40, 512, 600])).map(|_| random.range(1, highest) as u8).collect()
        }
    };
    if random.once_in(3) {
        match random.below(4) {
            0 => address.push(random.range(1, 4) as u8),
            1 => address.push(random.pick(&[0, 5, 255])),
            2 if !address.is_empty() => {
                let at = random.below(address.len());
                address[at] = random.pick(&[0, 1, 2, 3, 4, 5, 255]);
            }
            _ => address.truncate(random.below(address.len() + 1)),
        }
    }
    address
}

/// The address of a node of an output tree.
pub fn address_of(plan: &[u8], outputs: &[u8], node: usize) -> Vec<u8> {
    // For each node above: the child that is being read, and how many there are.
    let mut above: Vec<(u8, u8)> = Vec::new();
    for (at, &symbol) in plan.iter().enumerate() {
        if at == node {
            return above.iter().map(|&(child, _)| child).collect();
        }
        let rank = outputs[usize::from(symbol)];
        if rank > 0 {
            above.push((1, rank));
            continue;
        }
        while let Some((child, all)) = above.last_mut() {
            *child += 1;
            if *child <= *all {
                break;
            }
            above.pop();
        }
    }
    unreachable!("the tree has no node {node}")
}

/// The levels of a tree over these ranks, from its leaves up.
pub fn levels(ranks: &[u8], tree: &[u8]) -> usize {
    let mut waiting: Vec<usize> = Vec::new();
    for &symbol in tree.iter().rev() {
        let left = waiting.len() - usize::from(ranks[usize::from(symbol)]);
        let below = waiting.drain(left..).max().unwrap_or(0);
        waiting.push(1 + below);
    }
    assert_eq!(waiting.len(), 1, "{tree:?} is one tree");
    waiting[0]
}

/// The length of an area for a file: most often the least that is taken, or one byte less.
pub fn area(random: &mut Random) -> usize {
    match random.below(8) {
        0 | 1 => 20_482,
        2 => random.below(20_483),
        3 => random.range(20_483, 21_000),
        _ => 20_483,
    }
}
