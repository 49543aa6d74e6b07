//! Largest common prefixes, and the earliest form (Maneth and Seidl, sections 4 and 5).
//!
//! The *prefix* of a state (the paper: its head) is the largest pattern that all of its outputs
//! share. It is a top piece of each output, so also of the right-hand side at an input symbol of
//! rank 0, which has no calls: the *model* of the state. A prefix thus is given by the nodes of the
//! model that do not belong to it. Such a node *varies*: some output of the state has another symbol
//! there, or parts from the model above.
//!
//! The section's system of inequations says when a node of a model varies. Laid over the
//! right-hand side at any input symbol, with the models of the called states in place of the calls,
//! - the symbols differ there, or
//! - it lies over a node of a called state's model, and that node varies, or
//! - its parent varies.
//!
//! The least solution is what the first kind of node reaches through the other two: a search in a
//! graph whose nodes are those of the models, with at most one edge for each node and input symbol.
use super::{parse_transducer, read_alphabets, Alphabets, Transducer, MAX_MARKS, MAX_STATES, MAX_TERM, OVER_LIMITS};

/// The earliest form of a transducer (the paper: the trimmed sheet), before equal states are merged.
#[derive(Clone, Debug, PartialEq, Eq)]
pub struct Trimmed {
    /// Its states: a state of the transducer, and which of the open ends of that state's prefix,
    /// counted from 0 and from left to right. In the order in which they are first met.
    pub pairs: Vec<(u8, u8)>,
    /// The number of marks of the initial term and of each right-hand side, two bytes each.
    pub counts: Vec<u8>,
    /// The marks, two bytes each.
    pub marks: Vec<u8>,
}

impl Trimmed {
    /// The file of this transducer.
    pub fn file(&self) -> Vec<u8> {
        [&[self.pairs.len() as u8], &self.counts[..], &self.marks[..]].concat()
    }
}

/// The earliest form of the transducer `file`. Refuses by 2, 4 and 5 as `read_transducer` does, and
/// by 7 an earliest form of over 128 states, of over 64 marks in its initial term or a right-hand
/// side, or of over 8,192 marks in all.
pub fn earliest(stock: &[u8], file: &[u8]) -> Result<Trimmed, u32> {
    let alphabets = read_alphabets(stock)?;
    earliest_form(alphabets, &parse_transducer(alphabets, file)?)
}

/// The prefix of each state, in preorder: a symbol, or `None` for an open end. Refuses by 2, 4 and 5.
pub fn prefixes(stock: &[u8], file: &[u8]) -> Result<Vec<Vec<Option<u8>>>, u32> {
    let alphabets = read_alphabets(stock)?;
    let prefixes = Prefixes::new(alphabets, &parse_transducer(alphabets, file)?);
    Ok(prefixes.models.iter().map(|&model| prefixes.pattern(model.into())).collect())
}

pub(super) fn earliest_form(alphabets: Alphabets, transducer: &Transducer) -> Result<Trimmed, u32> {
    Writer::write(&Prefixes::new(alphabets, transducer)).ok_or(OVER_LIMITS)
}

/// The prefixes of all states. A node is known by the index of its mark in the whole file.
struct Prefixes<'a> {
    inputs: usize,
    marks: &'a [[u8; 2]],
    /// The first mark of each term.
    starts: Vec<u16>,
    /// For each mark, the index behind its sub-tree.
    ends: Vec<u16>,
    /// The root of each state's model.
    models: Vec<u16>,
    /// For each node of a model, whether it varies.
    varies: Vec<bool>,
}

/// The edges of the search, as lists: a node that varies makes the nodes in its list vary.
struct Edges {
    /// The last edge of each node's list, or `NONE`.
    last: Vec<u32>,
    /// The node that an edge leads to, and the edge before it in its list.
    edges: Vec<(u16, u32)>,
}

const NONE: u32 = u32::MAX;

impl<'a> Prefixes<'a> {
    fn new(alphabets: Alphabets, transducer: &Transducer<'a>) -> Self {
        let inputs = alphabets.inputs.len();
        let (marks, _) = transducer.marks.as_chunks::<2>();
        let mut starts = Vec::with_capacity(transducer.terms.len());
        let mut behind = 0;
        for term in &transducer.terms {
            starts.push(behind);
            behind += term.len() as u16 / 2;
        }
        let mut ends = vec![0; marks.len()];
        for (at, &[child, name]) in marks.iter().enumerate().rev() {
            let rank = if child == 0 { alphabets.outputs[usize::from(name)] } else { 0 };
            ends[at] = (0..rank).fold(at as u16 + 1, |end, _| ends[usize::from(end)]);
        }
        let (leaves, forks): (Vec<usize>, Vec<usize>) = (0..inputs).partition(|&symbol| alphabets.inputs[symbol] == 0);
        // Any symbol of rank 0 gives a model; the shortest has the fewest nodes to look at.
        let models = (0..transducer.states).map(|state| {
            let roots = leaves.iter().map(|symbol| starts[1 + state * inputs + symbol]);
            roots.min_by_key(|&root| ends[usize::from(root)] - root).expect("a symbol has rank 0")
        });
        let models = models.collect();
        let varies = vec![false; marks.len()];
        let mut prefixes = Prefixes { inputs, marks, starts, ends, models, varies };
        prefixes.search(&leaves, &forks);
        prefixes
    }

    #[inline]
    fn end(&self, at: usize) -> usize {
        usize::from(self.ends[at])
    }

    #[inline]
    fn model(&self, state: u8) -> usize {
        usize::from(self.models[usize::from(state)])
    }

    #[inline]
    fn right_hand_side(&self, state: usize, symbol: usize) -> usize {
        usize::from(self.starts[1 + state * self.inputs + symbol])
    }

    /// Finds the nodes that vary.
    fn search(&mut self, leaves: &[usize], forks: &[usize]) {
        let mut edges = Edges { last: vec![NONE; self.marks.len()], edges: Vec::new() };
        // What varies and has not been followed yet.
        let mut found = Vec::new();
        // The symbols of rank 0 first: where they differ nothing has to be laid over the others.
        for &symbol in leaves.iter().chain(forks) {
            for state in 0..self.models.len() {
                self.lay_over(state, symbol, &mut edges, &mut found);
            }
        }
        while let Some(node) = found.pop() {
            let mut edge = edges.last[usize::from(node)];
            while edge != NONE {
                let (to, before) = edges.edges[edge as usize];
                self.vary(to.into(), &mut found);
                edge = before;
            }
        }
    }

    /// Lays a state's model over its right-hand side at a symbol. A node that varies is passed by
    /// with its sub-tree.
    fn lay_over(&mut self, state: usize, symbol: usize, edges: &mut Edges, found: &mut Vec<u16>) {
        let (mut node, mut at) = (usize::from(self.models[state]), self.right_hand_side(state, symbol));
        if node == at {
            return;
        }
        let behind = self.end(node);
        while node < behind {
            let [child, name] = self.marks[at];
            if child != 0 && !self.varies[node] {
                self.lay_over_model(node, self.model(name), edges, found);
                (node, at) = (self.end(node), at + 1);
            } else if !self.varies[node] && self.marks[node][1] == name {
                (node, at) = (node + 1, at + 1);
            } else {
                self.vary(node, found);
                (node, at) = (self.end(node), self.end(at));
            }
        }
    }

    /// Lays the sub-tree at a node of a model over a called state's model.
    fn lay_over_model(&mut self, mut node: usize, mut other: usize, edges: &mut Edges, found: &mut Vec<u16>) {
        let behind = self.end(node);
        while node < behind {
            if self.varies[node] || self.varies[other] || self.marks[node] != self.marks[other] {
                self.vary(node, found);
                (node, other) = (self.end(node), self.end(other));
                continue;
            }
            if node != other {
                edges.edges.push((node as u16, edges.last[other]));
                edges.last[other] = edges.edges.len() as u32 - 1;
            }
            (node, other) = (node + 1, other + 1);
        }
    }

    /// Notes that a node varies, and with it all below.
    fn vary(&mut self, mut node: usize, found: &mut Vec<u16>) {
        let behind = self.end(node);
        while node < behind {
            if std::mem::replace(&mut self.varies[node], true) {
                node = self.end(node);
            } else {
                found.push(node as u16);
                node += 1;
            }
        }
    }

    /// The prefix with this model: a symbol, or `None` for an open end.
    fn pattern(&self, model: usize) -> Vec<Option<u8>> {
        let mut pattern = Vec::new();
        let mut node = model;
        while node < self.end(model) {
            let varies = self.varies[node];
            pattern.push((!varies).then_some(self.marks[node][1]));
            node = if varies { self.end(node) } else { node + 1 };
        }
        pattern
    }
}

/// Where a node of a prefix lies in a right-hand side whose calls are replaced by prefixes.
enum Spot {
    /// At a mark of the right-hand side.
    Mark(usize),
    /// Inside the prefix of a state that is called on a sub-tree, at this node of its model.
    Called(u8, u8, usize),
}

/// The earliest form, as far as it is written.
struct Writer<'p, 'a> {
    prefixes: &'p Prefixes<'a>,
    /// For each open end of a prefix the number of its state in the earliest form, or `UNMET`.
    numbers: Vec<u8>,
    /// The states met: the state of the transducer, and the open end.
    met: Vec<(u8, u16)>,
    counts: Vec<u8>,
    marks: Vec<u8>,
}

const UNMET: u8 = u8::MAX;

impl<'p, 'a> Writer<'p, 'a> {
    /// The earliest form, unless it passes a limit. What is written only grows, so that a limit
    /// passed on the way is passed in the end.
    fn write(prefixes: &'p Prefixes<'a>) -> Option<Trimmed> {
        let mut writer = Writer {
            prefixes,
            numbers: vec![UNMET; prefixes.marks.len()],
            met: Vec::with_capacity(MAX_STATES),
            counts: Vec::with_capacity(2 * prefixes.starts.len()),
            marks: Vec::with_capacity(2 * prefixes.marks.len()),
        };
        writer.term(Spot::Mark(0))?;
        let mut next = 0;
        while let Some(&(state, node)) = writer.met.get(next) {
            for symbol in 0..prefixes.inputs {
                writer.term(prefixes.spot(state.into(), symbol, node.into()))?;
            }
            next += 1;
        }
        let pairs = writer.met.iter().map(|&(state, node)| (state, prefixes.open_ends_before(state, node.into())));
        Some(Trimmed { pairs: pairs.collect(), counts: writer.counts, marks: writer.marks })
    }

    /// Writes the tree at a spot as the next term.
    fn term(&mut self, spot: Spot) -> Option<()> {
        let start = self.marks.len();
        match spot {
            Spot::Called(child, state, node) => self.prefix(child, state, node, start)?,
            Spot::Mark(root) => {
                for at in root..self.prefixes.end(root) {
                    match self.prefixes.marks[at] {
                        [0, symbol] => self.marks.extend([0, symbol]),
                        [child, state] => self.prefix(child, state, self.prefixes.model(state), start)?,
                    }
                }
            }
        }
        let count = (self.marks.len() - start) / 2;
        self.counts.extend((count as u16).to_be_bytes());
        (count <= MAX_TERM && self.marks.len() <= 2 * MAX_MARKS).then_some(())
    }

    /// Writes the part of a state's prefix that starts with a node of its model, the state being
    /// called on the sub-tree `child`, into the term that starts at `start`.
    fn prefix(&mut self, child: u8, state: u8, root: usize, start: usize) -> Option<()> {
        let prefixes = self.prefixes;
        let mut node = root;
        while node < prefixes.end(root) {
            if prefixes.varies[node] {
                let name = self.number(state, node)?;
                self.marks.extend([child, name]);
                node = prefixes.end(node);
            } else {
                self.marks.extend(prefixes.marks[node]);
                node += 1;
            }
        }
        (self.marks.len() - start <= 2 * MAX_TERM).then_some(())
    }

    /// The number of the state for an open end, the next one where it is first met.
    fn number(&mut self, state: u8, node: usize) -> Option<u8> {
        if self.numbers[node] == UNMET {
            if self.met.len() == MAX_STATES {
                return None;
            }
            self.numbers[node] = self.met.len() as u8;
            self.met.push((state, node as u16));
        }
        Some(self.numbers[node])
    }
}

impl Prefixes<'_> {
    /// Where the open end `node` of a state's prefix lies in its right-hand side at a symbol: all
    /// that is above it in the prefix is there too, by the definition of the prefix.
    fn spot(&self, state: usize, symbol: usize, node: usize) -> Spot {
        let (mut above, mut at) = (usize::from(self.models[state]), self.right_hand_side(state, symbol));
        while above != node {
            if self.end(above) <= node {
                (above, at) = (self.end(above), self.end(at));
                continue;
            }
            let [child, called] = self.marks[at];
            if child != 0 {
                return Spot::Called(child, called, self.below(above, self.model(called), node));
            }
            (above, at) = (above + 1, at + 1);
        }
        Spot::Mark(at)
    }

    /// The node that lies below `other` as `node` lies below `above`.
    fn below(&self, mut above: usize, mut other: usize, node: usize) -> usize {
        while above != node {
            (above, other) =
                if self.end(above) <= node { (self.end(above), self.end(other)) } else { (above + 1, other + 1) };
        }
        other
    }

    /// How many open ends of a state's prefix stand before the open end `node`.
    fn open_ends_before(&self, state: u8, node: usize) -> u8 {
        let (mut before, mut count) = (self.model(state), 0);
        while before < node {
            let varies = self.varies[before];
            count += u8::from(varies);
            before = if varies { self.end(before) } else { before + 1 };
        }
        count
    }
}
