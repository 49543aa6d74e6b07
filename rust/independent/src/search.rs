//! A search for an input tree on which two transducers differ: a second opinion on equivalence that
//! uses neither prefixes nor the merging of states.
use super::{parse_transducer, read_alphabets, Alphabets, Transducer};
use std::collections::HashMap;

/// The first input tree of at most `limit` nodes, by size, on which the outputs of the two
/// transducers differ. Refuses by 2, by 4 and 5 for `first`, and by 4 and 5 for `second`.
///
/// All trees are tried, so that only small limits are of use; but the outputs may be long: equal
/// sub-trees of outputs are one node, and the outputs of all states are kept for each tree.
pub fn search_difference(stock: &[u8], first: &[u8], second: &[u8], limit: usize) -> Result<Option<Vec<u8>>, u32> {
    let alphabets = read_alphabets(stock)?;
    let first = parse_transducer(alphabets, first)?;
    let second = parse_transducer(alphabets, second)?;
    let mut search = Search { alphabets, nodes: HashMap::new(), trees: Vec::new(), outputs: [vec![], vec![]] };
    // The trees of each size are those from one start to the next.
    let mut starts = vec![0, 0];
    for size in 1..=limit {
        for symbol in 0..alphabets.inputs.len() as u8 {
            let mut children = Vec::new();
            if let Some(tree) = search.grow(&[&first, &second], &starts, symbol, size - 1, &mut children) {
                return Ok(Some(search.symbols(tree)));
            }
        }
        starts.push(search.trees.len());
    }
    Ok(None)
}

/// How many trees of at most `limit` nodes there are over symbols of these ranks.
pub fn count_trees(ranks: &[u8], limit: usize) -> usize {
    let mut of_size = vec![0usize; limit + 1];
    for size in 1..=limit {
        let mut count = 0usize;
        for &rank in ranks {
            // the ways to share the nodes below the root among so many sub-trees
            let mut ways = vec![0usize; size];
            ways[0] = 1;
            for _ in 0..rank {
                ways = (0..size)
                    .map(|nodes| {
                        let with = |last: usize| ways[nodes - last].saturating_mul(of_size[last]);
                        (1..=nodes).fold(0usize, |sum, last| sum.saturating_add(with(last)))
                    })
                    .collect();
            }
            count = count.saturating_add(ways[size - 1]);
        }
        of_size[size] = count;
    }
    of_size.iter().fold(0, |sum, &count| sum.saturating_add(count))
}

struct Search<'a> {
    alphabets: Alphabets<'a>,
    /// The nodes of outputs: symbol and children.
    nodes: HashMap<(u8, [u32; 4]), u32>,
    /// The trees tried: symbol and children.
    trees: Vec<(u8, Vec<usize>)>,
    /// For each transducer the outputs of all its states on each tree.
    outputs: [Vec<u32>; 2],
}

impl Search<'_> {
    /// Tries all trees with this symbol, these first children and so many nodes in the others, until
    /// the transducers differ on one.
    fn grow(
        &mut self,
        transducers: &[&Transducer; 2],
        starts: &[usize],
        symbol: u8,
        left: usize,
        children: &mut Vec<usize>,
    ) -> Option<usize> {
        let missing = usize::from(self.alphabets.inputs[usize::from(symbol)]) - children.len();
        if missing == 0 {
            return if left == 0 { self.try_tree(transducers, symbol, children) } else { None };
        }
        let sizes = if missing == 1 { left..left + 1 } else { 1..left };
        for size in sizes {
            if size == 0 || size + 1 >= starts.len() {
                continue;
            }
            for child in starts[size]..starts[size + 1] {
                children.push(child);
                let found = self.grow(transducers, starts, symbol, left - size, children);
                children.pop();
                if found.is_some() {
                    return found;
                }
            }
        }
        None
    }

    /// Takes a tree in, and answers it if the outputs of the transducers differ on it.
    fn try_tree(&mut self, transducers: &[&Transducer; 2], symbol: u8, children: &[usize]) -> Option<usize> {
        let tree = self.trees.len();
        self.trees.push((symbol, children.to_vec()));
        let [first, second] = [0, 1].map(|which| {
            let transducer = transducers[which];
            for state in 0..transducer.states {
                let node = self.output(which, transducer, transducer.right_hand_side(state as u8, symbol), children);
                self.outputs[which].push(node);
            }
            self.output(which, transducer, transducer.terms[0], &[tree])
        });
        (first != second).then_some(tree)
    }

    /// The node of the tree that a term gives, its calls being on these trees.
    fn output(&mut self, which: usize, transducer: &Transducer, term: &[u8], children: &[usize]) -> u32 {
        let mut waiting: Vec<u32> = Vec::with_capacity(64);
        for &[child, name] in term.as_chunks().0.iter().rev() {
            if child > 0 {
                let tree = children[usize::from(child) - 1];
                waiting.push(self.outputs[which][tree * transducer.states + usize::from(name)]);
                continue;
            }
            let mut below = [u32::MAX; 4];
            for node in &mut below[..usize::from(self.alphabets.outputs[usize::from(name)])] {
                *node = waiting.pop().expect("the term is a tree");
            }
            let next = self.nodes.len() as u32;
            waiting.push(*self.nodes.entry((name, below)).or_insert(next));
        }
        waiting[0]
    }

    fn symbols(&self, tree: usize) -> Vec<u8> {
        let (symbol, children) = &self.trees[tree];
        let below = children.iter().flat_map(|&child| self.symbols(child));
        std::iter::once(*symbol).chain(below).collect()
    }
}
