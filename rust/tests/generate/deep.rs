//! Transducers and input trees whose output trees have about as many levels as one may have.
use super::{levels, tree, Alphabets, Growth, Random, Transducer};
use caplune_independent as independent;

/// The most levels of an output tree.
pub const MOST: usize = 256;
/// The most symbols of the output trees that are measured.
const LONGEST: usize = 60_000;

/// Which child of a symbol the path goes through, that is called or that is deep.
#[derive(Clone, Copy, Debug)]
enum Side {
    First,
    Last,
    Any,
}

impl Side {
    /// A child of these, from 0 on.
    fn of(self, random: &mut Random, children: usize) -> usize {
        match self {
            Side::First => 0,
            Side::Last => children - 1,
            Side::Any => random.below(children),
        }
    }
}

/// Alphabets, a transducer and an input tree. Half of the output trees, if they are not too long, are made to have as
/// many levels as one may have, or hardly more or fewer.
pub fn any(random: &mut Random) -> (Alphabets, Transducer, Vec<u8>) {
    let Drawn { alphabets, mut sheet, growth, mut tree_levels } = drawn(random);
    let stock = alphabets.file();
    let mut grown = tree(random, &alphabets.inputs, 4096, tree_levels, growth);
    if random.once_in(2) {
        return (alphabets, sheet, grown);
    }
    let wanted = random.pick(&[MOST - 1, MOST, MOST, MOST + 1, MOST + 1, MOST + 2]);
    for _ in 0..4 {
        let Ok(output) = independent::output_tree(&stock, &sheet.file(), &grown, LONGEST) else { break };
        let found = levels(&alphabets.outputs, &output);
        if found <= wanted {
            let initial = below(random, &alphabets.outputs, &sheet.terms[0], wanted - found);
            sheet.terms[0] = initial.unwrap_or_else(|| sheet.terms[0].clone());
            break;
        }
        tree_levels = (tree_levels * (wanted - 3) / found).max(1);
        grown = tree(random, &alphabets.inputs, 4096, tree_levels, growth);
    }
    (alphabets, sheet, grown)
}

/// The term below so many symbols, if it then has at most 64 marks.
fn below(random: &mut Random, outputs: &[u8], term: &[u8], symbols: usize) -> Option<Vec<u8>> {
    let around = path(random, outputs, symbols, Side::Any, &mut |random| leaf(random, outputs))?;
    let whole = [&around.0[..], term, &around.1].concat();
    (whole.len() <= 2 * 64).then_some(whole)
}

/// So many symbols, one below the other: the marks before and behind what stands below them. What stands beside the
/// path is what `beside` gives.
fn path(
    random: &mut Random,
    outputs: &[u8],
    symbols: usize,
    side: Side,
    beside: &mut dyn FnMut(&mut Random) -> Vec<u8>,
) -> Option<(Vec<u8>, Vec<u8>)> {
    let forks: Vec<u8> = (0..outputs.len() as u8).filter(|&symbol| outputs[usize::from(symbol)] > 0).collect();
    // long paths are of the symbols with the fewest children
    let few = *forks.iter().min_by_key(|&&symbol| outputs[usize::from(symbol)])?;
    let (mut before, mut behind) = (Vec::new(), Vec::new());
    for _ in 0..symbols {
        let symbol = if symbols > 12 { few } else { random.pick(&forks) };
        let rank = usize::from(outputs[usize::from(symbol)]);
        let at = side.of(random, rank);
        before.extend([0, symbol]);
        (0..at).for_each(|_| before.extend(beside(random)));
        let after: Vec<u8> = (at + 1..rank).flat_map(|_| beside(random)).collect();
        behind.splice(0..0, after);
    }
    Some((before, behind))
}

fn leaf(random: &mut Random, outputs: &[u8]) -> Vec<u8> {
    let leaves: Vec<u8> = (0..outputs.len() as u8).filter(|&symbol| outputs[usize::from(symbol)] == 0).collect();
    vec![0, random.pick(&leaves)]
}

/// A transducer, and how its input tree grows to how many levels.
struct Drawn {
    alphabets: Alphabets,
    sheet: Transducer,
    growth: Growth,
    tree_levels: usize,
}

/// A transducer in which right-hand sides go on with one child below a few symbols, and beside these call states of
/// higher numbers, so that outputs are copied and not long.
fn drawn(random: &mut Random) -> Drawn {
    let inputs: &[u8] = random.pick(&[&[1, 0][..], &[1, 0], &[1, 1, 0], &[2, 0], &[2, 1, 0], &[0, 3, 1], &[4, 0]]);
    let outputs: &[u8] =
        random.pick(&[&[1, 0][..], &[1, 0], &[2, 0], &[2, 1, 0], &[0, 3, 1, 0], &[4, 0], &[4, 2, 1, 0]]);
    let states = random.pick(&[1, 1, 2, 2, 3, 5]);
    let (growth, called) = match random.below(5) {
        0 | 1 => (Growth::Left, Side::First),
        2 | 3 => (Growth::Right, Side::Last),
        _ => (Growth::Even(random.range(8, 16)), Side::Any),
    };
    let side = random.pick(&[Side::First, Side::Last, Side::Any, Side::Any]);
    let fewest = outputs.iter().copied().filter(|&rank| rank > 0).min().expect("there is a fork");
    let symbols = random.pick(&[0, 1, 1, 1, 2, 3, 5, 8, 15, 31, 61]).min(63 / usize::from(fewest) - 2);
    let (more, copies, erased) = (random.pick(&[0, 0, 1, 2]), random.pick(&[0, 0, 4, 12]), random.pick(&[0, 0, 5]));
    // below a symbol with so many children: a call of a state from `least` on, or a leaf
    let beside = |random: &mut Random, children: usize, least: usize| {
        if children > 0 && least < states && random.below(16) < copies {
            return vec![random.range(1, children) as u8, random.range(least, states - 1) as u8];
        }
        leaf(random, outputs)
    };
    let term = |random: &mut Random, children: usize, state: usize, symbols: usize| {
        let symbols = symbols + random.below(more + 1);
        let next = (state + 1).min(states - 1);
        let around = path(random, outputs, symbols, side, &mut |random| beside(random, children, state + 1));
        let (before, behind) = around.expect("there is a fork");
        let end = match children {
            0 => leaf(random, outputs),
            _ => vec![1 + called.of(random, children) as u8, if random.once_in(12) { next } else { state } as u8],
        };
        [before, end, behind].concat()
    };
    let initial = random.pick(&[0, 0, 1, 2, 12]);
    // in the initial term any state is called beside the path
    let around = path(random, outputs, initial, side, &mut |random| beside(random, 1, 0));
    let (before, behind) = around.expect("there is a fork");
    let mut terms = vec![[before, vec![1, 0], behind].concat()];
    for state in 0..states {
        for &rank in inputs {
            let symbols = match rank {
                0 => random.pick(&[0, 0, 1, symbols]),
                _ if random.below(16) < erased => 0,
                _ => symbols,
            };
            terms.push(term(random, usize::from(rank), state, symbols));
        }
    }
    let wanted = random.range(180, if erased > 0 { 480 } else { 300 }) / symbols.max(1);
    let alphabets = Alphabets { inputs: inputs.to_vec(), outputs: outputs.to_vec() };
    Drawn { alphabets, sheet: Transducer { states, terms }, growth, tree_levels: wanted.clamp(1, 512) }
}
