//! Partial trees, and translation in the place of laying: with one symbol more for variables, and one for the calls
//! that stay.
use super::{Alphabets, Random, Transducer};

/// These ranks, and one symbol of rank 0 more: among input symbols the byte of a variable, among output symbols that
/// of a call that stays.
pub fn with_leaf(ranks: &[u8]) -> Vec<u8> {
    [ranks, &[0]].concat()
}

/// The tree with variables in the place of leaves: of none, one, some or all of them.
pub fn blanked(random: &mut Random, ranks: &[u8], tree: &[u8]) -> Vec<u8> {
    let is_leaf = |&node: &usize| ranks[usize::from(tree[node])] == 0;
    let mut leaves: Vec<usize> = (0..tree.len()).filter(is_leaf).collect();
    match random.below(6) {
        0 => leaves.clear(),
        1 | 2 => leaves = vec![random.pick(&leaves)],
        3 => {}
        _ => {
            let times = random.range(1, 15);
            leaves.retain(|_| random.below(16) < times);
        }
    }
    let mut partial = tree.to_vec();
    leaves.iter().for_each(|&leaf| partial[leaf] = ranks.len() as u8);
    partial
}

/// The partial tree with a tree in the place of each variable.
pub fn filled<'a>(partial: &'a [u8], variable: u8, mut with: impl FnMut() -> &'a [u8]) -> Vec<u8> {
    let trees = partial.chunks(1).map(|node| if node == [variable] { with() } else { node });
    trees.collect::<Vec<_>>().concat()
}

/// Alphabets and a transducer with the two symbols more, whose translation lays: each state gives at a variable a call
/// that stays.
pub fn wider(alphabets: &Alphabets, sheet: &Transducer) -> (Alphabets, Transducer) {
    let stays = vec![0, alphabets.outputs.len() as u8];
    let states = sheet.terms[1..].chunks(alphabets.inputs.len());
    let sides = states.flat_map(|sides| sides.iter().chain([&stays]));
    let terms = sheet.terms[..1].iter().chain(sides).cloned().collect();
    let [inputs, outputs] = [&alphabets.inputs, &alphabets.outputs].map(|ranks| with_leaf(ranks));
    (Alphabets { inputs, outputs }, Transducer { states: sheet.states, terms })
}

/// Alphabets with room for one symbol more each, and often for no more than that.
pub fn with_room(random: &mut Random) -> Alphabets {
    let mut alphabets = Alphabets::random(random);
    for (ranks, most) in [(&mut alphabets.inputs, 15), (&mut alphabets.outputs, 63)] {
        if ranks.len() > most || random.once_in(4) {
            ranks.resize(most, 0);
            ranks[random.below(most)] = 0;
        }
    }
    alphabets
}

/// A transducer for which the wider one has the longest file: 128 states, 16 input symbols and 8,192 marks.
pub fn longest() -> (Alphabets, Transducer) {
    let alphabets = Alphabets { inputs: [vec![1; 14], vec![0]].concat(), outputs: [vec![1], vec![0; 62]].concat() };
    // 64 marks, 320 times 5 and 1,600 times 4, and one for each state
    let side = |number: usize| {
        let (state, symbol) = (number / 15, number % 15);
        let end = if symbol < 14 { [1, (state as u8 + 1) % 128] } else { [0, 1 + state as u8 % 62] };
        [vec![0; 2 * if number < 320 { 4 } else { 3 }], end.to_vec()].concat()
    };
    let initial = [vec![0; 2 * 63], vec![1, 0]].concat();
    (alphabets, Transducer { states: 128, terms: std::iter::once(initial).chain((0..128 * 15).map(side)).collect() })
}
