//! The paper's samples, and transducers at the limits of the earliest form.
use super::Transducer;

pub const S: &[u8] = &[2, 1, 0, 2, 2, 0];
pub const T: &[u8] = &[1, 0, 3, 0, 3, 0, 1, 0, 0, 1, 0, 1, 0, 0, 0, 1, 0, 1, 0, 0, 1];
pub const T_PRIME: &[u8] = &[1, 0, 1, 0, 3, 0, 3, 1, 0, 0, 0, 1, 0, 1, 0, 0, 0, 0, 1, 0, 1];
pub const U: &[u8] = &[1, 0, 3, 0, 3, 0, 3, 0, 0, 1, 0, 1, 0, 0, 0, 1, 0, 1, 0, 0, 0, 0, 1, 0, 1];
/// No state, and the initial term e.
pub const CONSTANT: &[u8] = &[0, 0, 1, 0, 1];
/// The stock of M: a and e of ranks 2 and 0 to d and e of ranks 2 and 0.
pub const STOCK_OF_M: &[u8] = &[2, 2, 0, 2, 2, 0];

/// The file of a transducer.
pub fn file(states: usize, terms: &[&[u8]]) -> Vec<u8> {
    Transducer { states, terms: terms.iter().map(|term| term.to_vec()).collect() }.file()
}

/// All transducers of one state over S with terms of at most three marks, of which the state gives e or
/// f(e, e) at e.
pub fn one_state() -> Vec<Vec<u8>> {
    let terms: [&[u8]; 6] =
        [&[0, 1], &[1, 0], &[0, 0, 0, 1, 0, 1], &[0, 0, 0, 1, 1, 0], &[0, 0, 1, 0, 0, 1], &[0, 0, 1, 0, 1, 0]];
    let mut files = Vec::new();
    for initial in terms {
        for inner in terms {
            files.extend([terms[0], terms[2]].map(|leaf| file(1, &[initial, inner, leaf])));
        }
    }
    files
}

/// M: q(a(x1, x2)) = d(q(x1), d(q(x1), e)), q(e) = d(d(e, e), d(e, e)).
pub fn m() -> Vec<u8> {
    let side = [0, 0, 1, 0, 0, 0, 1, 0, 0, 1];
    file(1, &[&[1, 0], &side, &[0, 0, 0, 0, 0, 1, 0, 1, 0, 0, 0, 1, 0, 1]])
}

/// The minimal earliest transducer of M, found by hand.
pub fn clean_m() -> Vec<u8> {
    let prefix = [0, 0, 0, 0, 1, 0, 1, 1, 0, 0, 1, 2, 0, 1];
    let sides: [&[u8]; 6] = [&[0, 0, 1, 0, 1, 1], &[0, 1], &[0, 0, 1, 2, 0, 1], &[0, 1], &prefix, &[0, 1]];
    file(3, &[&[&prefix[..]], &sides[..]].concat())
}

/// A ring of states with the right-hand sides of T', each calling the next.
pub fn ring(states: usize) -> Vec<u8> {
    let mut terms = vec![vec![1, 0]];
    for state in 0..states {
        let next = ((state + 1) % states) as u8;
        terms.extend([vec![0, 0, 1, next, 1, next], vec![0, 0, 0, 1, 0, 1]]);
    }
    Transducer { states, terms }.file()
}

/// So many calls of the state of T', joined by f.
pub fn many_calls(calls: usize) -> Vec<u8> {
    let initial = [[0, 0, 1, 0].repeat(calls - 1), vec![1, 0]].concat();
    file(1, &[&initial, &[0, 0, 1, 0, 1, 0], &[0, 0, 0, 1, 0, 1]])
}

/// A right-hand side of 67 marks in the earliest form, of state 1; the initial term calls a state.
pub fn long_side(initial: u8) -> Vec<u8> {
    let long: Vec<u8> = [[0, 0, 1, 0].repeat(16), vec![1, 0]].concat();
    file(2, &[&[1, initial], &[0, 0, 1, 0, 1, 0], &[0, 0, 0, 1, 0, 1], &long, &[0, 1]])
}

/// 128 states with two open ends each, of which only the first state is called.
pub fn unreached_pairs() -> Vec<u8> {
    let sides: [&[u8]; 2] = [&[0, 0, 1, 0, 1, 0], &[0, 0, 0, 1, 0, 1]];
    let terms: Vec<&[u8]> = std::iter::once(&[1, 0][..]).chain(sides.repeat(128)).collect();
    file(128, &terms)
}

/// The stock of [`many_marks`]: 15 symbols of rank 1 and one of rank 0, to f, e, g of ranks 2, 0, 1.
pub fn stock_of_many_marks() -> Vec<u8> {
    [vec![16], vec![1; 15], vec![0, 3, 2, 0, 1]].concat()
}

/// A transducer of short terms, whose earliest form has 8,190 marks and those of the initial term: 111
/// states that give e at the symbol of rank 0 and f(next, e) at the first of 15 symbols of rank 1; at
/// the others f(k, e), where k always gives f(e, e), so that 3 marks become 5. The last of the 111 has
/// only 9 such right-hand sides, and else gives e.
pub fn many_marks(initial: &[u8]) -> Vec<u8> {
    let (leaf, fork) = (vec![0, 1], vec![0, 0, 0, 1, 0, 1]);
    let mut terms = vec![initial.to_vec()];
    for state in 0..111u8 {
        for symbol in 0..15u8 {
            let called = if symbol == 0 { (state + 1) % 111 } else { 111 };
            terms.push(if state < 110 || symbol < 9 { vec![0, 0, 1, called, 0, 1] } else { leaf.clone() });
        }
        terms.push(leaf.clone());
    }
    terms.extend(vec![fork; 16]);
    Transducer { states: 112, terms }.file()
}
