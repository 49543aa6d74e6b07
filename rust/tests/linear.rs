//! The linear test: of the initial term, and of the right-hand sides of those states that are reached from it. The
//! proved library against the independent implementation, on cases found by hand, on all small ones and on generated
//! ones.
//!
//! Every call is made three times, as in `compare.rs`, and the number that was lent is looked at. What is reached is
//! found once more here, by other means (`generate/reach.rs`), and two laws are tried: where all states are reached,
//! the answer is that of looking at every term; and it stays when the states that are not reached are taken out.
//! `cargo test --release --offline --test linear -- --nocapture` prints how often each outcome occurred.
mod generate;
mod lent;

use caplune::{ffi, slices};
use caplune_independent as independent;
use generate::reach::{self, members, Calls};
use generate::samples::S;
use generate::{damage, Random, Transducer};
use lent::{number, Tally, BEFORE};

/// What all three answer. A refusal leaves the number that was lent.
fn answered(stock: &[u8], file: &[u8]) -> Result<bool, u32> {
    let expected = independent::is_linear(stock, file);
    assert_eq!(number(slices::is_linear(stock, file)), expected, "{stock:?} {file:?}");
    for before in BEFORE {
        let mut linear = before;
        let refused = ffi::is_linear(stock, file, &mut linear);
        let left = expected.map_or(before, usize::from);
        assert_eq!((refused, linear), (expected.err().unwrap_or(0), left), "{stock:?} {file:?}");
    }
    expected
}

/// Whether the transducer, which is accepted, is linear; and the two laws.
fn check(tally: &mut Tally, stock: &[u8], sheet: &Transducer) -> bool {
    let calls = Calls::of(sheet);
    let reached = calls.reached();
    let linear = answered(stock, &sheet.file()).expect("it is accepted");
    assert_eq!(linear, !calls.initial_copies && calls.copying & reached == 0, "{stock:?} {sheet:?}");
    if reached.count_ones() as usize == sheet.states {
        assert_eq!(linear, !sheet.copies(), "{stock:?} {sheet:?}");
    }
    let kept = sheet.only(reached);
    assert_eq!(answered(stock, &kept.file()), Ok(linear), "{stock:?} {sheet:?}");
    assert_eq!(linear, !kept.copies(), "{stock:?} {sheet:?}");
    count(tally, &calls, reached, linear);
    linear
}

/// Counts the answer by what is reached, and by where a child is called twice.
fn count(tally: &mut Tally, calls: &Calls, reached: u128, linear: bool) {
    let mut answer = |kind| tally.count(kind, &Ok(()), if linear { "linear" } else { "not linear" });
    let all = reached.count_ones() as usize == calls.states.len();
    answer(if all { "all reached" } else { "not all reached" });
    let hidden = calls.copying & !reached;
    if hidden != 0 {
        answer("unreached copies");
    }
    if members(hidden).any(|state| calls.states[state] >> state & 1 == 1) {
        answer("and calls itself");
    }
    if members(hidden).any(|state| calls.states[state] & reached != 0) {
        answer("and calls reached");
    }
    let distance = calls.nearest_copy();
    assert_eq!(distance.is_none(), linear);
    let kind = match distance {
        None => return,
        Some(0) => "initial term",
        Some(1) => "1 call away",
        Some(2) => "2 calls away",
        Some(3..64) => "3 to 63",
        Some(_) => "64 to 128",
    };
    tally.count("nearest copy", &Ok(()), kind);
}

/// The outcomes of [`check`].
const OUTCOMES: [(&str, &str); 15] = [
    ("all reached", "linear"),
    ("all reached", "not linear"),
    ("not all reached", "linear"),
    ("not all reached", "not linear"),
    ("unreached copies", "linear"),
    ("unreached copies", "not linear"),
    ("and calls itself", "linear"),
    ("and calls itself", "not linear"),
    ("and calls reached", "linear"),
    ("and calls reached", "not linear"),
    ("nearest copy", "initial term"),
    ("nearest copy", "1 call away"),
    ("nearest copy", "2 calls away"),
    ("nearest copy", "3 to 63"),
    ("nearest copy", "64 to 128"),
];

/// Generated transducers, of which many have states that are not reached, and some a long way to a state.
#[test]
fn generated() {
    let mut tally = Tally::default();
    for seed in 0..30_000 {
        let mut random = Random::new(seed + 82_000_000);
        let (alphabets, sheet) = reach::any(&mut random);
        check(&mut tally, &alphabets.file(), &sheet);
    }
    tally.settle(&OUTCOMES, 100);
    let times = |kind, outcome: &str| tally.0[&(kind, outcome.to_string())];
    assert!(times("all reached", "linear") > 1_000 && times("all reached", "not linear") > 1_000);
    assert!(times("unreached copies", "linear") > 1_000);
    assert!(times("and calls itself", "linear") > 500 && times("and calls reached", "linear") > 500);
    assert!(times("nearest copy", "2 calls away") > 500);
    assert!(times("nearest copy", "3 to 63") > 500);
}

/// Damaged files: all of the file is looked at before anything is told of it.
#[test]
fn damaged() {
    let mut tally = Tally::default();
    for seed in 0..20_000 {
        let mut random = Random::new(seed + 83_000_000);
        let (alphabets, sheet) = reach::any(&mut random);
        let (mut stock, mut file) = (alphabets.file(), sheet.file());
        match random.below(8) {
            0 => damage(&mut random, &mut stock),
            1 => std::mem::swap(&mut stock, &mut file),
            _ => damage(&mut random, &mut file),
        }
        let answer = answered(&stock, &file);
        tally.count("is_linear", &answer, if answer == Ok(true) { "yes" } else { "no" });
    }
    let wanted = ["yes", "no", "refused 2", "refused 4", "refused 5"].map(|outcome| ("is_linear", outcome));
    tally.settle(&wanted, 300);
}

/// What is wrong in a state that is not reached is refused as it is elsewhere.
#[test]
fn damaged_where_not_reached() {
    let mut tally = Tally::default();
    for seed in 0..20_000 {
        let mut random = Random::new(seed + 84_000_000);
        let (alphabets, mut sheet) = reach::any(&mut random);
        let reached = Calls::of(&sheet).reached();
        let others: Vec<usize> = (0..sheet.states).filter(|state| reached >> state & 1 == 0).collect();
        if others.is_empty() {
            continue;
        }
        let inputs = alphabets.inputs.len();
        let side = 1 + random.pick(&others) * inputs + random.below(inputs);
        let outputs = alphabets.outputs.len() as u8;
        let leaf = [0, alphabets.outputs.iter().position(|&rank| rank == 0).expect("a leaf") as u8];
        let (term, refusal) = match random.below(6) {
            // no mark, or too many of them
            0 => (vec![], 4),
            1 => (leaf.repeat(65), 4),
            // no such symbol, state or child; two trees
            2 => (vec![0, outputs], 5),
            3 => (vec![1, sheet.states as u8], 5),
            4 => (vec![5, 0], 5),
            _ => (leaf.repeat(2), 5),
        };
        sheet.terms[side] = term;
        let answer = answered(&alphabets.file(), &sheet.file());
        assert_eq!(answer, Err(refusal), "{alphabets:?} {sheet:?}");
        tally.count("where not reached", &answer, "accepted");
    }
    tally.settle(&[("where not reached", "refused 4"), ("where not reached", "refused 5")], 1_000);
}

/// All terms that are a call, one output symbol without children, or one of two children which are calls.
fn terms(children: u8, states: u8) -> Vec<Vec<u8>> {
    let calls: Vec<[u8; 2]> = (1..=children).flat_map(|child| (0..states).map(move |state| [child, state])).collect();
    let forks = calls.iter().flat_map(|first| calls.iter().map(|second| [[0, 0], *first, *second].concat()));
    std::iter::once(vec![0, 1]).chain(calls.iter().map(|call| call.to_vec())).chain(forks).collect()
}

/// All transducers over these ranks of input symbols, f and e, with such terms.
fn all_small(tally: &mut Tally, inputs: &[u8], states: usize) -> usize {
    let stock = [&[inputs.len() as u8], inputs, &[2, 2, 0]].concat();
    let ranks: Vec<u8> = std::iter::once(1).chain(inputs.repeat(states)).collect();
    let choices: Vec<Vec<Vec<u8>>> = ranks.iter().map(|&rank| terms(rank, states as u8)).collect();
    let all = choices.iter().map(Vec::len).product();
    for number in 0..all {
        let mut left = number;
        let mut next = |choices: &Vec<Vec<u8>>| {
            let term = choices[left % choices.len()].clone();
            left /= choices.len();
            term
        };
        let sheet = Transducer { states, terms: choices.iter().map(&mut next).collect() };
        check(tally, &stock, &sheet);
    }
    all
}

#[test]
fn small_ones() {
    let mut tally = Tally::default();
    // three states; two symbols with a child; a symbol with two children
    let all = [(&[1, 0][..], 3), (&[1, 0, 1], 2), (&[2, 0], 2)];
    let sizes = all.map(|(inputs, states)| all_small(&mut tally, inputs, states));
    assert_eq!(sizes, [13usize.pow(4), 7usize.pow(5), 7 * 21 * 21]);
    // no way is longer than three calls
    tally.settle(&OUTCOMES[..14], 50);
}

/// So many states over S, each calling the next one, or itself if there is none: `called` tells which are called by the
/// one before them, which else calls itself, and `copying` which of them call their child twice.
fn chain(states: usize, called: impl Fn(usize) -> bool, copying: impl Fn(usize) -> bool) -> Transducer {
    let mut terms = vec![if called(0) { vec![1, 0] } else { vec![0, 1] }];
    for state in 0..states {
        let next = state + 1;
        let call = if next < states && called(next) { [1, next as u8] } else { [1, state as u8] };
        terms.push(if copying(state) { [[0, 0], call, call].concat() } else { call.to_vec() });
        terms.push(vec![0, 1]);
    }
    Transducer { states, terms }
}

/// Chains of 1 to 128 states, with the numbers of the states in their order or not.
#[test]
fn chains() {
    let mut tally = Tally::default();
    let mut random = Random::new(85_000_000);
    let mut expect = |linear: bool, sheet: Transducer| {
        for sheet in [sheet.permuted(&mut random), sheet] {
            assert_eq!(check(&mut tally, S, &sheet), linear, "{sheet:?}");
        }
    };
    for states in 1..=128 {
        let last = states - 1;
        expect(true, chain(states, |_| true, |_| false));
        expect(false, chain(states, |_| true, |state| state == last));
        // all but the last are reached, and that copies: it calls itself
        expect(true, chain(states, |state| state < last, |state| state == last));
        // all but the first copy, and none of them is reached
        expect(true, chain(states, |state| state != 1, |state| state > 0));
    }
    for states in [2, 3, 16, 17, 64, 65, 127, 128] {
        for copying in 0..states {
            expect(false, chain(states, |_| true, |state| state == copying));
            // the way ends before it, or at it
            expect(true, chain(states, |state| state != copying, |state| state == copying));
            expect(true, chain(states, |state| state != copying, |state| state >= copying));
            expect(false, chain(states, |state| state != copying + 1, |state| state >= copying));
            // nothing is reached
            expect(true, chain(states, |state| state > 0, |state| state >= copying));
        }
    }
    // here no initial term copies, and what is not reached calls nothing that is
    let wanted =
        OUTCOMES.into_iter().filter(|&(kind, outcome)| kind != "and calls reached" && outcome != "initial term");
    tally.settle(&wanted.collect::<Vec<_>>(), 30);
}
