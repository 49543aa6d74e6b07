//! Holds the proved composition of two transducers against the independent one, on pairs found by hand, on
//! pairs at the limits of the joined transducer and past them, and on generated pairs, valid ones and damaged
//! ones; and against the translations of the two, one after the other.
//!
//! Every call is made three times: by the safe function of this crate, by the C function itself, and by the
//! independent function. The answers have to be the same, and every byte and number that was lent is looked
//! at, as in `compare.rs`. `cargo test --release --offline --test joining -- --nocapture` prints how often
//! each outcome occurred.
mod generate;
mod lent;

use caplune::ffi;
use caplune::slices::{self, Comparison, Form, ADDRESS_AREA, TREE_AREA};
use caplune_independent as independent;
use generate::joins::{self, joined_stock, Pair};
use generate::samples::*;
use generate::{deep, small_trees, Alphabets, Random, Transducer};
use independent::{MAX_FILE, MAX_NODES};
use lent::{number, Lent, Tally, BEFORE};
use std::time::{Duration, Instant};

/// The file of the joined transducer that all three give, or the refusal.
fn join_in(tally: &mut Tally, pair: &Pair, area: usize) -> Result<Vec<u8>, u32> {
    let mut lent = [Lent::new(area), Lent::new(area), Lent::new(area)];
    let copy = pair.clone();
    let ([first_stock, second_stock], [first, second]) = (&copy.stocks, &copy.files);
    let length =
        independent::join_into(&pair.stocks[0], &pair.stocks[1], &pair.files[0], &pair.files[1], lent[0].area());
    let expected = length.map(|length| lent[0].area()[..length].to_vec());
    let told = expected.as_ref().map_err(|&number| number).map(|form| {
        let (states, marks) = joins::size(first_stock, form);
        Form { states, marks, length: form.len() }
    });
    let safe = slices::join(first_stock, second_stock, first, second, lent[1].area());
    assert_eq!(number(safe), told, "{pair:?} {area}");
    let [mut states, mut marks, mut length] = BEFORE;
    let refused =
        ffi::join(first_stock, second_stock, first, second, lent[2].area(), &mut states, &mut marks, &mut length);
    let left = told.map_or(BEFORE, |form| [form.states, form.marks, form.length]);
    assert_eq!((refused, [states, marks, length]), (told.err().unwrap_or(0), left), "{pair:?} {area}");
    let written = expected.as_deref().unwrap_or_default();
    assert!(lent.iter().all(|lent| lent.holds(written)), "{pair:?} {area}");
    // what was lent for reading
    assert!(copy.stocks == pair.stocks && copy.files == pair.files, "{pair:?} {area}");
    tally.count("join", &told, "accepted");
    expected
}

/// The same in an area of the least length that is taken. The joined transducer is read under its stock.
fn join(tally: &mut Tally, pair: &Pair) -> Result<Vec<u8>, u32> {
    let joined = join_in(tally, pair, MAX_FILE)?;
    let read = slices::read_transducer(&joined_stock(&pair.stocks[0], &pair.stocks[1]), &joined);
    assert!(read.is_ok(), "{pair:?}");
    Ok(joined)
}

/// The outcomes that the paper has.
const OUTCOMES: [(&str, &str); 7] = [
    ("join", "accepted"),
    ("join", "refused 1"),
    ("join", "refused 2"),
    ("join", "refused 4"),
    ("join", "refused 5"),
    ("join", "refused 16"),
    ("join", "refused 17"),
];

#[test]
fn samples() {
    let mut tally = Tally::default();
    for (name, pair, expected) in joins::samples() {
        assert_eq!(join(&mut tally, &pair).as_ref(), Ok(&expected), "{name}");
        for area in [20_483, 20_484, 65_536] {
            assert_eq!(join_in(&mut tally, &pair, area).as_ref(), Ok(&expected), "{name}");
        }
        for area in [0, 1, expected.len(), 20_482] {
            assert_eq!(join_in(&mut tally, &pair, area), Err(1), "{name}");
        }
    }
    // T after T' is U, and T' after T as well, before any cleaning
    let joined = |first, second| join(&mut Tally::default(), &Pair::new([S, joins::PAIRS], [first, second]));
    assert_eq!(joined(T_PRIME, joins::T_OF_PAIRS).as_deref(), Ok(U));
    assert_eq!(joined(T, joins::T_PRIME_OF_PAIRS).as_deref(), Ok(U));
}

#[test]
fn limits() {
    let mut tally = Tally::default();
    let mut longest = Duration::ZERO;
    for (name, pair, expected) in joins::limits() {
        let Pair { stocks: [first_stock, second_stock], files: [first, second] } = &pair;
        for (stock, file) in [(first_stock, first), (second_stock, second)] {
            assert!(slices::read_transducer(stock, file).is_ok(), "{name}");
        }
        let mut area = vec![0; MAX_FILE];
        let start = Instant::now();
        let form = slices::join(first_stock, second_stock, first, second, &mut area);
        longest = longest.max(start.elapsed());
        assert_eq!(number(form).map(|form| (form.states, form.marks)), expected, "{name}");
        let joined = join(&mut tally, &pair);
        assert_eq!(joined.is_ok(), expected.is_ok(), "{name}");
    }
    assert_eq!(join(&mut tally, &joins::longest(0)).map(|joined| joined.len()), Ok(MAX_FILE));
    println!("the longest call took {longest:?}");
    // terms of over 2^315 marks are not built
    assert!(longest < Duration::from_secs(1));
    tally.settle(&[OUTCOMES[0], OUTCOMES[6]], 20);
}

/// Every two faults and more, with areas that are too short and long enough: the first fault in the paper's order
/// is told.
#[test]
fn order_of_refusals() {
    let mut tally = Tally::default();
    let (bad_stock, bad_count, bad_term): (&[u8], &[u8], &[u8]) = (&[1, 1, 1, 0], &[1, 0, 3], &[0, 0, 1, 1, 0]);
    // under S and PAIRS: an initial term of 63 marks, which becomes one of 31 f for each f in it
    let comb = [[0, 0, 0, 1].repeat(31), vec![0, 1]].concat();
    let over = file(0, &[&comb]);
    let many = file(1, &[&[1, 0], &[[0, 0, 1, 0].repeat(31), vec![2, 0]].concat(), &[0, 1]]);
    let first_stocks = [(bad_stock, 2), (S, 0)];
    let second_stocks = [(bad_stock, 2)].into_iter().chain(joins::other_stocks().map(|stock| (stock, 16)));
    let second_stocks: Vec<_> = second_stocks.chain([(joins::PAIRS, 0)]).collect();
    // a mirror calls a second sub-tree, which a does not have
    let first_files = [(bad_count, 4), (bad_term, 5), (joins::MIRROR, 5), (&over[..], 0)];
    let second_files = [(bad_count, 4), (bad_term, 5), (&many[..], 17), (joins::MIRROR, 0)];
    for (first_stock, one) in first_stocks {
        for &(second_stock, two) in &second_stocks {
            for (first, three) in first_files {
                for (second, four) in second_files {
                    let pair = Pair::new([first_stock, second_stock], [first, second]);
                    let expected = [one, two, three, four].into_iter().find(|&number| number > 0);
                    for area in [0, 1, 20_482] {
                        assert_eq!(join_in(&mut tally, &pair, area), Err(1));
                    }
                    for area in [20_483, 20_484, 65_536] {
                        assert_eq!(join_in(&mut tally, &pair, area).err(), expected, "{pair:?}");
                    }
                }
            }
        }
    }
    // 17 output symbols are more than a stock has input symbols, whatever stands there
    let wide = [vec![2, 1, 0, 17, 2], vec![0; 16]].concat();
    let sixteen = [vec![16, 2], vec![0; 15], vec![2, 2, 0]].concat();
    assert_eq!(join(&mut tally, &Pair::new([&wide, &sixteen], [T, joins::MIRROR])), Err(16));
    tally.settle(&OUTCOMES, 3);
}

/// Damages one of the four files, or two; or swaps, empties or replaces some.
fn damage(random: &mut Random, pair: &mut Pair) {
    let Pair { stocks, files } = pair;
    match random.below(16) {
        0 => generate::damage(random, &mut stocks[0]),
        1 | 2 => generate::damage(random, &mut stocks[1]),
        3 => {
            generate::damage(random, &mut files[0]);
            generate::damage(random, &mut files[1]);
        }
        4 => {
            let (one, two) = (random.below(2), random.below(2));
            generate::damage(random, &mut stocks[one]);
            generate::damage(random, &mut files[two]);
        }
        5 => match random.below(7) {
            0 => stocks.swap(0, 1),
            1 => files.swap(0, 1),
            2 => {
                stocks.swap(0, 1);
                files.swap(0, 1);
            }
            3 => stocks[random.below(2)].clear(),
            4 => files[random.below(2)].clear(),
            5 => stocks[1] = stocks[0].clone(),
            _ => stocks[1] = Alphabets::random(random).file(),
        },
        // the rank of one input symbol of the second
        6 => {
            let at = random.range(1, usize::from(stocks[1][0]));
            stocks[1][at] = random.range(0, 4) as u8;
        }
        kind => generate::damage(random, &mut files[kind % 2]),
    }
}

#[test]
fn generated_cases() {
    let mut tally = Tally::default();
    let (mut states, mut marks, mut term, mut more) = (0, 0, 0, 0);
    for seed in 0..50_000 {
        let mut random = Random::new(seed + 33_000_000);
        let two = joins::any(&mut random, 2);
        let mut pair = Pair::of(&two[0], &two[1]);
        if let Ok(joined) = join(&mut tally, &pair) {
            let (count, sum) = joins::size(&pair.stocks[0], &joined);
            states = states.max(count);
            marks = marks.max(sum);
            let counts = &joined[1..][..2 * (1 + count * usize::from(pair.stocks[0][0]))];
            term = term.max(counts.chunks(2).map(|pair| pair[1]).max().expect("there is the initial term"));
            more += usize::from(count > two[0].1.states.max(two[1].1.states));
        }
        damage(&mut random, &mut pair);
        let _ = join_in(&mut tally, &pair, generate::area(&mut random));
    }
    tally.settle(&OUTCOMES, 1_000);
    println!("joined ones: at most {states} states, {marks} marks, {term} marks in a term");
    println!("{more} of more states than each of the two");
    assert!(states == 128 && marks > 6_000 && term == 64 && more > 1_000);
}

/// The transducers of one state over S with terms of at most three marks, each before each of those over PAIRS.
#[test]
fn all_small_pairs() {
    let mut tally = Tally::default();
    let firsts = one_state();
    let terms: [&[u8]; 5] = [&[0, 1], &[1, 0], &[0, 0, 0, 1, 0, 1], &[0, 0, 0, 1, 1, 0], &[0, 0, 1, 0, 1, 0]];
    let sides: [&[u8]; 6] = [&[0, 1], &[1, 0], &[2, 0], &[0, 0, 0, 1, 2, 0], &[0, 0, 1, 0, 1, 0], &[0, 0, 2, 0, 1, 0]];
    let mut pairs = 0;
    for initial in terms {
        for side in sides {
            for leaf in [terms[0], terms[2]] {
                let second = file(1, &[initial, side, leaf]);
                for first in &firsts {
                    let joined = join(&mut tally, &Pair::new([S, joins::PAIRS], [first, &second]));
                    let joined = joined.expect("it is within the limits");
                    assert!(joined[0] <= 1);
                    for levels in 1..=4 {
                        let tree = [vec![0; levels - 1], vec![1]].concat();
                        let between = output(S, first, &tree, OUTPUT).expect("it is short");
                        let after = output(joins::PAIRS, &second, &between, OUTPUT);
                        assert_eq!(output(S, &joined, &tree, OUTPUT), after, "{first:?} {second:?} {tree:?}");
                    }
                    pairs += 1;
                }
            }
        }
    }
    assert_eq!(pairs, 60 * firsts.len());
    tally.settle(&OUTCOMES[..1], pairs);
}

/// The most symbols of an output tree of the second.
const OUTPUT: usize = 2_000;

/// The output tree of at most so many symbols, by the proved translation and by the independent one.
fn output(stock: &[u8], file: &[u8], tree: &[u8], most: usize) -> Result<Vec<u8>, u32> {
    let mut area = vec![0xa5; most];
    let length = number(slices::translate(stock, file, tree, &mut area));
    let written = length.map(|length| area[..length].to_vec());
    assert_eq!(independent::translate(stock, file, tree, most), written, "{stock:?} {file:?} {tree:?}");
    written
}

/// The output of the joined transducer is that of the second on that of the first, by the proved translations and
/// by the independent ones, on all small input trees.
#[test]
fn outputs_after_outputs() {
    let mut tally = Tally::default();
    let [mut built, mut too_long, mut too_deep, mut no_tree, mut deep_between] = [0; 5];
    for seed in 0..6_000 {
        let mut random = Random::new(seed + 34_000_000);
        // a copy before or behind one whose output has many levels, or any two
        let (mut two, mut trees) = (joins::any(&mut random, 2), vec![]);
        if seed % 10 == 0 {
            let (alphabets, sheet, tree) = deep::any(&mut random);
            let copied = if seed % 20 == 0 { &alphabets.outputs } else { &alphabets.inputs };
            let copy = (Alphabets { inputs: copied.clone(), outputs: copied.clone() }, joins::identity(copied));
            two = if seed % 20 == 0 { vec![(alphabets, sheet), copy] } else { vec![copy, (alphabets, sheet)] };
            trees.push(tree);
        }
        let pair = Pair::of(&two[0], &two[1]);
        let Ok(joined) = join(&mut tally, &pair) else { continue };
        let Pair { stocks: [first_stock, second_stock], files: [first, second] } = &pair;
        let stock = joined_stock(first_stock, second_stock);
        trees.extend(small_trees(&two[0].0.inputs, 40));
        trees.extend((0..4).map(|_| {
            let nodes = random.range(1, 40);
            generate::tree(&mut random, &two[0].0.inputs, nodes, 30, generate::Growth::Even(12))
        }));
        for tree in trees {
            let mut between = output(first_stock, first, &tree, MAX_NODES);
            if between == Err(10) {
                // an input tree may have more levels than an output tree
                between = independent::output_tree(first_stock, first, &tree, MAX_NODES);
                deep_between += 1;
            }
            let after = between.and_then(|between| match output(second_stock, second, &between, OUTPUT) {
                Err(3) => Err(3),
                after => Ok(after),
            });
            // the output of the first has too many nodes or levels for an input tree
            let Ok(after) = after else {
                no_tree += 1;
                continue;
            };
            assert_eq!(output(&stock, &joined, &tree, OUTPUT), after, "{pair:?} {tree:?}");
            *match after {
                Ok(_) => &mut built,
                Err(10) => &mut too_deep,
                Err(_) => &mut too_long,
            } += 1;
        }
    }
    println!(
        "{built} outputs built, {too_long} too long, {too_deep} too deep, {no_tree} where that of the first is no"
    );
    println!("input tree; {deep_between} where that of the first is too deep");
    assert!(built > 100_000 && too_long > 100 && too_deep > 100 && no_tree > 100 && deep_between > 100);
}

/// Whether two transducers are equivalent, by the proved comparison; `None` if one of them is over the limits of
/// the earliest form.
fn alike(stock: &[u8], first: &[u8], second: &[u8]) -> Option<bool> {
    let (mut tree, mut address) = ([0; TREE_AREA], [0; ADDRESS_AREA]);
    match slices::compare(stock, first, second, &mut tree, &mut address) {
        Ok(comparison) => Some(comparison == Comparison::Alike),
        Err(refusal) => {
            assert_eq!(refusal.number(), 7, "{stock:?} {first:?} {second:?}");
            None
        }
    }
}

/// The normal form of a transducer that is read, unless it is over the limits.
fn clean(stock: &[u8], file: &[u8]) -> Option<Vec<u8>> {
    let mut area = vec![0; MAX_FILE];
    match slices::clean(stock, file, &mut area) {
        Ok(form) => Some(area[..form.length].to_vec()),
        Err(refusal) => {
            assert_eq!(refusal.number(), 7, "{stock:?} {file:?}");
            None
        }
    }
}

/// Joined transducers are equivalent if those that are joined are: their normal forms, and others that are
/// equivalent by construction. And a transducer is equivalent to itself joined with one that gives its input tree.
#[test]
fn alike_by_construction() {
    let mut tally = Tally::default();
    let [mut cleaned, mut changed, mut same, mut refused] = [0; 4];
    for seed in 0..8_000 {
        let mut random = Random::new(seed + 35_000_000);
        let two = joins::any(&mut random, 2);
        let pair = Pair::of(&two[0], &two[1]);
        let Ok(joined) = join(&mut tally, &pair) else { continue };
        let Pair { stocks: [first_stock, second_stock], files: [first, second] } = &pair;
        let stock = joined_stock(first_stock, second_stock);
        let mut compare = |tally: &mut Tally, files: [&[u8]; 2], times: &mut usize| {
            let other = join(tally, &Pair::new([first_stock, second_stock], files));
            let verdict = other.as_ref().ok().and_then(|other| alike(&stock, &joined, other));
            assert_ne!(verdict, Some(false), "{pair:?} {files:?}");
            *if verdict.is_some() { times } else { &mut refused } += 1;
            if let (Ok(other), Some(_)) = (&other, verdict) {
                assert_eq!(clean(&stock, other), clean(&stock, &joined), "{pair:?} {files:?}");
            }
        };
        if let (Some(one), Some(two)) = (clean(first_stock, first), clean(second_stock, second)) {
            compare(&mut tally, [&one, &two], &mut cleaned);
            compare(&mut tally, [&one, second], &mut cleaned);
            compare(&mut tally, [first, &two], &mut cleaned);
        }
        let others = [0, 1].map(|which: usize| two[which].1.alike(&mut random, &two[which].0, 6).file());
        compare(&mut tally, [&others[0], &others[1]], &mut changed);
        // one that gives its input tree, before the first and behind it
        let (inputs, outputs) = (&two[0].0.inputs, &two[0].0.outputs);
        let identity = |ranks: &Vec<u8>| -> (Alphabets, Transducer) {
            (Alphabets { inputs: ranks.clone(), outputs: ranks.clone() }, joins::identity(ranks))
        };
        for pair in [Pair::of(&identity(inputs), &two[0]), Pair::of(&two[0], &identity(outputs))] {
            let other = join(&mut tally, &pair).expect("it has no more than the first itself");
            let verdict = alike(first_stock, first, &other);
            assert_ne!(verdict, Some(false), "{pair:?}");
            *if verdict.is_some() { &mut same } else { &mut refused } += 1;
        }
    }
    println!("{cleaned} of normal forms, {changed} of equivalent ones, {same} with the identity, {refused} refused");
    assert!(cleaned > 10_000 && changed > 4_000 && same > 10_000 && refused > 100);
}

/// Three transducers joined either way are one, to the byte, wherever the two that are joined first are within the
/// limits.
#[test]
fn three_either_way() {
    let mut tally = Tally::default();
    let (mut joined, mut over) = (0, 0);
    for seed in 0..12_000 {
        let mut random = Random::new(seed + 36_000_000);
        let three = joins::any(&mut random, 3);
        let [one, two, last] = [0, 1, 2].map(|which: usize| three[which].0.file());
        let (left, right) = (Pair::of(&three[0], &three[1]), Pair::of(&three[1], &three[2]));
        let (Ok(left), Ok(right)) = (join(&mut tally, &left), join(&mut tally, &right)) else { continue };
        let [left_stock, right_stock] = [joined_stock(&one, &two), joined_stock(&two, &last)];
        let (first, third) = (three[0].1.file(), three[2].1.file());
        let one_way = join(&mut tally, &Pair::new([&left_stock, &last], [&left, &third]));
        let other_way = join(&mut tally, &Pair::new([&one, &right_stock], [&first, &right]));
        assert_eq!(one_way, other_way, "{three:?}");
        *if one_way.is_ok() { &mut joined } else { &mut over } += 1;
    }
    println!("{joined} joined either way, {over} over the limits either way");
    assert!(joined > 5_000 && over > 200);
}
