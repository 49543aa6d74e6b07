//! Holds the proved comparison against the independent one and against the search for a difference, on
//! the paper's samples, on generated pairs of transducers, valid ones and damaged ones, on pairs that
//! are equivalent by construction, and on pairs that differ as late as can be.
//!
//! Every call is made by the safe function of this crate and by the C function itself. The verdict has
//! to be the independent one. Which difference is shown is the library's choice: each is looked at by the
//! independent readers, which find the two symbols at its address without building an output tree. Every
//! byte and number that was lent is looked at, as in `compare.rs`. `cargo test --release --offline --test
//! comparison -- --nocapture` prints how often each outcome occurred, and the largest differences.
mod generate;
mod lent;

use caplune::ffi;
use caplune::slices::{self, Comparison, ADDRESS_AREA, TREE_AREA};
use caplune_independent as independent;
use generate::alike::{any, chain, chain_alphabets, small_alphabets, small_transducer};
use generate::rows::{row_alphabets, way_alphabets, Row};
use generate::samples::*;
use generate::{affordable, enough, Alphabets, Random, Transducer};
use independent::Verdict;
use lent::{number, Lent, Tally, BEFORE};

/// A difference that was shown.
#[derive(Clone, Debug, PartialEq)]
struct Shown {
    tree: Vec<u8>,
    levels: usize,
    address: Vec<u8>,
    symbols: (u8, u8),
}

/// The most levels of a shown input tree.
const LEVELS: usize = 384;

/// How often each outcome occurred, and the most nodes, levels and address numbers that were shown.
#[derive(Default)]
struct Test {
    tally: Tally,
    largest: [usize; 3],
}

impl Test {
    /// The difference that both show, `None` if the two transducers are alike; or the refusal.
    fn compare(&mut self, stock: &[u8], first: &[u8], second: &[u8]) -> Result<Option<Shown>, u32> {
        self.compare_in(stock, first, second, [TREE_AREA, ADDRESS_AREA])
    }

    /// The same with areas of these lengths.
    fn compare_in(
        &mut self,
        stock: &[u8],
        first: &[u8],
        second: &[u8],
        areas: [usize; 2],
    ) -> Result<Option<Shown>, u32> {
        let told = || format!("{stock:?} {first:?} {second:?} {areas:?}");
        let verdict = independent::compare(stock, first, second);
        self.shorter(stock, first, second, verdict);
        let long_enough = areas[0] >= TREE_AREA && areas[1] >= ADDRESS_AREA;
        let expected = if long_enough { verdict } else { Err(independent::AREA_TOO_SHORT) };
        let lent_files = [stock, first, second].map(<[u8]>::to_vec);
        let [mut tree, mut address] = areas.map(Lent::new);
        let answer = slices::compare(&lent_files[0], &lent_files[1], &lent_files[2], tree.area(), address.area());
        let shown = number(answer).map(|comparison| match comparison {
            Comparison::Alike => None,
            Comparison::Differ(shown) => {
                let levels = independent::read_tree(stock, shown.tree).map_or(usize::MAX, |tree| tree.levels);
                let (tree, address) = (shown.tree.to_vec(), shown.address.to_vec());
                Some(Shown { tree, levels, address, symbols: (shown.first, shown.second) })
            }
        });
        let outcome = |shown: &Option<Shown>| if shown.is_some() { Verdict::Differ } else { Verdict::Alike };
        assert_eq!(shown.as_ref().map(outcome).map_err(|&number| number), expected, "{}", told());
        let parts = shown.as_ref().ok().and_then(Option::as_ref).map(|shown| (&shown.tree[..], &shown.address[..]));
        let (tree_written, address_written) = parts.unwrap_or_default();
        assert!(tree.holds(tree_written) && address.holds(address_written), "{}", told());
        assert_eq!(exported(&lent_files, areas), shown, "{}", told());
        // what was lent for reading
        assert!(lent_files == [stock, first, second], "{}", told());
        if let Ok(Some(shown)) = &shown {
            self.look_at(stock, first, second, shown);
        }
        let name = if matches!(shown, Ok(None)) { "alike" } else { "differ" };
        self.tally.count("compare", &shown, name);
        shown
    }

    /// Looks at a shown difference by the independent readers.
    fn look_at(&mut self, stock: &[u8], first: &[u8], second: &[u8], shown: &Shown) {
        let told = || format!("{stock:?} {first:?} {second:?} {shown:?}");
        assert!(independent::read_tree(stock, &shown.tree).is_ok(), "{}", told());
        let size = [shown.tree.len(), shown.levels, shown.address.len()];
        assert!(size.iter().zip([TREE_AREA, LEVELS, ADDRESS_AREA]).all(|(&size, most)| size <= most), "{}", told());
        let symbol = |file| independent::symbol_at(stock, file, &shown.tree, &shown.address);
        assert_eq!(symbol(first), Ok(Some(shown.symbols.0)), "{}", told());
        assert_eq!(symbol(second), Ok(Some(shown.symbols.1)), "{}", told());
        assert_ne!(shown.symbols.0, shown.symbols.1, "{}", told());
        self.largest.iter_mut().zip(size).for_each(|(largest, size)| *largest = size.max(*largest));
    }

    /// The marks of the one with fewer, which are a part of its file.
    fn shorter(&mut self, stock: &[u8], first: &[u8], second: &[u8], verdict: Result<Verdict, u32>) {
        let expected = (verdict == Ok(Verdict::Alike)).then(|| {
            let marks = |file| independent::read_transducer(stock, file).expect("it is read").marks.len();
            let (one, two) = (marks(first), marks(second));
            if two < one {
                (2, second, second.len() - two)
            } else {
                (1, first, first.len() - one)
            }
        });
        let told = || format!("{stock:?} {first:?} {second:?}");
        // the same bytes, and in the same place
        let part = slices::shorter(stock, first, second).map(<[u8]>::as_ptr_range);
        assert_eq!(part, expected.map(|(_, file, start)| file[start..].as_ptr_range()), "{}", told());
        let [mut start, mut size, _] = BEFORE;
        let which = ffi::shorter(stock, first, second, &mut start, &mut size);
        let left = expected.map_or((0, 0, 0), |(which, file, start)| (which, start, file.len() - start));
        assert_eq!((which, start, size), left, "{}", told());
        self.tally.count("shorter", &Ok(()), ["none", "first", "second"][which]);
    }

    /// Prints the largest differences.
    fn settle(&self, name: &str) {
        let [nodes, levels, numbers] = self.largest;
        eprintln!("{name}: trees of at most {nodes} nodes and {levels} levels, addresses of at most {numbers} numbers");
    }
}

/// What the C function shows of stock, first and second, or its refusal.
fn exported(files: &[Vec<u8>; 3], areas: [usize; 2]) -> Result<Option<Shown>, u32> {
    let [mut tree, mut address] = areas.map(Lent::new);
    let before = [BEFORE[0], BEFORE[1], BEFORE[2], 3, 5];
    let [mut alike, mut nodes, mut numbers, mut left, mut right] = before;
    let refused = ffi::compare(
        &files[0],
        &files[1],
        &files[2],
        tree.area(),
        address.area(),
        &mut alike,
        &mut nodes,
        &mut numbers,
        &mut left,
        &mut right,
    );
    if refused > 0 || alike == 1 {
        let first = if refused > 0 { before[0] } else { 1 };
        assert_eq!([alike, nodes, numbers, left, right], [first, before[1], before[2], before[3], before[4]]);
        assert!(tree.holds(&[]) && address.holds(&[]));
        return if refused > 0 { Err(refused) } else { Ok(None) };
    }
    assert_eq!(alike, 0);
    let (written, below) = (tree.area()[..nodes].to_vec(), address.area()[..numbers].to_vec());
    assert!(tree.holds(&written) && address.holds(&below));
    let levels = independent::read_tree(&files[0], &written).map_or(usize::MAX, |tree| tree.levels);
    assert!(left < 256 && right < 256);
    Ok(Some(Shown { tree: written, levels, address: below, symbols: (left as u8, right as u8) }))
}

/// The outcomes that the paper has.
const OUTCOMES: [(&str, &str); 10] = [
    ("compare", "alike"),
    ("compare", "differ"),
    ("compare", "refused 1"),
    ("compare", "refused 2"),
    ("compare", "refused 4"),
    ("compare", "refused 5"),
    ("compare", "refused 7"),
    ("shorter", "first"),
    ("shorter", "second"),
    ("shorter", "none"),
];

#[test]
fn samples() {
    let mut test = Test::default();
    let mut alike = |stock: &[u8], first: &[u8], second: &[u8]| {
        let both = [test.compare(stock, first, second), test.compare(stock, second, first)];
        let both = both.map(|shown| shown.map(|shown| shown.is_none()));
        assert_eq!(both[0], both[1]);
        both[0]
    };
    assert_eq!(alike(S, T, T_PRIME), Ok(true));
    assert_eq!(alike(S, T, U), Ok(false));
    assert_eq!(alike(S, T_PRIME, U), Ok(false));
    assert_eq!(alike(S, CONSTANT, CONSTANT), Ok(true));
    assert_eq!(alike(S, CONSTANT, T), Ok(false));
    assert_eq!(alike(STOCK_OF_M, &m(), &clean_m()), Ok(true));
    assert_eq!(alike(S, &many_calls(16), &ring(64)), Ok(false));
    assert_eq!(alike(S, &ring(64), T_PRIME), Ok(true));
    assert_eq!(alike(S, &ring(64), T), Ok(true));
    assert_eq!(alike(S, &ring(65), T), Err(7));
    assert_eq!(alike(S, &many_calls(17), T), Err(7));
    // the only tree of one node on which T and U differ, and the only addresses
    let shown = test.compare(S, T, U).unwrap().unwrap();
    if shown.tree == [1] {
        assert!(shown.address == [1] || shown.address == [2]);
        assert_eq!(shown.symbols, (1, 0));
    }
    // equally many marks: the first, as a part of the caller's own file
    assert_eq!(slices::shorter(S, T, T_PRIME).unwrap().as_ptr(), T[7..].as_ptr());
    assert_eq!(slices::shorter(S, T_PRIME, T).unwrap().as_ptr(), T_PRIME[7..].as_ptr());
    assert_eq!(slices::shorter(S, &ring(64), T), Some(&T[7..]));
    assert_eq!(slices::shorter(S, T, U), None);
}

/// 1, 2, the first's 4 and 5, the second's, the first's 7, the second's.
#[test]
fn order_of_refusals() {
    let mut test = Test::default();
    let (bad_count, bad_term, over): (&[u8], &[u8], &[u8]) = (&[1, 0, 3], &[0, 0, 1, 1, 0], &ring(65));
    let files = [(bad_count, 4), (bad_term, 5), (over, 7), (T, 0)];
    for (stock, no_stock) in [(&[1, 1, 1, 0][..], true), (S, false)] {
        for (first, one) in files {
            for (second, two) in files {
                let read = [one, two].into_iter().find(|&number| number == 4 || number == 5);
                let expected = if no_stock { 2 } else { read.unwrap_or(one.max(two)) };
                for areas in [[0, 0], [1_535, 16_128], [1_536, 16_127], [1_535, 16_127], [65_536, 0]] {
                    assert_eq!(test.compare_in(stock, first, second, areas), Err(1));
                }
                for areas in [[1_536, 16_128], [1_537, 16_129], [65_536, 65_536]] {
                    let refused = test.compare_in(stock, first, second, areas).err().unwrap_or(0);
                    assert_eq!(refused, expected, "{stock:?} {first:?} {second:?}");
                }
            }
        }
    }
}

/// A second transducer over the same alphabets: a new one, an equivalent one, or one that is changed in
/// one mark and then in ways that keep it equivalent.
fn second(random: &mut Random, alphabets: &Alphabets, first: &Transducer) -> Transducer {
    let changed = |random: &mut Random| first.with_one_mark_changed(random, alphabets).unwrap_or_else(|| first.clone());
    match random.below(8) {
        // without a leaf there is no term
        _ if !alphabets.outputs.contains(&0) => Transducer::random(random, alphabets),
        0 => {
            let (states, most) = (random.pick(&[2, 5, 12]), random.pick(&[3, 5, 9, 16]));
            small_transducer(random, alphabets, states, most)
        }
        1 => Transducer::random(random, alphabets),
        2 => changed(random),
        3 | 4 => {
            let steps = random.pick(&[1, 4, 15]);
            changed(random).alike(random, alphabets, steps)
        }
        5 => first.delayed(random, alphabets).unwrap_or_else(|| first.clone()),
        _ => {
            let steps = random.pick(&[1, 3, 6, 25]);
            first.alike(random, alphabets, steps)
        }
    }
}

/// Damages, empties or replaces one of the files, or swaps two.
fn damage(random: &mut Random, files: &mut [Vec<u8>; 3]) {
    match random.below(12) {
        0 => files[random.below(3)].clear(),
        1 => files.swap(random.below(3), random.below(3)),
        2 => files[0] = Alphabets::random(random).file(),
        3 => files.iter_mut().for_each(|file| generate::damage(random, file)),
        4 | 5 => generate::damage(random, &mut files[0]),
        _ => {
            let which = random.range(1, 2);
            generate::damage(random, &mut files[which]);
        }
    }
}

/// The lengths of the areas: most often the least that are taken, or one byte less.
fn areas(random: &mut Random) -> [usize; 2] {
    [TREE_AREA, ADDRESS_AREA].map(|least| match random.below(12) {
        0 => least - 1,
        1 => random.below(least),
        2 => random.range(least, least + 500),
        _ => least,
    })
}

#[test]
fn generated_cases() {
    let mut test = Test::default();
    for seed in 0..12_000 {
        let mut random = Random::new(seed + 20_000_000);
        let (alphabets, one) = any(&mut random);
        let two = second(&mut random, &alphabets, &one);
        let mut files = [alphabets.file(), one.file(), two.file()];
        if random.once_in(2) {
            files.swap(1, 2);
        }
        let _ = test.compare(&files[0], &files[1], &files[2]);
        damage(&mut random, &mut files);
        let _ = test.compare_in(&files[0], &files[1], &files[2], areas(&mut random));
    }
    test.tally.settle(&OUTCOMES, 400);
    test.settle("generated pairs");
}

/// The verdict is that of a search through all small input trees: what it finds are transducers that
/// differ; and where a shown tree is one of those searched, it finds one.
#[test]
fn searched() {
    let mut test = Test::default();
    let (mut found, mut alike, mut larger) = (0, 0, 0);
    for seed in 0..4_000 {
        let mut random = Random::new(seed + 21_000_000);
        let alphabets = small_alphabets(&mut random);
        let (states, most) = (random.range(1, 6), random.pick(&[1, 3, 3, 5, 7]));
        let one = small_transducer(&mut random, &alphabets, states, most);
        let two = second(&mut random, &alphabets, &one);
        let (stock, one, two) = (alphabets.file(), one.file(), two.file());
        let Ok(shown) = test.compare(&stock, &one, &two) else { continue };
        let limit = affordable(&alphabets.inputs, 300);
        let tree = independent::search_difference(&stock, &one, &two, limit).unwrap();
        match (&shown, &tree) {
            (Some(_), Some(_)) => found += 1,
            (Some(shown), None) => {
                assert!(shown.tree.len() > limit, "{stock:?} {one:?} {two:?} {shown:?}");
                larger += 1;
            }
            (None, None) => alike += 1,
            (None, Some(tree)) => panic!("alike, but not on {tree:?}: {stock:?} {one:?} {two:?}"),
        }
    }
    println!("{found} differences found, {larger} on larger trees, {alike} alike");
    assert!(found > 1_000 && alike > 1_000);
}

/// All pairs of the transducers of one state, by a search that is made far enough.
#[test]
fn all_small_pairs() {
    let mut test = Test::default();
    let files = one_state();
    for first in &files {
        for second in &files {
            let found = independent::search_difference(S, first, second, enough(6, &[1, 0])).unwrap();
            let shown = test.compare(S, first, second).unwrap();
            assert_eq!(shown.is_some(), found.is_some(), "{first:?} {second:?}");
        }
    }
}

/// Transducers of all sizes, changed in ways that keep them equivalent.
#[test]
fn alike_by_construction() {
    let mut test = Test::default();
    let mut alike = 0;
    for seed in 0..1_200 {
        let mut random = Random::new(seed + 22_000_000);
        let (alphabets, sheet) = any(&mut random);
        let (stock, file) = (alphabets.file(), sheet.file());
        if test.compare(&stock, &file, &file).is_err() {
            continue;
        }
        let mut changed = vec![
            Some(sheet.with_unreached(&mut random, &alphabets)),
            sheet.delayed(&mut random, &alphabets),
            Some(sheet.alike(&mut random, &alphabets, 25)),
        ];
        if sheet.states > 0 {
            changed.push(Some(sheet.permuted(&mut random)));
            changed.push(Some(sheet.duplicated(&mut random)));
            changed.push(sheet.advanced(&mut random, &alphabets));
        }
        for changed in changed.into_iter().flatten().filter(Transducer::fits) {
            let shown = test.compare(&stock, &file, &changed.file());
            assert!(shown == Ok(None) || shown == Err(7), "{stock:?} {file:?} {:?}", changed.file());
            alike += usize::from(shown == Ok(None));
        }
    }
    println!("{alike} alike");
    assert!(alike > 5_000);
}

/// Chains of states that are alike but for one mark at their end, also behind changes that keep them
/// equivalent; chains that lay nothing on the way, of all lengths against each other.
#[test]
fn chains() {
    let mut test = Test::default();
    let alphabets = chain_alphabets();
    let stock = alphabets.file();
    for states in 1..=128 {
        let mut random = Random::new(states as u64 + 23_000_000);
        for symbols in [0, 1, 2, 40] {
            let sheets = [1, 2].map(|last| chain(states, symbols, last));
            if !sheets[0].fits() {
                continue;
            }
            let changed = sheets.each_ref().map(|sheet| sheet.alike(&mut random, &alphabets, 6).file());
            let sheets = sheets.map(|sheet| sheet.file());
            for (first, second) in [(&sheets[0], &sheets[1]), (&changed[1], &sheets[0]), (&changed[0], &changed[1])] {
                let shown = test.compare(&stock, first, second);
                // on a tree of fewer levels they agree
                assert!(matches!(&shown, Ok(Some(shown)) if shown.levels == states) || shown == Err(7));
            }
        }
        let other = random.range(1, 128);
        let shown = test.compare(&stock, &chain(states, 0, 2).file(), &chain(other, 0, 2).file()).unwrap();
        assert_eq!(shown.is_none(), states == other);
        // a call against the symbol that the chain gives on all other trees
        let constant = file(0, &[&[0, 1]]);
        let shown = test.compare(&stock, &constant, &chain(states, 0, 2).file()).unwrap().expect("they differ");
        assert_eq!((shown.levels, &shown.address[..], shown.symbols), (states, &[][..], (1, 2)));
    }
    test.settle("chains");
}

/// Rows of states that go round, of every length with one that is one state shorter: they agree on the
/// states met until as many pairs of states are joined as there can be.
#[test]
fn rows_that_part_late() {
    let mut test = Test::default();
    for states in 2..=128 {
        let rows = [Row::last_marked(states, 1), Row::last_marked(states, 0)];
        let agree = rows[0].agree(&rows[1]).expect("they differ");
        assert_eq!(agree, 2 * states - 2);
        for (rank, child, symbols) in [(1, 1, 0), (4, 3, 1), (2, 2, 61)] {
            let stock = row_alphabets(rank).file();
            let [one, two] = rows.each_ref().map(|row| row.telling(child, symbols).file());
            for (first, second) in [(&one, &two), (&two, &one)] {
                let shown = test.compare(&stock, first, second).unwrap().expect("they differ");
                assert!(shown.levels > agree && shown.address.len() >= symbols * agree);
            }
        }
        if states <= 126 {
            let stock = row_alphabets(4).file();
            let [one, two] = rows.each_ref().map(|row| row.long().file());
            let shown = test.compare(&stock, &one, &two).unwrap().expect("they differ");
            assert!(shown.levels > agree && shown.address.len() > 63 * (agree + 1));
        }
        // with a way back to where the search for another root symbol ends
        let stock = way_alphabets().file();
        for (symbols, at_mark) in [(1, &[0, 1, 0, 2][..]), (59, &[0, 1, 0, 2]), (1, &[3, 0])] {
            let [one, two] = rows.each_ref().map(|row| row.with_way_back(symbols, at_mark).file());
            for (first, second) in [(&one, &two), (&two, &one)] {
                let shown = test.compare(&stock, first, second).unwrap().expect("they differ");
                assert!(shown.levels > agree && shown.address.len() >= symbols * agree);
            }
        }
    }
    test.settle("rows that part late");
    // the trees on which these differ have at least so many levels, and the addresses so many numbers
    assert!(test.largest[1] >= 255 && test.largest[2] > 63 * 251);
}

/// Rows of any lengths, with any marks: they are alike if they agree on the states met, as many as both
/// have.
#[test]
fn rows() {
    let mut test = Test::default();
    let (mut alike, mut late) = (0, 0);
    for seed in 0..3_000 {
        let mut random = Random::new(seed + 24_000_000);
        let most = random.pick(&[3, 6, 20, 128]);
        let one = Row::random(&mut random, most);
        let two = match random.below(3) {
            0 => Row::random(&mut random, most),
            1 => Row { back: random.below(one.marked.len()), ..one.clone() },
            _ => {
                let mut two = one.clone();
                two.marked.extend_from_slice(&one.marked[one.back..]);
                two.marked.truncate(128);
                two.back = random.below(two.marked.len());
                two
            }
        };
        let (child, symbols) = (random.range(1, 3) as u8, random.pick(&[0, 0, 1, 2, 61]));
        let stock = row_alphabets(3).file();
        let files = [&one, &two].map(|row| row.telling(child, symbols).file());
        let shown = test.compare(&stock, &files[0], &files[1]).expect("it is within the limits");
        match (one.agree(&two), shown) {
            (None, None) => alike += 1,
            (Some(agree), Some(shown)) => {
                assert!(shown.levels > agree, "{one:?} {two:?} {shown:?}");
                late += usize::from(agree > 20);
            }
            (agree, shown) => panic!("{one:?} {two:?} {agree:?} {shown:?}"),
        }
    }
    println!("{alike} alike, {late} that part late");
    assert!(alike > 100 && late > 50);
}
