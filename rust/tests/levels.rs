//! Output trees of as many levels as one may have, and of hardly more: translation by the proved library and by the
//! independent implementation, on cases found by hand and on generated ones.
//!
//! Every call is made three times, as in `compare.rs`, in areas of random bytes, of which each is looked at: areas of
//! as many bytes as the output tree has symbols, of one less, where the refusal is 6 whatever the levels are, and of
//! more. How many levels there are is told by hand, or counted in a third way. The address of a deepest node is looked
//! up too, as that knows no such limit. `cargo test --release --offline --test levels -- --nocapture` prints how often
//! each outcome occurred.
mod generate;
mod lent;

use caplune::{ffi, slices};
use caplune_independent as independent;
use generate::deep::{self, MOST};
use generate::samples::file;
use generate::{address_of, levels, Random};
use lent::{number, Tally, BEFORE};

/// a and e of ranks 1 and 0; g and c of ranks 1 and 0.
const UNARY: &[u8] = &[2, 1, 0, 2, 1, 0];
/// The most symbols of the output trees that are built here.
const LONGEST: usize = 100_000;

/// a over a over ... over e.
fn chain(levels: usize) -> Vec<u8> {
    [vec![0; levels - 1], vec![1]].concat()
}

/// So many symbols g of rank 1, and behind them the marks.
fn over(symbols: usize, marks: &[u8]) -> Vec<u8> {
    [&[0].repeat(2 * symbols), marks].concat()
}

/// So many random bytes.
fn bytes(random: &mut Random, length: usize) -> Vec<u8> {
    (0..length).map(|_| random.byte()).collect()
}

/// What all three give in an area of so many bytes: the output tree, or the refusal.
fn translated(random: &mut Random, stock: &[u8], file: &[u8], tree: &[u8], area: usize) -> Result<Vec<u8>, u32> {
    // what is lent, with some bytes before it and behind it
    let (before, around) = (bytes(random, area + 32), 16..16 + area);
    let [mut one, mut two, mut three] = [0; 3].map(|_| before.clone());
    let expected = independent::translate_into(stock, file, tree, &mut one[around.clone()]);
    let answer = number(slices::translate(stock, file, tree, &mut two[around.clone()]));
    let mut length = BEFORE[0];
    let refused = ffi::translate(stock, file, tree, &mut three[around], &mut length);
    let told = || format!("{stock:?} {file:?} {tree:?} {area}");
    assert_eq!(answer, expected, "{}", told());
    assert_eq!((refused, length), (expected.err().unwrap_or(0), expected.unwrap_or(BEFORE[0])), "{}", told());
    let behind = 16 + expected.unwrap_or(0);
    for after in [&one, &two, &three] {
        assert!(after[..16] == before[..16] && after[behind..] == before[behind..], "{}", told());
        assert!(after[16..behind] == one[16..behind], "{}", told());
    }
    expected.map(|_| one[16..behind].to_vec())
}

/// The levels of the output tree. It is given in an area that is long enough if they are not too many, and else refused
/// by 10; in an area that is too short it is refused by 6.
fn check(tally: &mut Tally, random: &mut Random, stock: &[u8], file: &[u8], tree: &[u8]) -> usize {
    let output = independent::output_tree(stock, file, tree, LONGEST).expect("it is translated");
    let outputs = independent::read_alphabets(stock).expect("a stock").outputs;
    let levels = levels(outputs, &output);
    let expected = if levels <= MOST { Ok(output.clone()) } else { Err(10) };
    let length = output.len();
    for area in [length, length + 1, length + random.below(300), length.max(8_192), length.max(8_193)] {
        let answer = translated(random, stock, file, tree, area);
        assert!(answer == expected, "{stock:?} {file:?} {tree:?} {area}: {levels} levels");
        tally.count("translate", &answer, "accepted");
    }
    for area in [0, random.below(length), length / 2, length - 1] {
        let answer = translated(random, stock, file, tree, area);
        assert_eq!(answer, Err(6), "{stock:?} {file:?} {tree:?} {area}");
        tally.count(if levels > MOST { "too long and too deep" } else { "too long" }, &answer, "accepted");
    }
    let kind = match levels {
        255 => "255 levels",
        256 => "256 levels",
        257 => "257 levels",
        258 => "258 levels",
        0..=254 => "fewer levels",
        _ => "more levels",
    };
    tally.count(kind, &expected, "accepted");
    if length > 8_192 {
        tally.count("over 8,192 symbols", &expected, "accepted");
    }
    levels
}

/// The same, with a node of the last level looked up.
fn check_and_look(tally: &mut Tally, random: &mut Random, stock: &[u8], file: &[u8], tree: &[u8]) -> usize {
    let levels = check(tally, random, stock, file, tree);
    let outputs = independent::read_alphabets(stock).expect("a stock").outputs;
    let output = independent::output_tree(stock, file, tree, LONGEST).expect("it is translated");
    let addresses = (0..output.len()).map(|node| (node, address_of(&output, outputs, node)));
    let (node, address) = addresses.max_by_key(|(_, address)| address.len()).expect("there is a root");
    assert_eq!(address.len() + 1, levels);
    assert_eq!(independent::symbol_at(stock, file, tree, &address), Ok(Some(output[node])));
    assert_eq!(slices::symbol_at(stock, file, tree, &address), Ok(Some(output[node])));
    levels
}

/// By hand: what is checked, and that both sides of the limit occurred.
struct Hand {
    tally: Tally,
    random: Random,
}

impl Hand {
    fn new(seed: u64) -> Self {
        Hand { tally: Tally::default(), random: Random::new(seed + 80_000_000) }
    }

    /// The output tree has so many levels, and is given or refused by that.
    fn has(&mut self, levels: usize, stock: &[u8], file: &[u8], tree: &[u8]) {
        assert!(independent::read_transducer(stock, file).is_ok(), "{stock:?} {file:?}");
        assert_eq!(check(&mut self.tally, &mut self.random, stock, file, tree), levels, "{stock:?} {file:?} {tree:?}");
    }

    /// Both sides of the limit occurred.
    fn settle(&self) {
        let times = |kind, outcome: &str| self.tally.0.get(&(kind, outcome.to_string())).copied().unwrap_or(0);
        assert!(times("256 levels", "accepted") > 0 && times("257 levels", "refused 10") > 0, "{:?}", self.tally.0);
        assert!(times("too long and too deep", "refused 6") > 0, "{:?}", self.tally.0);
    }
}

/// A copy of a chain, whose levels are those of the chain.
#[test]
fn chains() {
    let mut hand = Hand::new(1);
    // q(a(x1)) = g(q(x1)), q(e) = c
    let copy = file(1, &[&[1, 0], &[0, 0, 1, 0], &[0, 1]]);
    for levels in [1, 2, 3, 254, 255, 256, 257, 258, 300, 511, 512] {
        hand.has(levels, UNARY, &copy, &chain(levels));
        assert_eq!(check_and_look(&mut hand.tally, &mut hand.random, UNARY, &copy, &chain(levels)), levels);
    }
    hand.settle();
    // the sentence of document 02, byte for byte
    let mut area = vec![0xa5; 257];
    assert_eq!(number(slices::translate(UNARY, &copy, &chain(257), &mut area)), Err(10));
    assert_eq!(area, vec![0xa5; 257]);
    assert_eq!(number(slices::translate(UNARY, &copy, &chain(257), &mut area[..256])), Err(6));
    assert_eq!(number(slices::translate(UNARY, &copy, &chain(256), &mut area)), Ok(256));
    assert_eq!(area, [chain(256), vec![0xa5]].concat());
}

/// Few levels of the input tree, and long right-hand sides: 63 g over the call, 64 marks over one another at e.
#[test]
fn long_terms() {
    let mut hand = Hand::new(2);
    for initial in 0..=63 {
        let file = file(1, &[&over(initial, &[1, 0]), &over(63, &[1, 0]), &over(63, &[0, 1])]);
        // 63 + 63 + 63 + 64 with nothing over the initial call
        hand.has(initial + 253, UNARY, &file, &chain(4));
        hand.has(initial + 190, UNARY, &file, &chain(3));
    }
    for symbols in 1..=63usize {
        // the input tree with the most levels whose output tree has at most 256; what is missing to 256 stands over the
        // initial call, with one symbol less or more
        let (tree, missing) = (1 + 255 / symbols, 255 % symbols);
        for initial in missing.saturating_sub(1)..=missing + 1 {
            let file = file(1, &[&over(initial, &[1, 0]), &over(symbols, &[1, 0]), &[0, 1]]);
            hand.has(256 - missing + initial, UNARY, &file, &chain(tree));
        }
    }
    hand.settle();
}

/// Below a symbol of each rank one child goes on, and all the others are leaves.
#[test]
fn one_deep_child() {
    let mut hand = Hand::new(3);
    for rank in 1..=4 {
        let stock = [2, 1, 0, 2, rank, 0];
        for deep in 0..rank {
            let children: Vec<u8> = (0..rank).flat_map(|child| if child == deep { [1, 0] } else { [0, 1] }).collect();
            let file = file(1, &[&[1, 0], &[&[0, 0], &children[..]].concat(), &[0, 1]]);
            for levels in [1, 2, 255, 256, 257, 258, 400] {
                hand.has(levels, &stock, &file, &chain(levels));
            }
        }
    }
    hand.settle();
}

/// Of the children of a symbol one is a level deeper than the others: of rank 1 to 4, in the initial term and in a
/// right-hand side.
#[test]
fn deepest_of_many() {
    let mut hand = Hand::new(4);
    for rank in 1..=4usize {
        // a, b and e of ranks 1, 1, 0; f, g and c of this rank and of 1, 0
        let stock = [3, 1, 1, 0, 3, rank as u8, 1, 0];
        for deep in 0..rank {
            let children: Vec<u8> = (0..rank).flat_map(|child| [1, u8::from(child == deep)]).collect();
            let fork = [&[0, 0], &children[..]].concat();
            // q(a(x1)) = g(q(x1)) and q(e) = c; p(a(x1)) = g(p(x1)) and p(e) = g(c)
            let go = |state: u8| vec![0, 1, 1, state];
            let initial = file(2, &[&fork, &go(0), &[1, 0], &[0, 2], &go(1), &[1, 1], &[0, 1, 0, 2]]);
            // the same at b, once on the path, from a state of its own
            let inner = [0, 1, 1, 2];
            let sides: [&[u8]; 10] =
                [&[1, 2], &go(0), &[1, 0], &[0, 2], &go(1), &[1, 1], &[0, 1, 0, 2], &inner, &fork, &[0, 2]];
            let inside = file(3, &sides);
            for levels in [252, 253, 254, 255, 300] {
                hand.has(levels + 2, &stock, &initial, &[vec![0; levels - 1], vec![2]].concat());
                for above in [0, 1, 100, levels - 1] {
                    let tree = [vec![0; above], vec![1], vec![0; levels - 1 - above], vec![2]].concat();
                    hand.has(levels + 2, &stock, &inside, &tree);
                }
            }
        }
    }
    hand.settle();
}

/// Symbols of the initial term are levels too, over the call or beside it.
#[test]
fn initial_terms() {
    let mut hand = Hand::new(5);
    // f, g and c of ranks 2, 1, 0
    let stock = [2, 1, 0, 3, 2, 1, 0];
    let go: [&[u8]; 2] = [&[0, 1, 1, 0], &[0, 2]];
    for symbols in 0..=60 {
        let deep = [[0, 1].repeat(symbols), vec![1, 0]].concat();
        let terms = [
            (0, deep.clone()),
            // f(deep, c) and f(c, deep)
            (1, [&[0, 0], &deep[..], &[0, 2]].concat()),
            (1, [&[0, 0, 0, 2], &deep[..]].concat()),
        ];
        for (more, initial) in terms {
            let file = file(1, &[&initial, go[0], go[1]]);
            for levels in [255, 256, 257, 258] {
                hand.has(levels, &stock, &file, &chain(levels - symbols - more));
            }
        }
        // the call is not deep, and what stands beside it is not either
        let beside = [vec![0, 0, 1, 0], [0, 1].repeat(symbols), vec![0, 2]].concat();
        hand.has((symbols + 2).max(3), &stock, &file(1, &[&beside, go[0], go[1]]), &chain(2));
    }
    hand.settle();
    // without a state: 64 levels at most
    hand.has(64, &stock, &file(0, &[&[[0, 1].repeat(63), vec![0, 2]].concat()]), &chain(512));
}

/// One state on one node, met more than once: deeper the second time, or less deep.
#[test]
fn copied_outputs() {
    let mut hand = Hand::new(6);
    let stock = [2, 1, 0, 3, 2, 1, 0];
    let go: [&[u8]; 2] = [&[0, 1, 1, 0], &[0, 2]];
    let twice = |first: usize, second: usize| {
        let below = |symbols: usize| [[0, 1].repeat(symbols), vec![1, 0]].concat();
        [vec![0, 0], below(first), below(second)].concat()
    };
    for (first, second) in [(0, 0), (0, 1), (1, 0), (0, 30), (30, 0), (30, 30), (1, 59), (59, 1)] {
        let file = file(1, &[&twice(first, second), go[0], go[1]]);
        for levels in [255, 256, 257, 258] {
            hand.has(levels, &stock, &file, &chain(levels - 1 - first.max(second)));
        }
    }
    // 31 f, one below the other, with 32 calls: the last child or the first is deep
    let last = [[0, 0, 1, 0].repeat(31), vec![1, 0]].concat();
    let first = [[0, 0].repeat(31), [1, 0].repeat(32)].concat();
    for initial in [last, first] {
        let file = file(1, &[&initial, go[0], go[1]]);
        for levels in [255, 256, 257, 258] {
            hand.has(levels, &stock, &file, &chain(levels - 31));
        }
    }
    // p(a(x1)) = f(q(x1), p(x1)), q(a(x1)) = g(q(x1)), and with f(p(x1), q(x1)): q is met twice on each node but one
    for side in [[0, 0, 1, 1, 1, 0], [0, 0, 1, 0, 1, 1]] {
        let file = file(2, &[&[1, 0], &side, &[0, 2], &[0, 1, 1, 1], &[0, 2]]);
        for levels in [255, 256, 257, 258] {
            hand.has(levels, &stock, &file, &chain(levels));
        }
    }
    hand.settle();
}

/// Levels that double the output over levels that do not, so that it has over 8,192 symbols.
#[test]
fn long_outputs() {
    let mut hand = Hand::new(7);
    // a, b and e of ranks 1, 1, 0; f, g and c of ranks 2, 1, 0; q(a(x1)) = f(q(x1), q(x1)), q(b(x1)) = g(q(x1))
    let stock = [3, 1, 1, 0, 3, 2, 1, 0];
    let doubling = file(1, &[&[1, 0], &[0, 0, 1, 0, 1, 0], &[0, 1, 1, 0], &[0, 2]]);
    for doubled in 0..=8 {
        for levels in [255, 256, 257, 258, 300] {
            let rest = levels - 1 - doubled;
            let trees = [
                [vec![0; doubled], vec![1; rest], vec![2]].concat(),
                [vec![1; rest], vec![0; doubled], vec![2]].concat(),
                [vec![1; rest / 2], vec![0; doubled], vec![1; rest - rest / 2], vec![2]].concat(),
            ];
            trees.iter().for_each(|tree| hand.has(levels, &stock, &doubling, tree));
        }
    }
    let long = |outcome: &str| hand.tally.0[&("over 8,192 symbols", outcome.to_string())];
    assert!(long("accepted") > 10 && long("refused 10") > 10);
    hand.settle();
}

/// A tree of so many marks and few levels, over f, g and c of ranks 4, 1, 0.
fn bush(marks: usize) -> Vec<u8> {
    match marks {
        1 => vec![0, 2],
        2..5 => [vec![0, 1], bush(marks - 1)].concat(),
        _ => {
            let each = (marks - 1) / 4;
            [vec![0, 0], bush(each), bush(each), bush(each), bush(marks - 1 - 3 * each)].concat()
        }
    }
}

/// So many symbols in all, with a call of state 0 below one of them.
fn bush_over_call(symbols: usize) -> Vec<u8> {
    let each = (symbols - 1) / 3;
    [vec![0, 0], bush(each), bush(each), vec![1, 0], bush(symbols - 1 - 2 * each)].concat()
}

/// Outputs of 8,190 to 8,195 symbols, which is where the library writes them another way.
#[test]
fn about_8192_symbols() {
    let mut hand = Hand::new(8);
    // a, b and e of ranks 1, 1, 0; f, g and c of ranks 4, 1, 0
    let stock = [3, 1, 1, 0, 3, 4, 1, 0];
    for symbols in 8_190..=8_195 {
        for levels in [200, 255, 256, 257, 258, 400] {
            // 20 symbols and one level for the initial term, 16 of both for e, and one level for each a and each b,
            // which has a symbol more than a
            let tree = levels - 17;
            let (each, more) = ((symbols - 36) / tree, (symbols - 36) % tree);
            let end = [[0, 1].repeat(15), vec![0, 2]].concat();
            let terms = [20, each, each + 1].map(bush_over_call);
            let file = file(1, &[&terms[0], &terms[1], &terms[2], &end]);
            let tree = [vec![1; more], vec![0; tree - more], vec![2]].concat();
            assert_eq!(independent::output_tree(&stock, &file, &tree, LONGEST).map(|output| output.len()), Ok(symbols));
            hand.has(levels, &stock, &file, &tree);
        }
    }
    hand.settle();
}

/// Input trees of 512 levels whose output trees have few: what is erased is no level.
#[test]
fn erased_levels() {
    let mut hand = Hand::new(9);
    // q(a(x1)) = q(x1) and q(e) = c
    let erasing = file(1, &[&[1, 0], &[1, 0], &[0, 1]]);
    for levels in [1, 2, 256, 257, 511, 512] {
        hand.has(1, UNARY, &erasing, &chain(levels));
    }
    hand.has(64, UNARY, &file(1, &[&over(63, &[1, 0]), &[1, 0], &[0, 1]]), &chain(512));
    // the identity that forgets all but one sub-tree of four: 512 levels of four nodes, of which one is left
    let wide = [2, 4, 0, 2, 4, 0];
    let forgetting = file(1, &[&[1, 0], &[0, 0, 0, 1, 0, 1, 0, 1, 0, 1], &[0, 1]]);
    let tree = [[0, 1, 1, 1].repeat(511), vec![1]].concat();
    hand.has(2, &wide, &forgetting, &tree);
    // q(a(x1)) = g(q(x1)), q(b(x1)) = q(x1): as many levels as there are a, and one
    let stock = [3, 1, 1, 0, 2, 1, 0];
    let half = file(1, &[&[1, 0], &[0, 0, 1, 0], &[1, 0], &[0, 1]]);
    for kept in [0, 1, 200, 254, 255, 256, 257, 511] {
        let mut tree = [vec![0; kept], vec![1; 511 - kept], vec![2]].concat();
        hand.has(kept + 1, &stock, &half, &tree);
        tree[..511].reverse();
        hand.has(kept + 1, &stock, &half, &tree);
        // shuffled
        for _ in 0..4 {
            (1..511).for_each(|last| tree.swap(last, hand.random.range(0, last)));
            hand.has(kept + 1, &stock, &half, &tree);
        }
    }
    // two states that take turns: 511 a are 256 g or 255
    for (first, levels) in [(0, 257), (1, 256)] {
        let turns = file(2, &[&[1, first], &[0, 0, 1, 1], &[0, 1], &[1, 0], &[0, 1]]);
        hand.has(levels, UNARY, &turns, &chain(512));
    }
    hand.settle();
}

/// Generated cases, of which many have as many levels as there may be, or one more.
#[test]
fn generated() {
    let mut tally = Tally::default();
    let (mut longer, mut looked_at) = (0, 0);
    for seed in 0..12_000 {
        let mut random = Random::new(seed + 81_000_000);
        let (alphabets, sheet, tree) = deep::any(&mut random);
        let (stock, file) = (alphabets.file(), sheet.file());
        assert!(independent::read_transducer(&stock, &file).is_ok(), "{stock:?} {file:?}");
        assert!(independent::read_tree(&stock, &tree).is_ok(), "{stock:?} {tree:?}");
        match independent::output_tree(&stock, &file, &tree, LONGEST) {
            Ok(output) if output.len() < 2_000 && random.once_in(10) => {
                check_and_look(&mut tally, &mut random, &stock, &file, &tree);
                looked_at += 1;
            }
            Ok(_) => drop(check(&mut tally, &mut random, &stock, &file, &tree)),
            Err(number) => {
                assert_eq!(number, 6);
                let area = random.below(LONGEST);
                assert_eq!(translated(&mut random, &stock, &file, &tree, area), Err(6));
                longer += 1;
            }
        }
    }
    println!("{longer} longer ones, {looked_at} looked up");
    let wanted = [
        ("translate", "accepted"),
        ("translate", "refused 10"),
        ("too long", "refused 6"),
        ("too long and too deep", "refused 6"),
        ("fewer levels", "accepted"),
        ("255 levels", "accepted"),
        ("256 levels", "accepted"),
        ("257 levels", "refused 10"),
        ("258 levels", "refused 10"),
        ("more levels", "refused 10"),
        ("over 8,192 symbols", "accepted"),
        ("over 8,192 symbols", "refused 10"),
    ];
    tally.settle(&wanted, 100);
    let times = |kind, outcome: &str| tally.0[&(kind, outcome.to_string())];
    assert!(times("translate", "accepted") > 10_000 && times("translate", "refused 10") > 10_000);
    assert!(times("256 levels", "accepted") > 500 && times("257 levels", "refused 10") > 500);
}
