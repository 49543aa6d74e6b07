//! Holds the proved library against the independent implementation, on generated inputs.
//!
//! Every call is made three times: by the safe function of this crate, by the C function itself,
//! and by the independent function. The answers have to be the same, and every byte and number that
//! was lent is looked at: areas and numbers hold a pattern before the call, a refusal leaves all of
//! it, and an acceptance changes only what it writes. `cargo test --release --offline -- --nocapture`
//! prints how often each outcome occurred.
mod generate;
mod lent;

use caplune::{ffi, slices};
use caplune_independent as independent;
use generate::{deep, Alphabets, Random, Transducer};
use lent::{number, Lent, Tally, BEFORE};

fn alphabets(tally: &mut Tally, stock: &[u8]) {
    let expected = independent::read_alphabets(stock).map(|read| (read.inputs.len(), read.outputs.len()));
    assert_eq!(number(slices::read_alphabets(stock)).map(|read| (read.inputs, read.outputs)), expected, "{stock:?}");
    let [mut inputs, mut outputs, _] = BEFORE;
    let refused = ffi::read_alphabets(stock, &mut inputs, &mut outputs);
    let left = expected.unwrap_or((BEFORE[0], BEFORE[1]));
    assert_eq!((refused, (inputs, outputs)), (expected.err().unwrap_or(0), left), "{stock:?}");
    tally.count("read_alphabets", &expected, "accepted");
}

fn tree(tally: &mut Tally, stock: &[u8], tree: &[u8]) {
    let expected = independent::read_tree(stock, tree).map(|read| (read.symbols.len(), read.levels));
    assert_eq!(
        number(slices::read_tree(stock, tree)).map(|read| (read.nodes, read.levels)),
        expected,
        "{stock:?} {tree:?}"
    );
    let [mut nodes, mut levels, _] = BEFORE;
    let refused = ffi::read_tree(stock, tree, &mut nodes, &mut levels);
    let left = expected.unwrap_or((BEFORE[0], BEFORE[1]));
    assert_eq!((refused, (nodes, levels)), (expected.err().unwrap_or(0), left), "{stock:?} {tree:?}");
    tally.count("read_tree", &expected, "accepted");
}

fn transducer(tally: &mut Tally, stock: &[u8], file: &[u8]) {
    let expected = independent::read_transducer(stock, file).map(|read| (read.states, read.counts, read.marks));
    let answer = number(slices::read_transducer(stock, file)).map(|read| (read.states, read.counts, read.marks));
    assert_eq!(answer, expected, "{stock:?} {file:?}");
    if let (Ok((_, counts, marks)), Ok((_, expected_counts, expected_marks))) = (answer, expected) {
        // the same bytes, and in the same place
        assert_eq!((counts.as_ptr(), marks.as_ptr()), (expected_counts.as_ptr(), expected_marks.as_ptr()));
    }
    let [mut states, mut counts, mut marks] = BEFORE;
    let refused = ffi::read_transducer(stock, file, &mut states, &mut counts, &mut marks);
    let left = expected.map_or(BEFORE, |(states, counts, marks)| [states, counts.len(), marks.len()]);
    assert_eq!((refused, [states, counts, marks]), (expected.err().unwrap_or(0), left), "{stock:?} {file:?}");
    tally.count("read_transducer", &expected, "accepted");
}

fn linear(tally: &mut Tally, stock: &[u8], file: &[u8]) {
    let expected = independent::is_linear(stock, file);
    assert_eq!(number(slices::is_linear(stock, file)), expected, "{stock:?} {file:?}");
    let mut linear = BEFORE[0];
    let refused = ffi::is_linear(stock, file, &mut linear);
    let left = expected.map_or(BEFORE[0], usize::from);
    assert_eq!((refused, linear), (expected.err().unwrap_or(0), left), "{stock:?} {file:?}");
    tally.count("is_linear", &expected, if expected == Ok(true) { "yes" } else { "no" });
}

fn writing(tally: &mut Tally, stock: &[u8], states: usize, counts: &[u8], marks: &[u8], area: usize) {
    let mut lent = [Lent::new(area), Lent::new(area), Lent::new(area)];
    let expected = independent::write_transducer(stock, states, counts, marks, lent[0].area());
    let answer = number(slices::write_transducer(stock, states, counts, marks, lent[1].area()));
    assert_eq!(answer, expected, "{stock:?} {states} {counts:?} {marks:?} {area}");
    let mut length = BEFORE[0];
    let refused = ffi::write_transducer(stock, states, counts, marks, lent[2].area(), &mut length);
    let left = expected.unwrap_or(BEFORE[0]);
    assert_eq!(
        (refused, length),
        (expected.err().unwrap_or(0), left),
        "{stock:?} {states} {counts:?} {marks:?} {area}"
    );
    let file = expected.map_or(vec![], |_| [&[states as u8], counts, marks].concat());
    assert_eq!(expected.unwrap_or(0), file.len());
    for lent in &lent {
        assert!(lent.holds(&file), "{stock:?} {states} {counts:?} {marks:?} {area}");
    }
    tally.count("write_transducer", &expected, "accepted");
}

fn translation(tally: &mut Tally, stock: &[u8], file: &[u8], tree: &[u8], area: usize) {
    let mut lent = [Lent::new(area), Lent::new(area), Lent::new(area)];
    let expected = independent::translate_into(stock, file, tree, lent[0].area());
    let answer = number(slices::translate(stock, file, tree, lent[1].area()));
    assert_eq!(answer, expected, "{stock:?} {file:?} {tree:?} {area}");
    let mut length = BEFORE[0];
    let refused = ffi::translate(stock, file, tree, lent[2].area(), &mut length);
    let left = expected.unwrap_or(BEFORE[0]);
    assert_eq!((refused, length), (expected.err().unwrap_or(0), left), "{stock:?} {file:?} {tree:?} {area}");
    let output = independent::translate(stock, file, tree, area).unwrap_or_default();
    assert_eq!(expected.unwrap_or(0), output.len());
    for lent in &lent {
        assert!(lent.holds(&output), "{stock:?} {file:?} {tree:?} {area}");
    }
    tally.count("translate", &expected, "accepted");
    match independent::output_tree(stock, file, tree, area + 1).map(|output| output.len()) {
        Ok(length) if length == area => tally.count("exact area", &expected, "accepted"),
        Ok(length) if length == area + 1 => tally.count("one byte short", &expected, "accepted"),
        _ => {}
    }
    if output.len() >= 1000 {
        tally.count("long output", &expected, "accepted");
    }
}

fn place(tally: &mut Tally, stock: &[u8], file: &[u8], tree: &[u8], address: &[u8]) {
    let expected = independent::symbol_at(stock, file, tree, address);
    assert_eq!(
        number(slices::symbol_at(stock, file, tree, address)),
        expected,
        "{stock:?} {file:?} {tree:?} {address:?}"
    );
    let [mut there, mut symbol, _] = BEFORE;
    let refused = ffi::symbol_at(stock, file, tree, address, &mut there, &mut symbol);
    let left = match expected {
        Ok(Some(symbol)) => (1, usize::from(symbol)),
        Ok(None) => (0, BEFORE[1]),
        Err(_) => (BEFORE[0], BEFORE[1]),
    };
    assert_eq!(
        (refused, (there, symbol)),
        (expected.err().unwrap_or(0), left),
        "{stock:?} {file:?} {tree:?} {address:?}"
    );
    tally.count("symbol_at", &expected, if matches!(expected, Ok(Some(_))) { "symbol" } else { "nowhere" });
}

/// One case: files that belong together, three times of four with some of them damaged, swapped or
/// emptied.
struct Case {
    alphabets: Alphabets,
    stock: Vec<u8>,
    file: Vec<u8>,
    tree: Vec<u8>,
    states: usize,
    counts: Vec<u8>,
    marks: Vec<u8>,
}

impl Case {
    fn random(random: &mut Random) -> Self {
        let (alphabets, transducer, tree) = match random.once_in(5) {
            true => deep::any(random),
            false => {
                let alphabets = Alphabets::random(random);
                let transducer = Transducer::random(random, &alphabets);
                let tree = generate::input_tree(random, &alphabets);
                (alphabets, transducer, tree)
            }
        };
        let mut case = Case {
            stock: alphabets.file(),
            file: transducer.file(),
            tree,
            states: transducer.states,
            counts: transducer.counts(),
            marks: transducer.marks(),
            alphabets,
        };
        match random.below(16) {
            0 => generate::damage(random, &mut case.stock),
            1 | 2 => generate::damage(random, &mut case.file),
            3 => generate::damage(random, &mut case.tree),
            4 => {
                generate::damage(random, &mut case.counts);
                generate::damage(random, &mut case.file);
            }
            5 => generate::damage(random, &mut case.marks),
            6 => case.states = random.pick(&[0, 1, 2, 127, 128, 129, 255, 256, 257, 1 << 62, 1 << 63, usize::MAX]),
            7 => {
                generate::damage(random, &mut case.stock);
                generate::damage(random, &mut case.file);
                generate::damage(random, &mut case.tree);
            }
            8 => match random.below(8) {
                0 => std::mem::swap(&mut case.stock, &mut case.file),
                1 => std::mem::swap(&mut case.stock, &mut case.tree),
                2 => std::mem::swap(&mut case.file, &mut case.tree),
                3 => case.stock.clear(),
                4 => case.file.clear(),
                5 => case.tree.clear(),
                6 => std::mem::swap(&mut case.counts, &mut case.marks),
                _ => {
                    let other = Alphabets::random(random);
                    case.stock = other.file();
                }
            },
            // a mark that may be unknown, at a random place
            9 if !case.marks.is_empty() => {
                let at = 2 * random.below(case.marks.len() / 2);
                let mark = [random.below(6) as u8, random.pick(&[0, 1, 63, 64, 127, 128, 255])];
                case.marks[at..at + 2].copy_from_slice(&mark);
                let behind = case.file.len() - case.marks.len();
                case.file[behind + at..behind + at + 2].copy_from_slice(&mark);
            }
            // a count too high or too low, the marks being as they were or as many as it says
            10 => {
                let at = 2 * random.below(case.counts.len() / 2);
                let count = random.pick(&[0, 1, 2, 63, 64, 65, 256, 257, 65535u16]).to_be_bytes();
                case.counts[at..at + 2].copy_from_slice(&count);
                case.file[1 + at..3 + at].copy_from_slice(&count);
                let total: usize =
                    case.counts.chunks(2).map(|pair| usize::from(u16::from_be_bytes([pair[0], pair[1]]))).sum();
                if random.once_in(2) && total <= 8300 {
                    case.marks.resize(2 * total, 0);
                    case.file.resize(1 + case.counts.len() + 2 * total, 0);
                }
            }
            _ => {}
        }
        case
    }

    /// The refusals of all functions, the areas and addresses being random.
    fn compare(&self, random: &mut Random, tally: &mut Tally) {
        let Case { stock, file, tree: design, .. } = self;
        let (mut stock_lent, mut file_lent, mut tree_lent) = (stock.clone(), file.clone(), design.clone());
        let (stock_lent, file_lent, tree_lent) = (&mut stock_lent[..], &mut file_lent[..], &mut tree_lent[..]);
        alphabets(tally, stock_lent);
        tree(tally, stock_lent, tree_lent);
        transducer(tally, stock_lent, file_lent);
        linear(tally, stock_lent, file_lent);
        let area = match random.below(8) {
            0 => 20_482,
            1 => random.below(20_483),
            2 => random.range(20_483, 21_000),
            _ => 20_483,
        };
        let (counts_lent, marks_lent) = (self.counts.clone(), self.marks.clone());
        writing(tally, stock_lent, self.states, &counts_lent, &marks_lent, area);
        self.compare_outputs(random, tally, stock_lent, file_lent, tree_lent);
        // what was lent for reading
        assert!(stock_lent == &stock[..] && file_lent == &file[..] && tree_lent == &design[..]);
        assert!(counts_lent == self.counts && marks_lent == self.marks);
    }

    fn compare_outputs(&self, random: &mut Random, tally: &mut Tally, stock: &[u8], file: &[u8], tree: &[u8]) {
        let limit = random.pick(&[50, 500, 5000, 50_000]);
        let output = independent::output_tree(stock, file, tree, limit);
        let areas = match &output {
            Ok(output) => {
                vec![output.len(), output.len() - 1, output.len() + random.below(40), random.below(output.len())]
            }
            Err(_) => vec![random.below(limit)],
        };
        for area in areas {
            translation(tally, stock, file, tree, area);
        }
        // The alphabets may be damaged or others: then the address is random.
        let known = output.as_ref().ok().filter(|_| *stock == self.alphabets.file());
        for _ in 0..3 {
            let address = generate::address(random, known.map(|output| &output[..]), &self.alphabets.outputs);
            let address_lent = address.clone();
            place(tally, stock, file, tree, &address_lent);
            assert!(address_lent == address);
        }
    }
}

/// The outcomes that the paper has for each function.
const OUTCOMES: [(&str, &str); 36] = [
    ("read_alphabets", "accepted"),
    ("read_alphabets", "refused 2"),
    ("read_tree", "accepted"),
    ("read_tree", "refused 2"),
    ("read_tree", "refused 3"),
    ("read_transducer", "accepted"),
    ("read_transducer", "refused 2"),
    ("read_transducer", "refused 4"),
    ("read_transducer", "refused 5"),
    ("write_transducer", "accepted"),
    ("write_transducer", "refused 1"),
    ("write_transducer", "refused 2"),
    ("write_transducer", "refused 4"),
    ("write_transducer", "refused 5"),
    ("is_linear", "yes"),
    ("is_linear", "no"),
    ("is_linear", "refused 2"),
    ("is_linear", "refused 4"),
    ("is_linear", "refused 5"),
    ("translate", "accepted"),
    ("translate", "refused 2"),
    ("translate", "refused 3"),
    ("translate", "refused 4"),
    ("translate", "refused 5"),
    ("translate", "refused 6"),
    ("translate", "refused 10"),
    ("symbol_at", "symbol"),
    ("symbol_at", "nowhere"),
    ("symbol_at", "refused 2"),
    ("symbol_at", "refused 3"),
    ("symbol_at", "refused 4"),
    ("symbol_at", "refused 5"),
    // areas as long as the output, and one byte shorter; outputs of a thousand symbols or more
    ("exact area", "accepted"),
    ("exact area", "refused 10"),
    ("one byte short", "refused 6"),
    ("long output", "accepted"),
];

#[test]
fn generated_cases() {
    let mut tally = Tally::default();
    for seed in 0..70_000 {
        let mut random = Random::new(seed);
        Case::random(&mut random).compare(&mut random, &mut tally);
    }
    tally.settle(&OUTCOMES, 300);
    assert!(tally.0[&("translate", "refused 10".to_string())] > 2_000);
}

/// Every short string of bytes as a file, so that all small files are tried.
#[test]
fn all_small_files() {
    let mut tally = Tally::default();
    let stock: &[u8] = &[2, 1, 0, 2, 2, 0];
    for length in 0..=7 {
        let mut bytes = vec![0; length];
        'next: loop {
            alphabets(&mut tally, &bytes);
            tree(&mut tally, stock, &bytes);
            transducer(&mut tally, stock, &bytes);
            linear(&mut tally, stock, &bytes);
            // the next string over 0, 1, 2 and 3
            for byte in bytes.iter_mut() {
                *byte += 1;
                if *byte < 4 {
                    continue 'next;
                }
                *byte = 0;
            }
            break;
        }
    }
    for &(function, outcome) in
        &[("read_alphabets", "accepted"), ("read_tree", "accepted"), ("read_transducer", "accepted")]
    {
        assert!(tally.0[&(function, outcome.to_string())] > 0);
    }
    println!("{:?}", tally.0);
}

/// Every transducer of one state over the paper's alphabets S with terms of at most three marks, on
/// every input tree of at most five levels: every area up to one byte more than the output, and
/// every address of at most four steps over 0 to 3, with a sixth of those of five and six steps.
#[test]
fn all_small_transducers() {
    let mut tally = Tally::default();
    let stock: &[u8] = &[2, 1, 0, 2, 2, 0];
    let called: [&[u8]; 6] =
        [&[0, 1], &[1, 0], &[0, 0, 0, 1, 0, 1], &[0, 0, 0, 1, 1, 0], &[0, 0, 1, 0, 0, 1], &[0, 0, 1, 0, 1, 0]];
    let mut addresses: Vec<Vec<u8>> = vec![vec![]];
    let mut first = 0;
    for _ in 0..6 {
        let last = addresses.len();
        for shorter in first..last {
            addresses.extend((0..4).map(|step| [&addresses[shorter][..], &[step]].concat()).collect::<Vec<_>>());
        }
        first = last;
    }
    for initial in called {
        for inner in called {
            for leaf in [called[0], called[2]] {
                let terms = [initial, inner, leaf].map(<[u8]>::to_vec);
                let file = Transducer { states: 1, terms: terms.into() }.file();
                for levels in 1..=5 {
                    let tree = [vec![0; levels - 1], vec![1]].concat();
                    let length = independent::translate(stock, &file, &tree, 1000).expect("it is translated").len();
                    (0..=length + 1).for_each(|area| translation(&mut tally, stock, &file, &tree, area));
                    let few = addresses.iter().enumerate().filter(|(k, address)| address.len() < 5 || k % 6 == levels);
                    few.for_each(|(_, address)| place(&mut tally, stock, &file, &tree, address));
                }
            }
        }
    }
    let wanted = [
        ("translate", "accepted"),
        ("translate", "refused 6"),
        ("symbol_at", "symbol"),
        ("symbol_at", "nowhere"),
        ("exact area", "accepted"),
        ("one byte short", "refused 6"),
    ];
    tally.settle(&wanted, 300);
}

/// The generator reaches the limits: what it makes is accepted up to them, and refused past them.
#[test]
fn the_limits_are_reached() {
    let (mut states, mut inputs, mut marks, mut term, mut bytes) = (0, 0, 0, 0, 0);
    let (mut nodes, mut levels, mut over) = (0, 0, 0);
    for seed in 0..10_000 {
        let mut random = Random::new(seed);
        let alphabets = Alphabets::random(&mut random);
        let stock = alphabets.file();
        let file = Transducer::random(&mut random, &alphabets).file();
        if let Ok(read) = slices::read_transducer(&stock, &file) {
            states = states.max(read.states);
            inputs = inputs.max(slices::read_alphabets(&stock).unwrap().inputs);
            marks = marks.max(read.marks.len() / 2);
            term = read.counts.chunks(2).map(|pair| pair[1]).max().unwrap().max(term);
            bytes = bytes.max(file.len());
        }
        match slices::read_tree(&stock, &generate::input_tree(&mut random, &alphabets)) {
            Ok(size) => {
                nodes = nodes.max(size.nodes);
                levels = levels.max(size.levels);
            }
            Err(_) => over += 1,
        }
    }
    assert_eq!((states, inputs, marks, term), (128, 16, 8192, 64));
    assert_eq!((nodes, levels), (4096, 512));
    assert!(bytes > 20_000 && over > 100, "{bytes} {over}");
}

/// The symbol at each address of an output tree is the one that stands there, in both.
#[test]
fn addresses_of_whole_outputs() {
    let mut looked_at = 0;
    for seed in 0..4000 {
        let mut random = Random::new(seed + 1_000_000);
        let alphabets = Alphabets::random(&mut random);
        let stock = alphabets.file();
        let file = Transducer::random(&mut random, &alphabets).file();
        let tree = generate::input_tree(&mut random, &alphabets);
        let Ok(output) = independent::translate(&stock, &file, &tree, 60) else { continue };
        for node in 0..output.len() {
            let mut address = generate::address_of(&output, &alphabets.outputs, node);
            assert_eq!(independent::symbol_at(&stock, &file, &tree, &address), Ok(Some(output[node])));
            assert_eq!(slices::symbol_at(&stock, &file, &tree, &address), Ok(Some(output[node])));
            address.push(alphabets.outputs[usize::from(output[node])] + 1);
            assert_eq!(independent::symbol_at(&stock, &file, &tree, &address), Ok(None));
            assert_eq!(slices::symbol_at(&stock, &file, &tree, &address), Ok(None));
            looked_at += 1;
        }
    }
    assert!(looked_at > 5000, "{looked_at}");
}
