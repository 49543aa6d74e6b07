//! The independent implementation by itself: earliest form, minimal transducer, equivalence, book and
//! joined transducer, on the paper's samples and on random transducers, against the definitions word for word
//! (`oracle`), against outputs on all small input trees, and on transducers that are equivalent by
//! construction. `cargo test --release --offline --test independent -- --nocapture` prints how often
//! each kind of case occurred.
mod generate;
mod oracle;

use caplune_independent::*;
use generate::alike::{chain, chain_alphabets, prefixed, prefixed_transducer, small_alphabets, small_transducer};
use generate::joins::{self, joined_stock, Pair};
use generate::samples::*;
use generate::{affordable, enough, small_trees, trees, Growth, Random};
use oracle::Oracle;
use std::collections::BTreeMap;
use Verdict::{Alike, Differ};

/// The number of states and of marks of a transducer's file.
fn size(stock: &[u8], file: &[u8]) -> (usize, usize) {
    let read = read_transducer(stock, file).expect("the transducer is read");
    (read.states, read.marks.len() / 2)
}

#[test]
fn samples() {
    for (sheet, expected) in [(T, T), (T_PRIME, T), (CONSTANT, CONSTANT)] {
        assert_eq!(clean(S, sheet).as_deref(), Ok(expected));
    }
    assert_eq!(earliest(S, T).unwrap().pairs, [(0, 0)]);
    assert_eq!(earliest(S, T_PRIME).unwrap().pairs, [(0, 0), (0, 1)]);
    assert_eq!(size(S, &clean(S, U).unwrap()), (1, 11));
    assert_eq!(compare(S, T, T_PRIME), Ok(Alike));
    assert_eq!(compare(S, T, U), Ok(Differ));
    assert_eq!(search_difference(S, T, U, 5), Ok(Some(vec![1])));
    assert_eq!(symbol_at(S, T, &[1], &[1]), Ok(Some(1)));
    assert_eq!(symbol_at(S, U, &[1], &[1]), Ok(Some(0)));
    assert_eq!(search_difference(S, T, T_PRIME, 60), Ok(None));
}

#[test]
fn sample_of_the_prefix() {
    let (d, e) = (Some(0), Some(1));
    assert_eq!(prefixes(STOCK_OF_M, &m()), Ok(vec![vec![d, d, None, None, d, None, e]]));
    let clean = clean(STOCK_OF_M, &m()).unwrap();
    assert_eq!(size(STOCK_OF_M, &clean), (3, 23));
    assert_eq!(clean, clean_m());
}

#[test]
fn limits() {
    let read = |file: &[u8]| earliest(S, file).map(|trimmed| (trimmed.pairs.len(), trimmed.counts[1]));
    assert_eq!(read(&many_calls(16)), Ok((2, 63)));
    assert_eq!(read(&many_calls(17)), Err(7));
    assert_eq!(clean(S, &many_calls(17)), Err(7));
    assert_eq!(read(&ring(64)), Ok((128, 3)));
    assert_eq!(clean(S, &ring(64)).as_deref(), Ok(T));
    assert_eq!(clean(S, &ring(65)), Err(7));
    assert_eq!(compare(S, &ring(64), T_PRIME), Ok(Alike));
    // refused if the initial term calls the state of the long right-hand side, and no matter if nobody does
    assert_eq!(clean(S, &long_side(1)), Err(7));
    assert_eq!(clean(S, &long_side(0)).as_deref(), Ok(T));
    assert_eq!(clean(S, &unreached_pairs()).as_deref(), Ok(T));
    // the limit of 8,192 marks
    let stock = stock_of_many_marks();
    let marks = |initial: &[u8]| earliest(&stock, &many_marks(initial)).map(|trimmed| trimmed.marks.len() / 2);
    assert_eq!(marks(&[1, 0]), Ok(8191));
    assert_eq!(marks(&[0, 2, 1, 0]), Ok(8192));
    assert_eq!(marks(&[0, 0, 1, 0, 0, 1]), Err(7));
    let longest = clean(&stock, &many_marks(&[0, 2, 1, 0])).unwrap();
    assert_eq!(size(&stock, &longest), (111, 8192));
    assert_eq!(clean(&stock, &longest).as_ref(), Ok(&longest));
}

#[test]
fn order_of_refusals() {
    let (bad_count, bad_term, over): (&[u8], &[u8], &[u8]) = (&[1, 0, 3], &[0, 0, 1, 1, 0], &ring(65));
    for (stock, file, number) in [(&[1, 1, 1, 0][..], bad_count, 2), (S, bad_count, 4), (S, bad_term, 5), (S, over, 7)]
    {
        assert_eq!(earliest(stock, file), Err(number));
        assert_eq!(clean(stock, file), Err(number));
        assert_eq!(compare(stock, file, file), Err(number));
        let mut area = vec![0xa5; MAX_FILE];
        assert_eq!(clean_into(stock, file, &mut area[1..]), Err(1));
        assert_eq!(clean_into(stock, file, &mut area), Err(number));
        assert!(area.iter().all(|&byte| byte == 0xa5));
    }
    assert_eq!(compare(S, bad_term, bad_count), Err(5));
    assert_eq!(compare(S, bad_count, bad_term), Err(4));
    assert_eq!(compare(S, over, bad_term), Err(5));
    assert_eq!(compare(S, over, bad_count), Err(4));
    assert_eq!(compare(S, T, over), Err(7));
    assert_eq!(compare(S, over, T), Err(7));
    assert_eq!(search_difference(S, bad_term, bad_count, 3), Err(5));
    let mut area = vec![0xa5; MAX_FILE + 2];
    assert_eq!(clean_into(S, T_PRIME, &mut area), Ok(T.len()));
    assert_eq!(&area[..T.len()], T);
    assert!(area[T.len()..].iter().all(|&byte| byte == 0xa5));
}

/// Head, records and area with a pattern in them.
fn lent(area: usize) -> (Head, Vec<Record>, Vec<u8>) {
    (Head { held: 77, used: 78, answered: 79 }, vec![Record { start: 7, length: 8, count: 9 }; 35], vec![0xa5; area])
}

#[test]
fn book_samples() {
    let (mut head, mut records, mut area) = lent(60);
    let mut book = Book::make(S, &mut head, &mut records, &mut area).unwrap();
    assert_eq!(
        (*book.head, book.body(0), book.body(1)),
        (Head { held: 0, used: 6, answered: 0 }, Ok(&[][..]), Ok(&[][..]))
    );
    assert_eq!([T, T_PRIME, U].map(|file| book.enter(file)), [Ok(1), Ok(1), Ok(2)]);
    assert_eq!(*book.head, Head { held: 2, used: 56, answered: 3 });
    assert_eq!(book.body(1), Ok(T));
    assert_eq!(book.body(2).map(<[u8]>::to_vec), clean(S, U));
    assert_eq!([0, 3, 33, usize::MAX].map(|number| book.body(number)), [Ok(&[][..]); 4]);
    let clean_u = clean(S, U).unwrap();
    let record = |start, length, count| Record { start, length, count };
    assert_eq!(records[..4], [record(0, 6, 0), record(6, 21, 2), record(27, 29, 1), record(0, 0, 0)]);
    assert!(records[4..33].iter().all(|&unused| unused == record(0, 0, 0)));
    assert!(records[33..].iter().all(|&past| past == record(7, 8, 9)));
    assert_eq!(area, [S, T, &clean_u, &[0xa5; 4]].concat());
    // with area 55 the third is refused by 8, and with area 26 the first
    for (bytes, entries) in [(55, vec![Ok(1), Ok(1), Err(8)]), (26, vec![Err(8); 3]), (27, vec![Ok(1), Ok(1), Err(8)])]
    {
        let (mut head, mut records, mut area) = lent(bytes);
        let mut book = Book::make(S, &mut head, &mut records, &mut area).unwrap();
        for (file, answer) in [T, T_PRIME, U].iter().zip(entries) {
            let before = (*book.head, book.records.to_vec(), book.area.to_vec());
            assert_eq!(book.enter(file), answer);
            if answer.is_err() {
                assert_eq!(before, (*book.head, book.records.to_vec(), book.area.to_vec()));
            }
        }
    }
}

/// What a question answers, the number and what it writes, and what it leaves behind that.
#[test]
fn book_questions() {
    let clean_u = clean(S, U).unwrap();
    // what is asked for and then committed is what entries leave
    for (bytes, answers) in [(60, [Ok(1), Ok(1), Ok(2)]), (55, [Ok(1), Ok(1), Err(8)]), (26, [Err(8); 3])] {
        let [(mut head, mut records, mut area), (mut other, mut others, mut other_area)] = [lent(bytes), lent(bytes)];
        let mut book = Book::make(S, &mut head, &mut records, &mut area).unwrap();
        let mut entered = Book::make(S, &mut other, &mut others, &mut other_area).unwrap();
        for ((file, form), answer) in [(T, T), (T_PRIME, T), (U, &clean_u[..])].into_iter().zip(answers) {
            let before = (*book.head, book.records.to_vec(), book.area.to_vec());
            let mut out = vec![0xa5; MAX_FILE + 1];
            assert_eq!(book.question(file, &mut out[..MAX_FILE - 1]), Err(1));
            assert!(out.iter().all(|&byte| byte == 0xa5));
            assert_eq!(book.question(file, &mut out[..MAX_FILE]), answer.map(|number| (number, form.len())));
            let written = if answer.is_ok() { form } else { &[] };
            assert_eq!(&out[..written.len()], written);
            assert!(out[written.len()..].iter().all(|&byte| byte == 0xa5));
            for claim in [0, 3, 33, usize::MAX] {
                assert_eq!(book.commit(file, claim), answer.and(Err(13)));
            }
            assert_eq!(before, (*book.head, book.records.to_vec(), book.area.to_vec()));
            assert_eq!(book.commit(file, answer.unwrap_or(1)), answer);
            assert_eq!(entered.enter(file), answer);
        }
        assert_eq!((head, records, area), (other, others, other_area));
    }
}

/// Another new transducer takes the number that was asked for; an equivalent one leaves it.
#[test]
fn numbers_taken() {
    for (between, answer) in [(U, Err(13)), (T, Ok(1)), (T_PRIME, Ok(1)), (&[][..], Ok(1))] {
        let (mut head, mut records, mut area) = lent(60);
        let mut book = Book::make(S, &mut head, &mut records, &mut area).unwrap();
        let mut out = vec![0; MAX_FILE];
        assert_eq!(book.question(T_PRIME, &mut out), Ok((1, T.len())));
        let _ = book.enter(between);
        assert_eq!(book.commit(T_PRIME, 1), answer, "{between:?}");
    }
}

#[test]
fn book_refusals() {
    let (mut head, mut records, mut area) = lent(60);
    let before = (head, records.clone(), area.clone());
    assert_eq!(Book::make(&[], &mut head, &mut records[..32], &mut area).err(), Some(9));
    assert_eq!(Book::make(&[], &mut head, &mut records, &mut area[..5]).err(), Some(2));
    assert_eq!(Book::make(S, &mut head, &mut records, &mut area[..5]).err(), Some(8));
    assert_eq!(before, (head, records.clone(), area.clone()));
    Book::make(S, &mut head, &mut records, &mut area).unwrap().enter(T).unwrap();
    let made = (head, records, area);
    // what is wrong with the book, the refusal, and the transducer that is entered
    type Damage<'a> = &'a dyn Fn(&mut Head, &mut Vec<Record>, &mut Vec<u8>);
    let refused = |damage: Damage, number: u32, sheet: &[u8]| {
        let (mut head, mut records, mut area) = made.clone();
        damage(&mut head, &mut records, &mut area);
        let before = (head, records.clone(), area.clone());
        let mut book = Book { head: &mut head, records: &mut records, area: &mut area };
        if number == 9 {
            assert_eq!((book.body(0), book.body(1), book.body(2)), (Err(9), Err(9), Err(9)));
        }
        let mut out = vec![0xa5; MAX_FILE];
        assert_eq!(book.question(sheet, &mut out[1..]), Err(1));
        assert_eq!(book.question(sheet, &mut out), Err(number));
        assert!(out.iter().all(|&byte| byte == 0xa5));
        for claim in [1, 2, 0, usize::MAX] {
            assert_eq!(book.commit(sheet, claim), Err(number));
        }
        assert_eq!(book.enter(sheet), Err(number));
        assert_eq!(before, (head, records, area));
    };
    refused(&|head, _, _| head.held = 33, 9, T);
    refused(&|head, _, _| head.held = 0, 9, T);
    refused(&|head, _, _| head.held = 2, 9, T);
    refused(&|head, _, _| head.used += 1, 9, T);
    refused(&|head, _, _| head.used -= 1, 9, T);
    refused(&|head, _, _| head.held = usize::MAX, 9, T);
    refused(&|head, _, _| head.answered = u64::MAX, 9, T);
    refused(&|_, records, _| records.truncate(32), 9, T);
    refused(&|_, records, _| records[0].start = 1, 9, T);
    refused(&|_, records, _| records[1].start = 5, 9, T);
    refused(&|_, records, _| records[1].length = usize::MAX, 9, T);
    refused(&|_, records, _| records[2].start = 27, 9, T);
    refused(&|_, records, _| records[32].length = 1, 9, T);
    refused(&|head, _, _| head.answered = 0, 9, T);
    refused(&|head, _, _| head.answered = 2, 9, T);
    refused(&|_, records, _| records[1].count = 0, 9, T);
    refused(&|_, records, _| records[1].count = 2, 9, T);
    refused(&|_, records, _| records[1].count = 0, 9, &[]);
    for (index, count) in [0, 2, 32].into_iter().flat_map(|index| [1, 1 << 63, u64::MAX].map(|count| (index, count))) {
        refused(&|_, records, _| records[index].count = count, 9, T);
        // the sum is right, but where it goes round
        refused(&|head, records, _| (records[index].count, head.answered) = (count, count.wrapping_add(1)), 9, T);
    }
    refused(&|_, records, _| (records[0].count, records[1].count) = (1, 0), 9, T);
    refused(&|_, records, _| (records[1].count, records[2].count) = (0, 1), 9, T);
    refused(&|_, _, area| area.truncate(26), 9, T);
    refused(&|_, _, area| area[0] = 0, 9, T);
    refused(&|_, _, area| area[0] = 0, 9, &[]);
    refused(&|_, _, _| (), 4, &[1, 0, 3]);
    refused(&|_, _, _| (), 5, &[0, 0, 1, 1, 0]);
    refused(&|_, _, _| (), 7, &ring(65));
    refused(&|_, _, area| area.truncate(27), 8, U);
    // a lent book that is in order, with records past the 33rd of any kind
    let (mut head, mut records, mut area) = made.clone();
    (head.answered, records[1].count) = (u64::MAX - 1, u64::MAX - 1);
    let mut book = Book { head: &mut head, records: &mut records, area: &mut area };
    assert_eq!(book.enter(T_PRIME), Ok(1));
    assert_eq!((book.head.answered, book.records[1].count), (u64::MAX, u64::MAX));
    assert_eq!(book.enter(T_PRIME), Err(9));
}

/// The counts of the 33 records sum to the entries answered, as natural numbers; any way to sum to them is taken.
#[test]
fn book_counts() {
    let (mut head, mut records, mut area) = lent(90);
    let mut book = Book::make(S, &mut head, &mut records, &mut area).unwrap();
    assert_eq!([T, U, CONSTANT].map(|file| book.enter(file)), [Ok(1), Ok(2), Ok(3)]);
    let made = (head, records, area);
    let half = 1 << 63;
    for (answered, counts, fits) in [
        (3, [1, 1, 1], true),
        (3, [3, 0, 0], true),
        (3, [0, 0, 3], true),
        (0, [0, 0, 0], true),
        (3, [1, 1, 0], false),
        (3, [1, 1, 2], false),
        (3, [1 + half, 1 + half, 1], false),
        (0, [half, half, 0], false),
        (0, [u64::MAX, 1, 0], false),
        (half, [half - 1, 0, 1], true),
        (u64::MAX - 1, [half, half - 2, 0], true),
        (u64::MAX - 1, [0, 0, u64::MAX - 1], true),
        (u64::MAX, [half, half - 1, 0], false),
    ] {
        let (mut head, mut records, mut area) = made.clone();
        head.answered = answered;
        (1..4).for_each(|number| records[number].count = counts[number - 1]);
        records[33].count = 1;
        let before = (head, records.clone(), area.clone());
        let mut book = Book { head: &mut head, records: &mut records, area: &mut area };
        let found = book.body(2).map(<[u8]>::to_vec);
        assert_eq!(found, if fits { clean(S, U) } else { Err(9) }, "{answered} {counts:?}");
        assert_eq!(book.enter(T_PRIME), if fits { Ok(1) } else { Err(9) }, "{answered} {counts:?}");
        let mut expected = before;
        if fits {
            expected.0.answered += 1;
            expected.1[1].count += 1;
        }
        assert_eq!((head, records, area), expected, "{answered} {counts:?}");
    }
}

/// In a book with one body twice an entry answers the lower number.
#[test]
fn lowest_number() {
    let mut head = Head { held: 3, used: 73, answered: 5 };
    let mut records = vec![Record::default(); 33];
    let mut area = [S, U, T, T, &[0; 9]].concat();
    // bodies 1 to 3: U as it is, which is not minimal; T; T
    let record = |(start, length, count)| Record { start, length, count };
    records[..4].copy_from_slice(&[(0, 6, 0), (6, 25, 3), (31, 21, 0), (52, 21, 2)].map(record));
    let mut book = Book { head: &mut head, records: &mut records, area: &mut area };
    assert_eq!(book.enter(T_PRIME), Ok(2));
    assert_eq!(book.enter(U), Err(8));
    assert_eq!(*book.head, Head { held: 3, used: 73, answered: 6 });
    assert_eq!([1, 2, 3].map(|claim| book.commit(T, claim)), [Err(13), Ok(2), Err(13)]);
    assert_eq!(records[..5].iter().map(|record| record.count).collect::<Vec<_>>(), [0, 3, 2, 2, 0]);
}

#[test]
fn full_book() {
    let alphabets = chain_alphabets();
    let stock = alphabets.file();
    let (mut head, mut records, mut area) = lent(1 << 16);
    let mut book = Book::make(&stock, &mut head, &mut records, &mut area).unwrap();
    let sheet = |number: usize| chain(number, 1, 2).file();
    for round in 0..2 {
        for number in 1..=32 {
            assert_eq!(book.enter(&sheet(number)), Ok(number));
            assert_eq!(book.body(number).map(<[u8]>::to_vec), clean(&stock, &sheet(number)));
            assert_eq!(book.commit(&sheet(number), number + 1), Err(13));
        }
        assert_eq!(book.enter(&sheet(33)), Err(8));
        assert_eq!([0, 1, 32, 33].map(|claim| book.commit(&sheet(33), claim)), [Err(8); 4]);
        assert_eq!(book.question(&sheet(33), &mut vec![0; MAX_FILE]), Err(8));
        assert_eq!((book.head.held, book.head.answered), (32, 32 * (round + 1)));
        assert!(book.records[1..33].iter().all(|record| record.count == round + 1));
    }
}

#[derive(Default)]
struct Tally(BTreeMap<&'static str, usize>);

impl Tally {
    fn count(&mut self, kind: &'static str) {
        *self.0.entry(kind).or_default() += 1;
    }

    fn settle(&self, wanted: &[(&'static str, usize)]) {
        self.0.iter().for_each(|(kind, times)| println!("{kind:40} {times:8}"));
        for (kind, least) in wanted {
            let times = self.0.get(kind).copied().unwrap_or(0);
            assert!(times >= *least, "{kind}: only {times} times");
        }
    }
}

/// Prefixes, earliest form and minimal transducer are those of the definitions.
fn as_defined(tally: &mut Tally, stock: &[u8], file: &[u8]) {
    let Ok(read) = read_transducer(stock, file) else { return tally.count("refused by the reader") };
    let alphabets = read_alphabets(stock).unwrap();
    let oracle = Oracle::new(alphabets.inputs, alphabets.outputs, read.states, read.marks);
    let patterns: Vec<_> = oracle.prefixes.iter().map(oracle::Term::preorder).collect();
    assert_eq!(prefixes(stock, file), Ok(patterns), "{stock:?} {file:?}");
    if oracle.rounds > 3 {
        tally.count("prefixes after over 3 rounds");
    }
    let Some((plain, pairs)) = oracle.earliest() else {
        tally.count("refused by 7");
        assert_eq!(earliest(stock, file), Err(7), "{stock:?} {file:?}");
        assert_eq!(clean(stock, file), Err(7), "{stock:?} {file:?}");
        return;
    };
    let trimmed = earliest(stock, file).map(|trimmed| (trimmed.file(), trimmed.pairs));
    assert_eq!(trimmed, Ok((plain.file(), pairs)), "{stock:?} {file:?}");
    let merged = oracle.merge(&plain);
    let answer = clean(stock, file);
    assert_eq!(answer.as_ref(), Ok(&merged.file()), "{stock:?} {file:?}");
    assert_eq!(clean(stock, &answer.unwrap()), Ok(merged.file()), "{stock:?} {file:?}");
    tally.count("cleaned");
    if merged.states < plain.states {
        tally.count("states merged");
    }
    if plain.states > read.states {
        tally.count("more states in the earliest form");
    }
    if plain.states > 0 && oracle.prefixes.iter().any(|prefix| prefix.preorder().len() > 4) {
        tally.count("a prefix of over 4 nodes");
    }
    if merged.states > 100 {
        tally.count("over 100 states in the end");
    }
}

#[test]
fn definitions() {
    let mut tally = Tally::default();
    for seed in 0..5_000 {
        let mut random = Random::new(seed + 2_000_000);
        let alphabets = small_alphabets(&mut random);
        let most = random.pick(&[3, 5, 9, 16]);
        let sheet = small_transducer(&mut random, &alphabets, 5, most);
        as_defined(&mut tally, &alphabets.file(), &sheet.file());
        let alike = sheet.alike(&mut random, &alphabets, 6);
        as_defined(&mut tally, &alphabets.file(), &alike.file());
    }
    // prefixes in all states, of which many pass the limits
    for seed in 0..4_000 {
        let mut random = Random::new(seed + 2_500_000);
        let (alphabets, sheet) = prefixed(&mut random);
        as_defined(&mut tally, &alphabets.file(), &sheet.file());
    }
    for seed in 0..1_500 {
        let mut random = Random::new(seed + 3_000_000);
        let alphabets = generate::Alphabets::random(&mut random);
        let sheet = generate::Transducer::random(&mut random, &alphabets);
        as_defined(&mut tally, &alphabets.file(), &sheet.file());
    }
    for states in 1..=128 {
        let stock = chain_alphabets().file();
        for (symbols, last) in [(0, 1), (0, 2), (1, 1), (1, 2), (3, 2)] {
            as_defined(&mut tally, &stock, &chain(states, symbols, last).file());
        }
    }
    (1..=65).for_each(|states| as_defined(&mut tally, S, &ring(states)));
    tally.settle(&[
        ("cleaned", 15_000),
        ("refused by 7", 300),
        ("states merged", 2_000),
        ("more states in the earliest form", 1_000),
        ("a prefix of over 4 nodes", 500),
        ("prefixes after over 3 rounds", 400),
        ("over 100 states in the end", 50),
    ]);
}

/// The prefix of a state is the largest pattern that its outputs share. All input trees with one
/// level more than the iteration has rounds are enough: what a round adds are right-hand sides over
/// what was there before, and the first has all right-hand sides without calls, also those at symbols
/// that are not leaves.
#[test]
fn prefixes_of_outputs() {
    let mut tally = Tally::default();
    for seed in 0..4_000 {
        let mut random = Random::new(seed + 8_000_000);
        let alphabets = small_alphabets(&mut random);
        let (states, most) = (random.range(1, 4), random.pick(&[3, 5, 9]));
        let mut sheet = match seed % 2 {
            0 => small_transducer(&mut random, &alphabets, states, most),
            _ => prefixed_transducer(&mut random, &alphabets, states, most),
        };
        let (stock, file) = (alphabets.file(), sheet.file());
        let rounds = Oracle::new(&alphabets.inputs, &alphabets.outputs, sheet.states, &sheet.marks()).rounds;
        let Some(trees) = trees(&alphabets.inputs, rounds + 1, 500) else { continue };
        for (state, prefix) in prefixes(&stock, &file).unwrap().into_iter().enumerate() {
            sheet.terms[0] = vec![1, state as u8];
            let file = sheet.file();
            let outputs: Result<Vec<_>, _> = trees.iter().map(|tree| output_tree(&stock, &file, tree, 3_000)).collect();
            let Ok(outputs) = outputs else { continue };
            let outputs = outputs.iter().map(|output| oracle::Term::tree(&alphabets.outputs, &mut output.iter()));
            let shared = outputs.reduce(|one, other| one.join(&other)).expect("there are trees");
            tally.count(if prefix.len() > 1 && prefix.contains(&None) {
                "with symbols and open ends"
            } else {
                "others"
            });
            assert_eq!(shared.preorder(), prefix, "{stock:?} {file:?} {state}");
        }
    }
    tally.settle(&[("with symbols and open ends", 500), ("others", 2_000)]);
}

/// The minimal transducer is accepted, minimal, and gives the outputs of its transducer on all small
/// input trees, where the outputs are once looked at node by node and once built.
#[test]
fn outputs_stay() {
    let mut tally = Tally::default();
    for seed in 0..4_000 {
        let mut random = Random::new(seed + 4_000_000);
        let (alphabets, sheet) = if seed % 3 == 0 {
            prefixed(&mut random)
        } else {
            let alphabets = small_alphabets(&mut random);
            let sheet = small_transducer(&mut random, &alphabets, 4, 9);
            (alphabets, sheet)
        };
        let sheet = sheet.alike(&mut random, &alphabets, seed as usize % 5);
        let (stock, file) = (alphabets.file(), sheet.file());
        let Ok(clean_file) = clean(&stock, &file) else {
            assert_eq!(clean(&stock, &file), Err(7));
            tally.count("refused by 7");
            continue;
        };
        assert!(read_transducer(&stock, &clean_file).is_ok());
        assert_eq!(clean(&stock, &clean_file).as_ref(), Ok(&clean_file));
        // of a minimal earliest transducer no prefix has a symbol
        assert!(prefixes(&stock, &clean_file).unwrap().iter().all(|prefix| prefix[..] == [None]));
        let limit = affordable(&alphabets.inputs, 400);
        assert_eq!(search_difference(&stock, &file, &clean_file, limit), Ok(None), "{stock:?} {file:?}");
        for _ in 0..8 {
            let nodes = random.range(1, 40);
            let growth = random.pick(&[Growth::Even(10), Growth::Even(15), Growth::Left, Growth::Right]);
            let tree = generate::tree(&mut random, &alphabets.inputs, nodes, 30, growth);
            let output = output_tree(&stock, &file, &tree, 3_000);
            assert_eq!(output_tree(&stock, &clean_file, &tree, 3_000), output, "{stock:?} {file:?} {tree:?}");
            tally.count(if output.is_ok() { "outputs built" } else { "outputs too long" });
        }
    }
    tally.settle(&[("outputs built", 20_000), ("refused by 7", 10)]);
}

/// Equivalence by minimal transducers against the search for a difference, which is made far enough.
#[test]
fn verdicts() {
    let mut tally = Tally::default();
    let mut largest = (0, 0);
    for seed in 0..12_000u64 {
        let mut random = Random::new(seed + 5_000_000);
        let alphabets = small_alphabets(&mut random);
        let (states, most) = (random.range(1, 3), random.pick(&[1, 3, 3, 5, 7]));
        let first = small_transducer(&mut random, &alphabets, states, most);
        let second = match seed % 4 {
            0 => small_transducer(&mut random, &alphabets, states, most),
            1 => first.with_one_mark_changed(&mut random, &alphabets).unwrap_or_else(|| first.clone()),
            2 => {
                let alike = first.alike(&mut random, &alphabets, 3);
                alike.with_one_mark_changed(&mut random, &alphabets).unwrap_or(alike)
            }
            _ => first.alike(&mut random, &alphabets, 4),
        };
        let (stock, first, second) = (alphabets.file(), first.file(), second.file());
        let (Ok(one), Ok(other)) = (clean(&stock, &first), clean(&stock, &second)) else {
            assert_eq!(compare(&stock, &first, &second), Err(7));
            tally.count("refused by 7");
            continue;
        };
        let verdict = compare(&stock, &first, &second);
        assert_eq!(verdict, Ok(if one == other { Alike } else { Differ }));
        let enough = enough(usize::from(one[0]) + usize::from(other[0]), &alphabets.inputs);
        let limit = affordable(&alphabets.inputs, 3_000);
        let found = search_difference(&stock, &first, &second, limit.min(enough)).unwrap();
        match found {
            Some(tree) => {
                assert_eq!(verdict, Ok(Differ), "{stock:?} {first:?} {second:?} {tree:?}");
                let outputs = [&first, &second].map(|file| output_tree(&stock, file, &tree, 100_000));
                assert!(outputs[0] != outputs[1] || outputs[0].is_err(), "{stock:?} {first:?} {second:?} {tree:?}");
                if tree.len() > largest.0 {
                    largest = (tree.len(), enough);
                }
                tally.count("differ, found");
                if tree.len() > 3 {
                    tally.count("differ, found on over 3 nodes");
                }
            }
            None if limit >= enough => {
                assert_eq!(verdict, Ok(Alike), "{stock:?} {first:?} {second:?}");
                tally.count("alike, searched far enough");
                if first != second {
                    tally.count("alike, of different files");
                }
                if seed % 4 < 3 && first != second {
                    tally.count("alike, not by construction");
                }
            }
            None if verdict == Ok(Alike) => tally.count("alike, searched as far as affordable"),
            None => tally.count("differ, not found as far as affordable"),
        }
    }
    println!("largest tree needed: {} nodes, where {} are enough", largest.0, largest.1);
    tally.settle(&[
        ("differ, found", 4_000),
        ("differ, found on over 3 nodes", 300),
        ("alike, searched far enough", 4_000),
        ("alike, of different files", 3_000),
        ("alike, not by construction", 200),
    ]);
    assert_eq!(tally.0.get("differ, not found as far as affordable"), None);
}

/// All pairs of transducers of one state over S with terms of at most three marks.
#[test]
fn all_small_pairs() {
    let files = one_state();
    let mut alike = 0;
    for first in &files {
        for second in &files {
            let found = search_difference(S, first, second, enough(6, &[1, 0])).unwrap();
            assert_eq!(
                compare(S, first, second),
                Ok(if found.is_some() { Differ } else { Alike }),
                "{first:?} {second:?}"
            );
            alike += usize::from(found.is_none());
        }
    }
    println!("{} files, {alike} pairs alike", files.len());
    assert!(alike > files.len());
}

/// Transducers of all sizes, changed in ways that keep them equivalent.
#[test]
fn alike_by_construction() {
    let mut tally = Tally::default();
    for seed in 0..4_000 {
        let mut random = Random::new(seed + 6_000_000);
        let (alphabets, sheet) = if seed % 4 == 0 {
            prefixed(&mut random)
        } else if seed % 4 == 1 {
            let alphabets = small_alphabets(&mut random);
            let sheet = small_transducer(&mut random, &alphabets, 8, 12);
            (alphabets, sheet)
        } else {
            let alphabets = generate::Alphabets::random(&mut random);
            let sheet = generate::Transducer::random(&mut random, &alphabets);
            (alphabets, sheet)
        };
        let stock = alphabets.file();
        let Ok(expected) = clean(&stock, &sheet.file()) else {
            tally.count("refused");
            continue;
        };
        let mut same = |kind, changed: Option<generate::Transducer>| {
            let Some(file) = changed.filter(|changed| changed.fits()).map(|changed| changed.file()) else { return };
            match compare(&stock, &sheet.file(), &file) {
                Ok(verdict) => {
                    assert_eq!(verdict, Alike, "{kind} {stock:?} {:?} {file:?}", sheet.file());
                    assert_eq!(clean(&stock, &file).as_ref(), Ok(&expected));
                    tally.count(kind);
                }
                Err(number) => {
                    assert_eq!(number, 7, "{kind} {stock:?} {file:?}");
                    tally.count("the changed one is refused by 7");
                }
            }
        };
        if sheet.states > 0 {
            same("permuted", Some(sheet.permuted(&mut random)));
            same("duplicated", Some(sheet.duplicated(&mut random)));
            same("advanced", sheet.advanced(&mut random, &alphabets));
        }
        same("with an unreached state", Some(sheet.with_unreached(&mut random, &alphabets)));
        same("delayed", sheet.delayed(&mut random, &alphabets));
        same("by many steps", Some(sheet.alike(&mut random, &alphabets, 25)));
    }
    let kinds = ["permuted", "duplicated", "advanced", "with an unreached state", "delayed", "by many steps"];
    tally.settle(&kinds.map(|kind| (kind, 1_000)));
}

/// T' from T, by delaying all of the initial term.
#[test]
fn delayed_sample() {
    let alphabets = generate::Alphabets { inputs: vec![1, 0], outputs: vec![2, 0] };
    let sides = [vec![0, 0, 1, 0, 1, 0], vec![0, 1]];
    let t = generate::Transducer { states: 1, terms: [vec![sides[0].clone()], sides.to_vec()].concat() };
    assert_eq!(t.file(), T);
    let mut delayed = 0;
    for seed in 0..200 {
        let Some(other) = t.delayed(&mut Random::new(seed), &alphabets) else { continue };
        assert_eq!(clean(S, &other.file()).as_deref(), Ok(T));
        assert_eq!(compare(S, &other.file(), T_PRIME), Ok(Alike));
        delayed += usize::from(other.terms[0] == [1, 1]);
    }
    assert!(delayed > 0);
}

/// Chains of states that are alike but for one mark at their end, also behind changes that keep them
/// equivalent.
#[test]
fn one_mark_at_the_end_of_a_chain() {
    let alphabets = chain_alphabets();
    let stock = alphabets.file();
    for states in 1..=128usize {
        let mut random = Random::new(states as u64 + 7_000_000);
        for symbols in [0, 1, 2, 40] {
            let sheets = [1, 2].map(|last| chain(states, symbols, last));
            if !sheets[0].fits() {
                continue;
            }
            let changed = [0, 1].map(|which: usize| sheets[which].alike(&mut random, &alphabets, 6).file());
            let sheets = sheets.map(|sheet| sheet.file());
            assert_eq!(compare(&stock, &sheets[0], &sheets[1]), Ok(Differ));
            for (one, first) in sheets.iter().chain(&changed).enumerate() {
                for (two, second) in sheets.iter().chain(&changed).enumerate() {
                    let expected = if one % 2 == two % 2 { Alike } else { Differ };
                    let verdict = compare(&stock, first, second);
                    assert!(verdict == Ok(expected) || verdict == Err(7), "{states} {symbols} {one} {two} {verdict:?}");
                }
            }
            // the tree on which they differ, and that they agree on the trees with fewer levels
            let tree = |levels: usize| [vec![0; levels - 1], vec![1]].concat();
            let outputs =
                |levels: usize| sheets.clone().map(|file| output_tree(&stock, &file, &tree(levels), 10_000).unwrap());
            assert!(outputs(states)[0] != outputs(states)[1]);
            assert!((1..states).all(|levels| outputs(levels)[0] == outputs(levels)[1]));
            if symbols == 0 {
                assert_eq!(clean(&stock, &sheets[0]).as_deref(), Ok(CONSTANT));
                assert_eq!(size(&stock, &clean(&stock, &sheets[1]).unwrap()).0, states);
            }
        }
    }
}

/// The file of the joined transducer, or the refusal.
fn joined(Pair { stocks, files }: &Pair) -> Result<Vec<u8>, u32> {
    join(&stocks[0], &stocks[1], &files[0], &files[1])
}

#[test]
fn joined_samples() {
    for (name, pair, expected) in joins::samples() {
        assert_eq!(joined(&pair).as_ref(), Ok(&expected), "{name}");
        assert!(read_transducer(&joined_stock(&pair.stocks[0], &pair.stocks[1]), &expected).is_ok(), "{name}");
    }
}

#[test]
fn joined_limits() {
    for (name, pair, expected) in joins::limits() {
        let (stock, second_stock) = (&pair.stocks[0], &pair.stocks[1]);
        assert!(read_transducer(stock, &pair.files[0]).is_ok(), "{name}");
        assert!(read_transducer(second_stock, &pair.files[1]).is_ok(), "{name}");
        let form = joined(&pair);
        assert_eq!(form.as_ref().map(|form| joins::size(stock, form)).map_err(|&number| number), expected, "{name}");
        if let Ok(form) = form {
            assert!(read_transducer(&joined_stock(stock, second_stock), &form).is_ok(), "{name}");
        }
    }
    assert_eq!(joined(&joins::longest(0)).map(|form| form.len()), Ok(MAX_FILE));
}

#[test]
fn joined_refusals() {
    let unfit = joins::other_stocks();
    // 17 output symbols are more than a stock has input symbols
    let wide = [vec![2, 1, 0, 17, 2], vec![0; 16]].concat();
    let sixteen = [vec![16, 2], vec![0; 15], vec![2, 2, 0]].concat();
    let (bad_stock, bad_count, bad_term): (&[u8], &[u8], &[u8]) = (&[1, 1, 1, 0], &[1, 0, 3], &[0, 0, 1, 1, 0]);
    let doubling = joins::doubling(true, 0, 60);
    let [over_first, over_second] = doubling.stocks.each_ref();
    let [over, second_over] = doubling.files.each_ref();
    type Case<'a> = ([&'a [u8]; 2], [&'a [u8]; 2], u32);
    let mut cases: Vec<Case> = vec![
        ([bad_stock, bad_stock], [bad_count, bad_count], 2),
        ([bad_stock, joins::PAIRS], [T, joins::MIRROR], 2),
        ([S, bad_stock], [bad_count, bad_count], 2),
        ([&wide, &sixteen], [bad_count, bad_count], 16),
        ([S, joins::PAIRS], [bad_count, bad_term], 4),
        ([S, joins::PAIRS], [bad_term, bad_count], 5),
        // the mirror calls a second sub-tree, which a does not have
        ([S, joins::PAIRS], [joins::MIRROR, bad_count], 5),
        ([S, joins::PAIRS], [T, bad_count], 4),
        ([S, joins::PAIRS], [T, bad_term], 5),
        ([over_first, over_second], [over, bad_count], 4),
        ([over_first, over_second], [over, bad_term], 5),
        ([over_first, over_second], [over, second_over], 17),
    ];
    cases.extend(unfit.iter().flat_map(|stock| [([S, stock], [bad_count, bad_count], 16), ([S, stock], [T, T], 16)]));
    for (stocks, files, number) in cases {
        let mut area = vec![0xa5; MAX_FILE];
        let into = |area: &mut [u8]| join_into(stocks[0], stocks[1], files[0], files[1], area);
        assert_eq!(into(&mut area[1..]), Err(1), "{stocks:?} {files:?}");
        assert_eq!(into(&mut area), Err(number), "{stocks:?} {files:?}");
        assert!(area.iter().all(|&byte| byte == 0xa5));
    }
    let mut area = vec![0xa5; MAX_FILE + 2];
    assert_eq!(join_into(S, joins::PAIRS, T_PRIME, joins::T_OF_PAIRS, &mut area), Ok(U.len()));
    assert_eq!(&area[..U.len()], U);
    assert!(area[U.len()..].iter().all(|&byte| byte == 0xa5));
}

/// The joined transducer is that of the definition.
fn joined_as_defined(tally: &mut Tally, pair: &Pair) -> Result<Vec<u8>, u32> {
    let answer = joined(pair);
    let [one, two] = [0, 1].map(|which| read_transducer(&pair.stocks[which], &pair.files[which]));
    let (Ok(one), Ok(two)) = (one, two) else {
        tally.count("refused by the reader");
        assert!(matches!(answer, Err(4 | 5)), "{pair:?}");
        return answer;
    };
    let [first, second] = pair.stocks.each_ref().map(|stock| read_alphabets(stock).expect("it is read"));
    let inputs = [first.inputs.len(), second.inputs.len()];
    let oracle = oracle::Join::new(inputs, [first.outputs, second.outputs], [one.marks, two.marks]);
    match oracle.joined() {
        Err(limit) => {
            tally.count(limit);
            assert_eq!(answer, Err(17), "{pair:?}");
        }
        Ok(plain) => {
            assert_eq!(answer.as_ref(), Ok(&plain.file()), "{pair:?}");
            tally.count("joined");
            if plain.states > one.states.max(two.states) {
                tally.count("more states than each");
            }
            if plain.states > 100 {
                tally.count("over 100 states");
            }
            if plain.terms.iter().any(|term| term.len() > 2 * 50) {
                tally.count("over 50 marks in a term");
            }
            if plain.terms.iter().map(Vec::len).sum::<usize>() > 2 * 4_000 {
                tally.count("over 4,000 marks");
            }
        }
    }
    answer
}

#[test]
fn joined_definitions() {
    let mut tally = Tally::default();
    for (_, pair, _) in joins::samples() {
        let _ = joined_as_defined(&mut tally, &pair);
    }
    for (_, pair, _) in joins::limits() {
        let _ = joined_as_defined(&mut tally, &pair);
    }
    for seed in 0..20_000 {
        let mut random = Random::new(seed + 30_000_000);
        let two = joins::any(&mut random, 2);
        let _ = joined_as_defined(&mut tally, &Pair::of(&two[0], &two[1]));
    }
    tally.settle(&[
        ("joined", 10_000),
        ("more states than each", 1_000),
        ("over 100 states", 100),
        ("over 50 marks in a term", 100),
        ("over 4,000 marks", 50),
        ("over 128 states", 300),
        ("over 64 marks in a term", 500),
        ("over 8,192 marks", 10),
    ]);
}

/// The output of the joined transducer is that of the second on that of the first, on all small input trees.
#[test]
fn joined_outputs() {
    let mut tally = Tally::default();
    for seed in 0..6_000 {
        let mut random = Random::new(seed + 31_000_000);
        let two = joins::any(&mut random, 2);
        let pair = Pair::of(&two[0], &two[1]);
        let Ok(form) = joined(&pair) else { continue };
        let Pair { stocks, files } = &pair;
        let stock = joined_stock(&stocks[0], &stocks[1]);
        for tree in small_trees(&two[0].0.inputs, 60) {
            let Ok(between) = output_tree(&stocks[0], &files[0], &tree, MAX_NODES) else {
                tally.count("the first output is too long");
                continue;
            };
            match output_tree(&stocks[1], &files[1], &between, 3_000) {
                Err(NOT_A_TREE) => tally.count("the first output has too many levels"),
                output => {
                    assert_eq!(output_tree(&stock, &form, &tree, 3_000), output, "{pair:?} {tree:?}");
                    tally.count(if output.is_ok() { "outputs built" } else { "outputs too long" });
                }
            }
        }
    }
    tally.settle(&[("outputs built", 100_000)]);
}

/// Three transducers joined either way are one transducer, wherever the two that are joined first are within the
/// limits; and a transducer joined with one that gives its input tree is equivalent to itself.
#[test]
fn joined_three() {
    let mut tally = Tally::default();
    for seed in 0..12_000 {
        let mut random = Random::new(seed + 32_000_000);
        let three = joins::any(&mut random, 3);
        let [one, two, last] = [0, 1, 2].map(|which| (three[which].0.file(), three[which].1.file()));
        let Ok(left) = join(&one.0, &two.0, &one.1, &two.1) else { continue };
        let left_stock = joined_stock(&one.0, &two.0);
        // the first again, before and behind one that gives its input tree
        let (alphabets, sheet) = &three[0];
        let same = |ranks: &Vec<u8>| {
            let alphabets = generate::Alphabets { inputs: ranks.clone(), outputs: ranks.clone() };
            (alphabets, joins::identity(ranks))
        };
        let pairs = [Pair::of(&three[0], &same(&alphabets.outputs)), Pair::of(&same(&alphabets.inputs), &three[0])];
        for pair in pairs {
            let form = joined(&pair).expect("it has no more than the first itself");
            assert!(usize::from(form[0]) <= sheet.states && form.len() <= one.1.len(), "{pair:?}");
            let verdict = compare(&one.0, &one.1, &form);
            assert!(verdict == Ok(Alike) || verdict == Err(7), "{pair:?}");
            tally.count(if verdict.is_ok() { "alike" } else { "over the limits of the earliest form" });
        }
        let Ok(right) = join(&two.0, &last.0, &two.1, &last.1) else { continue };
        let right_stock = joined_stock(&two.0, &last.0);
        let (one_way, other_way) =
            (join(&left_stock, &last.0, &left, &last.1), join(&one.0, &right_stock, &one.1, &right));
        assert_eq!(one_way, other_way, "{three:?}");
        tally.count(if one_way.is_ok() { "joined" } else { "over the limits" });
    }
    tally.settle(&[("alike", 10_000), ("joined", 5_000), ("over the limits", 200)]);
}
