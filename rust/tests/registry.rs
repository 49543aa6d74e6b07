//! Holds the proved registry against the independent one (the paper: the book): on the paper's samples,
//! on lists of entries, and on heads, records, counts and areas that are damaged.
//!
//! Every call is made three times (`calls`). `cargo test --release --offline --test registry -- --nocapture` prints how
//! often each outcome occurred. Questions and commits are in `questions.rs`.
mod calls;
mod generate;
mod lent;

use calls::{bodies, body, enter, make, of_symbol, of_symbols, pool, set_counts};
use caplune::slices::{self, Head, Record, RECORDS};
use caplune_independent as independent;
use generate::alike::{chain, chain_alphabets};
use generate::memory::Memory;
use generate::samples::*;
use generate::Random;
use lent::Tally;
use std::collections::{BTreeMap, BTreeSet};

/// How many lists are drawn to look at the counts.
const LISTS: u64 = 20_000;

/// The outcomes that the paper has.
const OUTCOMES: [(&str, &str); 14] = [
    ("make_registry", "accepted"),
    ("make_registry", "refused 2"),
    ("make_registry", "refused 8"),
    ("make_registry", "refused 9"),
    ("enter", "added"),
    ("enter", "found"),
    ("enter", "refused 4"),
    ("enter", "refused 5"),
    ("enter", "refused 7"),
    ("enter", "refused 8"),
    ("enter", "refused 9"),
    ("body", "body"),
    ("body", "empty"),
    ("body", "refused 9"),
];

#[test]
fn samples() {
    let mut tally = Tally::default();
    for (size, answers, used) in [
        (60, [Ok(1), Ok(1), Ok(2)], 56),
        (56, [Ok(1), Ok(1), Ok(2)], 56),
        (55, [Ok(1), Ok(1), Err(8)], 27),
        (27, [Ok(1), Ok(1), Err(8)], 27),
        (26, [Err(8), Err(8), Err(8)], 6),
        (6, [Err(8), Err(8), Err(8)], 6),
    ] {
        let mut memory = Memory::new(RECORDS, size);
        assert_eq!(make(&mut tally, &mut memory, S), Ok(()));
        assert_eq!(memory.head, Head { held: 0, used: 6, answered: 0 });
        assert_eq!([T, T_PRIME, U].map(|file| enter(&mut tally, &mut memory, file)), answers);
        let answered = answers.iter().filter(|answer| answer.is_ok()).count() as u64;
        let held = answers.iter().filter_map(|answer| answer.ok()).max().unwrap_or(0);
        assert_eq!(memory.head, Head { held, used, answered });
        bodies(&mut tally, &mut memory);
        if held > 0 {
            assert_eq!(body(&mut tally, &mut memory, 1), T);
        }
        if held > 1 {
            assert_eq!(body(&mut tally, &mut memory, 2), independent::clean(S, U).unwrap());
        }
    }
    let mut memory = Memory::new(RECORDS, 5);
    let before = memory.clone();
    assert_eq!(make(&mut tally, &mut memory, S), Err(8));
    assert_eq!(memory, before);
}

/// The samples once more, number by number: the head, every record with its count, where each body stands. The 34th
/// record stays as it was.
#[test]
fn records_of_samples() {
    let mut tally = Tally::default();
    for (size, head, held) in [
        (60, Head { held: 2, used: 56, answered: 3 }, &[(0, 6, 0), (6, 21, 2), (27, 29, 1)][..]),
        (55, Head { held: 1, used: 27, answered: 2 }, &[(0, 6, 0), (6, 21, 2)]),
        (26, Head { held: 0, used: 6, answered: 0 }, &[(0, 6, 0)]),
    ] {
        let mut memory = Memory::new(RECORDS + 1, size);
        let mut records = vec![Record::default(); RECORDS];
        records.push(memory.records()[RECORDS]);
        for (record, &(start, size, count)) in records.iter_mut().zip(held) {
            *record = Record { start, size, count };
        }
        assert_eq!(make(&mut tally, &mut memory, S), Ok(()));
        let _ = [T, T_PRIME, U].map(|file| enter(&mut tally, &mut memory, file));
        assert_eq!((memory.head, memory.records()), (head, &records[..]));
        for number in 0..RECORDS + 3 {
            let (start, size, _) = if number > 0 { *held.get(number).unwrap_or(&(0, 0, 0)) } else { (0, 0, 0) };
            let from = memory.area().as_ptr() as usize + start;
            let part = body(&mut tally, &mut memory, number);
            assert_eq!(part.len(), size);
            assert!(size == 0 || part.as_ptr() as usize == from);
        }
    }
}

/// Files that are refused leave the registry as it was.
#[test]
fn refused_files() {
    let mut tally = Tally::default();
    let mut memory = Memory::new(RECORDS + 1, 60);
    assert_eq!(make(&mut tally, &mut memory, S), Ok(()));
    for entries in [&[][..], &[T], &[T, U]] {
        entries.iter().for_each(|file| assert!(enter(&mut tally, &mut memory, file).is_ok()));
        let before = memory.clone();
        assert_eq!(enter(&mut tally, &mut memory, &[1, 0, 3]), Err(4));
        assert_eq!(enter(&mut tally, &mut memory, &[0, 0, 1, 1, 0]), Err(5));
        assert_eq!(make(&mut tally, &mut memory, &[1, 1, 1, 0]), Err(2));
        assert_eq!(memory, before);
    }
}

/// Heads that do not fit the records, and the last answer that can be counted.
#[test]
fn heads_of_samples() {
    let mut tally = Tally::default();
    let mut whole = Memory::new(RECORDS + 1, 60);
    assert_eq!(make(&mut tally, &mut whole, S), Ok(()));
    assert_eq!([T, T_PRIME, U].map(|file| enter(&mut tally, &mut whole, file)), [Ok(1), Ok(1), Ok(2)]);
    let as_made = whole.head;
    assert_eq!(as_made, Head { held: 2, used: 56, answered: 3 });
    for head in [Head { held: 33, ..as_made }, Head { used: 55, ..as_made }, Head { answered: u64::MAX, ..as_made }] {
        let mut memory = whole.clone();
        memory.head = head;
        let before = memory.clone();
        assert_eq!(enter(&mut tally, &mut memory, T), Err(9), "{head:?}");
        assert_eq!(memory, before);
        bodies(&mut tally, &mut memory);
    }
    let mut memory = whole.clone();
    memory.head.held = 33;
    assert!(body(&mut tally, &mut memory, 1).is_empty());
    let mut memory = whole.clone();
    memory.head.answered = u64::MAX - 1;
    memory.lend().1[2].count = u64::MAX - 3;
    assert_eq!(enter(&mut tally, &mut memory, T), Ok(1));
    whole.head.answered = u64::MAX;
    whole.lend().1[1].count = 3;
    whole.lend().1[2].count = u64::MAX - 3;
    assert_eq!(memory, whole);
}

/// Records past the 33rd are neither read nor altered, and fewer are no registry.
#[test]
fn numbers_of_records() {
    let mut tally = Tally::default();
    for count in (0..=40).chain([70, 1_000]) {
        let mut memory = Memory::new(count, 60);
        let before = memory.clone();
        let made = make(&mut tally, &mut memory, S);
        assert_eq!(made, if count < 33 { Err(9) } else { Ok(()) });
        if made.is_err() {
            assert_eq!(make(&mut tally, &mut memory, &[]), Err(9));
            assert_eq!(memory, before);
            assert_eq!(enter(&mut tally, &mut memory, T), Err(9));
        } else {
            assert_eq!(make(&mut tally, &mut memory, &[]), Err(2));
            assert_eq!([T, U].map(|file| enter(&mut tally, &mut memory, file)), [Ok(1), Ok(2)]);
            assert_eq!(memory.records()[33..], before.records()[33..]);
        }
        bodies(&mut tally, &mut memory);
        // a registry that is whole but for the number of records lent
        let mut whole = Memory::new(RECORDS, 60);
        assert_eq!(make(&mut tally, &mut whole, S), Ok(()));
        whole.count = count.min(RECORDS);
        assert_eq!(enter(&mut tally, &mut whole, T), if count < 33 { Err(9) } else { Ok(1) });
        bodies(&mut tally, &mut whole);
    }
}

/// A registry with T and U in it, in an area of 80 bytes.
fn made(tally: &mut Tally) -> Memory {
    let mut memory = Memory::new(35, 80);
    assert_eq!(make(tally, &mut memory, S), Ok(()));
    assert_eq!([T, U].map(|file| enter(tally, &mut memory, file)), [Ok(1), Ok(2)]);
    memory
}

#[test]
fn damaged() {
    let mut tally = Tally::default();
    let made = made(&mut tally);
    type Damage = fn(&mut Memory);
    let record = |memory: &mut Memory, index: usize, start: usize, size: usize| {
        let count = memory.records()[index].count;
        memory.lend().1[index] = Record { start, size, count };
    };
    // an entry of T is answered so, and one of what is not read is refused by 9 where that is
    let mut entry = |expected: Result<usize, u32>, damage: &dyn Fn(&mut Memory)| {
        let mut memory = made.clone();
        damage(&mut memory);
        bodies(&mut tally, &mut memory);
        let mut other = memory.clone();
        assert_eq!(enter(&mut tally, &mut memory, T), expected);
        let refused = enter(&mut tally, &mut other, &[1, 0, 3]);
        assert_eq!(refused, Err(if expected == Err(9) { 9 } else { 4 }));
    };
    let in_order: [Damage; 5] = [
        |_| (),
        |memory| set_counts(memory, u64::MAX - 1, &[(1, 1 << 63), (2, (1 << 63) - 2)]),
        |memory| memory.size = 56,
        |memory| memory.lend().1[33] = Record::default(),
        |memory| memory.lend().2[56..].fill(0),
    ];
    in_order.iter().for_each(|damage| entry(Ok(1), damage));
    let heads: [Damage; 13] = [
        |memory| memory.head.held = 33,
        |memory| memory.head.held = 34,
        |memory| memory.head.held = 3,
        |memory| memory.head.held = 1,
        |memory| memory.head.held = 0,
        |memory| memory.head.held = usize::MAX,
        |memory| memory.head.used = 57,
        |memory| memory.head.used = 55,
        |memory| memory.head.used = 0,
        |memory| memory.head.used = usize::MAX,
        |memory| memory.head.answered = u64::MAX,
        |memory| set_counts(memory, u64::MAX, &[(1, 1 << 63), (2, (1 << 63) - 1)]),
        |memory| memory.head = Head::default(),
    ];
    heads.iter().for_each(|damage| entry(Err(9), damage));
    let areas: [Damage; 6] = [
        |memory| memory.size = 55,
        |memory| memory.size = 5,
        |memory| memory.size = 0,
        |memory| memory.lend().2[0] = 0,
        |memory| memory.lend().2[5] = 5,
        |memory| memory.lend().2[2] = 1,
    ];
    areas.iter().for_each(|damage| entry(Err(9), damage));
    // the records in order are (0, 6), (6, 21), (27, 29), and unused ones
    for (index, start, size) in [
        (0, 1, 6),
        (0, 0, 5),
        (0, 0, 7),
        (0, usize::MAX, 6),
        (0, 0, usize::MAX),
        (1, 5, 21),
        (1, 7, 21),
        (1, 6, 20),
        (1, 6, 22),
        (1, 6, usize::MAX),
        (1, 6, usize::MAX - 5),
        (1, 0, 0),
        (2, 27, 28),
        (2, 27, 30),
        (2, 26, 29),
        (2, 0, 29),
        (2, 0, 0),
        (3, 56, 0),
        (3, 0, 1),
        (3, 1, 0),
        (32, 56, 0),
        (32, 0, 1),
        (32, usize::MAX, usize::MAX),
    ] {
        entry(Err(9), &|memory| record(memory, index, start, size));
    }
    // sizes whose sum is the bytes used only if it goes round
    entry(Err(9), &|memory| {
        record(memory, 1, 6, usize::MAX - 9);
        record(memory, 2, usize::MAX - 3, 60);
    });
    // the end of one body moved into the next: T is no longer held, and there is room for it
    entry(Ok(3), &|memory| {
        record(memory, 1, 6, 20);
        record(memory, 2, 26, 30);
    });
    // an empty body
    entry(Ok(1), &|memory| {
        record(memory, 3, 56, 0);
        memory.head.held = 3;
    });
    // one record fewer, and the bytes used to its end; without its answers, and with them
    for (answered, count, expected) in [(0, 0, Ok(1)), (7, 7, Ok(1)), (2, 1, Err(9)), (1, 2, Err(9)), (0, 7, Err(9))] {
        entry(expected, &|memory| {
            record(memory, 2, 0, 0);
            memory.head = Head { held: 1, used: 27, answered };
            set_counts(memory, answered, &[(1, count), (2, 0)]);
        });
    }
    for (answered, count, expected) in [(0, 0, Ok(1)), (7, 0, Err(9)), (7, 7, Err(9)), (0, 7, Err(9))] {
        entry(expected, &|memory| {
            (1..3).for_each(|index| record(memory, index, 0, 0));
            memory.head = Head { held: 0, used: 6, answered };
            set_counts(memory, answered, &[(1, count), (2, 0)]);
        });
    }
    // the answers and some counts: a sum that is right in another way, one that is not, and counts that stand elsewhere
    type Counts = (u64, &'static [(usize, u64)]);
    let fitting: [Counts; 4] =
        [(2, &[(1, 2), (2, 0)]), (2, &[(1, 0), (2, 2)]), (0, &[(1, 0), (2, 0)]), (2, &[(33, 0), (34, 5)])];
    let others: [Counts; 16] = [
        (2, &[(1, 2)]),
        (2, &[(1, 0)]),
        (3, &[]),
        (1, &[]),
        (0, &[]),
        (3, &[(0, 1)]),
        (2, &[(0, 1), (1, 0)]),
        (3, &[(3, 1)]),
        (2, &[(3, 1), (2, 0)]),
        (3, &[(32, 1)]),
        (2, &[(33, 0), (2, 2)]),
        (2, &[(1, 1 + (1 << 63)), (2, 1 + (1 << 63))]),
        (2, &[(1, u64::MAX), (2, 3)]),
        (2, &[(0, 1 << 63), (3, 1 << 63)]),
        (2, &[(0, u64::MAX), (1, 2)]),
        (u64::MAX, &[(1, u64::MAX - 1)]),
    ];
    fitting.iter().for_each(|&(answered, counts)| entry(Ok(1), &|memory| set_counts(memory, answered, counts)));
    others.iter().for_each(|&(answered, counts)| entry(Err(9), &|memory| set_counts(memory, answered, counts)));
}

/// Whether the counts of a memory that is a registry otherwise are those of a registry.
fn counts_fit(memory: &Memory) -> bool {
    let (counts, Head { held, answered, .. }) = (memory.counts(), memory.head);
    let others = [&counts[..1], &counts[1 + held..RECORDS]].concat();
    let sum: u128 = counts[..RECORDS].iter().map(|&count| u128::from(count)).sum();
    others.iter().all(|&count| count == 0) && sum == u128::from(answered) && answered < u64::MAX
}

/// Whether these counts are accepted: an entry and a body by number take them or not, as they fit or not.
fn accepted(tally: &mut Tally, memory: &mut Memory) -> bool {
    let (fits, held) = (counts_fit(memory), memory.head.held);
    let answer = enter(tally, &mut memory.clone(), &of_symbol(1));
    assert_eq!(answer, if fits { Ok(1) } else { Err(9) }, "{:?} {:?}", memory.head, memory.counts());
    assert_eq!(body(tally, memory, 1).len(), if fits && held > 0 { 5 } else { 0 });
    fits
}

/// Every way to have 0, 1, 2^63 or 2^64 - 1 in one of the 33 records, or in two, the other counts being as they were or
/// 0; with answers that are this sum, or what is left of it where it goes round, one more, one less, as they were, and
/// the last number.
#[test]
fn counts_at_the_ends() {
    let mut tally = Tally::default();
    let ends = || [0, 1, 1 << 63, u64::MAX].into_iter();
    let pairs = || ends().flat_map(move |one| ends().map(move |two| (one, two)));
    let [mut fit, mut others, mut without] = [0; 3];
    for (held, stay) in [0, 1, 2, 32].into_iter().flat_map(|held| [(held, false), (held, true)]) {
        let mut start = of_symbols(&mut tally, held);
        let as_made = start.head.answered;
        if !stay {
            (1..=held).for_each(|number| start.lend().1[number].count = 0);
        }
        for (first, second) in (0..RECORDS).flat_map(|first| (first..RECORDS).map(move |second| (first, second))) {
            // one record twice is one alone
            for (one, two) in pairs().filter(|&(one, two)| first < second || one == two) {
                let mut memory = start.clone();
                set_counts(&mut memory, 0, &[(first, one), (second, two)]);
                let sum = memory.counts()[..RECORDS].iter().fold(0, |sum: u64, &count| sum.wrapping_add(count));
                for answered in BTreeSet::from([sum, sum.wrapping_add(1), sum.wrapping_sub(1), as_made, u64::MAX]) {
                    memory.head.answered = answered;
                    if accepted(&mut tally, &mut memory) {
                        fit += 1;
                        without += usize::from(memory.counts()[1..=held].contains(&0));
                    } else {
                        others += 1;
                    }
                }
            }
        }
    }
    println!("counts at the ends: {fit} accepted, {without} of them with a held record of count 0, {others} refused");
    assert!(fit > 10_000 && without > 5_000 && others > 200_000);
}

/// Counts past the 33rd record are neither summed nor altered.
#[test]
fn counts_past_the_records() {
    let mut tally = Tally::default();
    for held in [0, 2, 32] {
        let whole = of_symbols(&mut tally, held);
        for count in [0, 1, 1 << 63, u64::MAX] {
            for other in [0, 1, 1 << 63, u64::MAX] {
                let mut memory = whole.clone();
                set_counts(&mut memory, held as u64, &[(RECORDS, count), (RECORDS + 1, other)]);
                bodies(&mut tally, &mut memory);
                assert_eq!(enter(&mut tally, &mut memory, &of_symbol(1)), Ok(1));
                assert_eq!(memory.counts()[RECORDS..], [count, other]);
                let stock = memory.area()[..67].to_vec();
                assert_eq!(make(&mut tally, &mut memory, &stock), Ok(()));
                assert_eq!(memory.counts(), [vec![0; RECORDS], vec![count, other]].concat());
            }
        }
    }
}

/// The count of answers goes up to the last number but no further; a refused entry is not counted. A record's count
/// has no limit of its own: it goes as far.
#[test]
fn last_answer() {
    let mut tally = Tally::default();
    for [one, two] in [[u64::MAX - 2, 0], [0, u64::MAX - 2], [1 << 63, (1 << 63) - 3], [1, u64::MAX - 3]] {
        let mut memory = made(&mut tally);
        set_counts(&mut memory, u64::MAX - 2, &[(1, one), (2, two)]);
        assert_eq!(enter(&mut tally, &mut memory, T_PRIME), Ok(1));
        assert_eq!(enter(&mut tally, &mut memory, &[]), Err(4));
        assert_eq!(memory.head.answered, u64::MAX - 1);
        bodies(&mut tally, &mut memory);
        for (file, number) in [(T, 1), (U, 2)] {
            let mut memory = memory.clone();
            assert_eq!(enter(&mut tally, &mut memory, file), Ok(number));
            assert_eq!(memory.head.answered, u64::MAX);
            let expected = [0, one + 1 + u64::from(number == 1), two + u64::from(number == 2), 0];
            assert_eq!(memory.counts()[..4], expected);
            let before = memory.clone();
            assert_eq!(enter(&mut tally, &mut memory, T), Err(9));
            assert_eq!(enter(&mut tally, &mut memory, &[]), Err(9));
            bodies(&mut tally, &mut memory);
            assert_eq!(memory, before);
        }
    }
    // the last answer is that of a first entry
    let mut memory = Memory::new(RECORDS, 60);
    assert_eq!(make(&mut tally, &mut memory, S), Ok(()));
    assert_eq!(enter(&mut tally, &mut memory, T), Ok(1));
    set_counts(&mut memory, u64::MAX - 1, &[(1, u64::MAX - 1)]);
    assert_eq!(enter(&mut tally, &mut memory, U), Ok(2));
    assert_eq!((memory.head.answered, &memory.counts()[..4]), (u64::MAX, &[0, u64::MAX - 1, 1, 0][..]));
    assert_eq!(enter(&mut tally, &mut memory, U), Err(9));
}

/// With one body twice, an entry answers the lower number.
#[test]
fn lowest_number() {
    let mut tally = Tally::default();
    let mut memory = Memory::new(RECORDS, 82);
    let (head, records, area) = memory.lend();
    *head = Head { held: 3, used: 73, answered: 5 };
    // bodies 1 to 3: U as it is, which is not minimal; T; T
    records.fill(Record::default());
    let record = |(start, size, count)| Record { start, size, count };
    let rows = [(0, 6, 0), (6, 25, 3), (31, 21, 0), (52, 21, 2)].map(record);
    records[..4].copy_from_slice(&rows);
    area[..73].copy_from_slice(&[S, U, T, T].concat());
    assert_eq!(enter(&mut tally, &mut memory, T_PRIME), Ok(2));
    assert_eq!(enter(&mut tally, &mut memory, U), Err(8));
    assert_eq!(memory.head, Head { held: 3, used: 73, answered: 6 });
    assert_eq!(memory.counts()[..5], [0, 3, 1, 2, 0]);
    bodies(&mut tally, &mut memory);
}

/// Up to 32 transducers are held, and the 33rd is refused; those held are still found.
#[test]
fn full() {
    let mut tally = Tally::default();
    let stock = chain_alphabets().file();
    let sheet = |number: usize| chain(number, 1, 2).file();
    let lengths: Vec<usize> =
        (1..=32).map(|number| independent::clean(&stock, &sheet(number)).unwrap().len()).collect();
    let all = stock.len() + lengths.iter().sum::<usize>();
    for (size, most) in [(1 << 16, 32), (all, 32), (all - 1, 31), (all - lengths[31], 31)] {
        let mut memory = Memory::new(RECORDS, size);
        assert_eq!(make(&mut tally, &mut memory, &stock), Ok(()));
        for round in 1..=2 {
            for number in 1..=33 {
                let expected = if number <= most { Ok(number) } else { Err(8) };
                assert_eq!(enter(&mut tally, &mut memory, &sheet(number)), expected);
            }
            assert_eq!((memory.head.held, memory.head.answered), (most, (most * round) as u64));
            let counts: Vec<u64> = (0..RECORDS).map(|number| u64::from((1..=most).contains(&number))).collect();
            assert_eq!(memory.counts(), counts.iter().map(|one| one * round as u64).collect::<Vec<_>>());
            bodies(&mut tally, &mut memory);
        }
    }
}

/// Lists of entries: any two accepted ones got one number exactly if their minimal transducers are one,
/// each is still held at its number, and as many are counted as were accepted, at each number and in all.
#[test]
fn lists() {
    let mut tally = Tally::default();
    let mut full = 0;
    for seed in 0..120 {
        let mut random = Random::new(seed + 30_000_000);
        let (alphabets, files) = pool(&mut random, &[3, 10, 45]);
        let stock = alphabets.file();
        let size = match random.below(6) {
            0 => random.range(0, 40),
            1 => random.range(20, 300),
            2 => random.range(300, 2_000),
            _ => random.range(2_000, 30_000),
        };
        let mut memory = Memory::new(random.pick(&[33, 33, 34, 40]), size);
        if make(&mut tally, &mut memory, &stock).is_err() {
            continue;
        }
        let mut numbers: BTreeMap<Vec<u8>, usize> = BTreeMap::new();
        let mut accepted = [0; RECORDS];
        for _ in 0..250 {
            let file = &files[random.below(files.len())];
            if let Ok(number) = enter(&mut tally, &mut memory, file) {
                let clean = independent::clean(&stock, file).expect("it was accepted");
                let next = numbers.len() + 1;
                assert_eq!(*numbers.entry(clean).or_insert(next), number);
                accepted[number] += 1;
            }
            if random.once_in(10) {
                let mut other = memory.clone();
                other.damage(&mut random);
                bodies(&mut tally, &mut other);
                let _ = enter(&mut tally, &mut other, file);
                if random.once_in(4) {
                    let _ = make(&mut tally, &mut other, &stock);
                }
            }
        }
        assert_eq!((memory.head.held, memory.head.answered), (numbers.len(), accepted.iter().sum()));
        assert_eq!(memory.counts()[..RECORDS], accepted);
        bodies(&mut tally, &mut memory);
        for (clean, number) in numbers {
            assert_eq!(body(&mut tally, &mut memory, number), clean);
        }
        full += usize::from(memory.head.held == 32);
        let mut stock = stock;
        generate::damage(&mut random, &mut stock);
        let _ = make(&mut tally, &mut memory, &stock);
    }
    println!("{full} with 32 transducers");
    assert!(full > 10);
    tally.settle(&OUTCOMES, 10);
}

/// Many lists of a few entries each, valid, damaged and alike ones. Any two accepted entries got one number exactly if
/// the comparison calls them alike; the count of each record is how many accepted entries got its number, and their sum
/// the answers. At times the counts were others before, moved from one number to another or raised near the last
/// answer: what is counted is added to them.
#[test]
fn counts_of_lists() {
    let mut tally = Tally::default();
    let mut seen = BTreeMap::<&str, usize>::new();
    for seed in 0..LISTS {
        let mut random = Random::new(seed + 40_000_000);
        let (alphabets, mut files) = pool(&mut random, &[1, 2, 3, 4]);
        files.extend([vec![], vec![1, 0, 3], vec![0, 0, 1, 1, 0]]);
        let stock = alphabets.file();
        let room = random.pick(&[40, 100, 300, 5_000]);
        let mut memory = Memory::new(random.pick(&[33, 34, 40]), stock.len() + room);
        assert_eq!(make(&mut tally, &mut memory, &stock), Ok(()));
        let past = memory.counts()[RECORDS..].to_vec();
        // how many accepted entries got a number, and what was there besides
        let (mut got, mut besides) = ([0u64; RECORDS], [0i128; RECORDS]);
        let mut entries: Vec<(usize, usize)> = Vec::new();
        for _ in 0..random.range(1, 24) {
            let which = random.below(files.len());
            match enter(&mut tally, &mut memory, &files[which]) {
                Ok(number) => {
                    got[number] += 1;
                    entries.push((which, number));
                }
                Err(_) => *seen.entry("refused entries").or_default() += 1,
            }
            if random.once_in(25) {
                let before = memory.counts();
                let name = if random.once_in(4) { "counts raised" } else { "counts moved" };
                match name {
                    "counts moved" => memory.move_counts(&mut random),
                    _ => memory.raise_counts(&mut random),
                }
                let after = memory.counts();
                (0..RECORDS).for_each(|index| besides[index] += i128::from(after[index]) - i128::from(before[index]));
                *seen.entry(name).or_default() += usize::from(after != before);
            }
            if random.once_in(6) {
                let mut other = memory.clone();
                other.damage(&mut random);
                let _ = enter(&mut tally, &mut other, &files[which]);
                let number = random.below(4);
                body(&mut tally, &mut other, number);
            }
        }
        let counts = memory.counts();
        let expected: Vec<i128> = got.iter().zip(besides).map(|(&got, besides)| i128::from(got) + besides).collect();
        assert_eq!(counts[..RECORDS].iter().map(|&count| i128::from(count)).collect::<Vec<_>>(), expected);
        assert_eq!(expected.iter().sum::<i128>(), i128::from(memory.head.answered));
        assert_eq!(counts[RECORDS..], past);
        if besides == [0; RECORDS] {
            assert_eq!(memory.head.answered, entries.len() as u64);
        }
        *seen.entry("accepted entries").or_default() += entries.len();
        *seen.entry("lists with a number of several entries").or_default() +=
            usize::from(got.iter().any(|&got| got > 1));
        // one number exactly for those that sew alike, by the comparison
        entries.sort_unstable();
        entries.dedup();
        let (mut tree, mut address) = ([0; slices::TREE_AREA], [0; slices::ADDRESS_AREA]);
        for (index, &(first, number)) in entries.iter().enumerate().take(8) {
            for &(second, other) in &entries[..index] {
                let [first, second] = [first, second].map(|which| &files[which]);
                let alike = slices::compare(&stock, first, second, &mut tree, &mut address);
                let alike = matches!(alike, Ok(slices::Comparison::Alike));
                assert_eq!(alike, number == other, "{stock:?} {first:?} {second:?}");
                *seen.entry(if alike { "pairs alike" } else { "pairs that differ" }).or_default() += 1;
            }
        }
    }
    seen.iter().for_each(|(name, times)| println!("{name:40} {times:8}"));
    for name in ["counts moved", "counts raised", "pairs alike", "pairs that differ"] {
        assert!(seen[name] > 500, "{name}");
    }
    let wanted: Vec<_> =
        OUTCOMES.into_iter().filter(|&(name, outcome)| name != "make_registry" || outcome == "accepted").collect();
    tally.settle(&wanted, 100);
}
