//! Questions and commits of a registry (the paper: look before entering), held against the independent ones: on the
//! paper's samples, with every kind of claim, in every order of refusals, and in lists of mixed calls.
//!
//! Every call is made three times (`calls`). `cargo test --release --offline --test questions -- --nocapture` prints how
//! often each outcome occurred.
mod calls;
mod generate;
mod lent;

use calls::{bodies, commit, enter, make, of_symbol, of_symbols, pool, question, set_counts};
use caplune::slices::{self, Head, Record, RECORDS};
use caplune_independent as independent;
use generate::memory::Memory;
use generate::samples::*;
use generate::Random;
use independent::MAX_FILE;
use lent::Tally;
use std::collections::BTreeMap;

/// How many lists of mixed calls are drawn.
const LISTS: u64 = 25_000;

/// The outcomes that the paper has.
const OUTCOMES: [(&str, &str); 24] = [
    ("make_registry", "accepted"),
    ("enter", "added"),
    ("enter", "found"),
    ("enter", "refused 4"),
    ("enter", "refused 5"),
    ("enter", "refused 7"),
    ("enter", "refused 8"),
    ("enter", "refused 9"),
    ("question", "new"),
    ("question", "held"),
    ("question", "refused 1"),
    ("question", "refused 9"),
    ("question", "refused 4"),
    ("question", "refused 5"),
    ("question", "refused 7"),
    ("question", "refused 8"),
    ("commit", "added"),
    ("commit", "found"),
    ("commit", "refused 9"),
    ("commit", "refused 4"),
    ("commit", "refused 5"),
    ("commit", "refused 7"),
    ("commit", "refused 8"),
    ("commit", "refused 13"),
];

/// A registry of the stock S with these files in it, in an area of so many bytes.
fn registry(tally: &mut Tally, size: usize, files: &[&[u8]]) -> Memory {
    let mut memory = Memory::new(RECORDS + 2, size);
    assert_eq!(make(tally, &mut memory, S), Ok(()));
    files.iter().for_each(|file| assert!(enter(tally, &mut memory, file).is_ok()));
    memory
}

/// The number that a question answers, with an area that is long enough.
fn asked(tally: &mut Tally, memory: &mut Memory, file: &[u8]) -> Result<usize, u32> {
    question(tally, memory, file, MAX_FILE).map(|(number, _)| number)
}

/// T, T' and U in areas of document 01: what is asked is what is committed, and the normal forms are T, T and clean U.
#[test]
fn samples() {
    let mut tally = Tally::default();
    let clean_u = independent::clean(S, U).unwrap();
    for (size, answers) in [
        (60, [Ok(1), Ok(1), Ok(2)]),
        (56, [Ok(1), Ok(1), Ok(2)]),
        (55, [Ok(1), Ok(1), Err(8)]),
        (27, [Ok(1), Ok(1), Err(8)]),
        (26, [Err(8); 3]),
    ] {
        let mut memory = registry(&mut tally, size, &[]);
        let mut entered = memory.clone();
        for ((file, form), answer) in [(T, T), (T_PRIME, T), (U, &clean_u)].into_iter().zip(answers) {
            let expected = answer.map(|number| (number, form.to_vec()));
            assert_eq!(question(&mut tally, &mut memory, file, MAX_FILE), expected);
            assert_eq!(commit(&mut tally, &mut memory, file, answer.unwrap_or(1)), answer);
            // a commit leaves what an entry does
            assert_eq!(enter(&mut tally, &mut entered, file), answer);
            assert_eq!(memory, entered);
        }
        bodies(&mut tally, &mut memory);
    }
}

/// The editor's area: 20,483 bytes are enough for every sheet and fewer for none; what is behind the sheet stays.
#[test]
fn editors_areas() {
    let mut tally = Tally::default();
    for length in [0, 1, 21, MAX_FILE - 1] {
        for files in [&[][..], &[T]] {
            let mut memory = registry(&mut tally, 60, files);
            for file in [T, T_PRIME, U, &[1, 0, 3], &[]] {
                assert_eq!(question(&mut tally, &mut memory, file, length), Err(1));
            }
        }
    }
    for length in [MAX_FILE, MAX_FILE + 1, 65_536] {
        let mut memory = registry(&mut tally, 60, &[T]);
        assert_eq!(question(&mut tally, &mut memory, T_PRIME, length), Ok((1, T.to_vec())));
    }
    // the most marks, and the longest file
    let (stock, longest) = (stock_of_many_marks(), many_marks(&[0, 2, 1, 0]));
    let form = independent::clean(&stock, &longest).unwrap();
    assert!(form.len() > 16_384);
    let mut memory = Memory::new(RECORDS, stock.len() + form.len());
    assert_eq!(make(&mut tally, &mut memory, &stock), Ok(()));
    for _ in 0..2 {
        assert_eq!(question(&mut tally, &mut memory, &longest, MAX_FILE), Ok((1, form.clone())));
        assert_eq!(commit(&mut tally, &mut memory, &longest, 1), Ok(1));
    }
}

/// Claims beside this number, at the ends, and such as are this number in fewer bits.
fn claims(right: usize) -> impl Iterator<Item = usize> {
    let ends = [63, 64, 255, 256, 257, 1 << 32, 1 << 63, usize::MAX - 1, usize::MAX];
    let wider = [8, 16, 31, 32, 33, 63].map(|bits| right.wrapping_add(1 << bits));
    (0..=40).chain(ends).chain(wider).chain([right.wrapping_neg(), !right])
}

/// In books of every size the claim is the number of the entry or refused by 13: for sheets that are held, and for one
/// that is new. A new sheet has no number in a full book, whether 32 are held or the bytes are used.
#[test]
fn every_claim() {
    let mut tally = Tally::default();
    for held in [0, 1, 2, 7, 31, 32] {
        let mut memory = of_symbols(&mut tally, held);
        let new = held + 1;
        for symbol in [1, 2, held / 2, held, new].into_iter().filter(|symbol| (1..=new).contains(symbol)) {
            let (file, is_full) = (of_symbol(symbol), symbol == RECORDS);
            let right = if is_full { Err(8) } else { Ok(symbol) };
            assert_eq!(asked(&mut tally, &mut memory, &file), right);
            for claim in claims(symbol) {
                let expected = if right == Ok(claim) || is_full { right } else { Err(13) };
                assert_eq!(commit(&mut tally, &mut memory.clone(), &file, claim), expected, "{held} {symbol}");
            }
        }
        // no room for the bytes of a new one
        memory.size = memory.head.used;
        let file = of_symbol(new);
        assert_eq!(asked(&mut tally, &mut memory, &file), Err(8));
        claims(new).for_each(|claim| assert_eq!(commit(&mut tally, &mut memory.clone(), &file, claim), Err(8)));
    }
}

/// Of all that is wrong with a call, the first is told: 1 for a question, then 9, then 4, 5 or 7, then 8, and last 13
/// for a commit. Every choice of faults, in a book that holds a sheet.
#[test]
fn order_of_refusals() {
    let mut tally = Tally::default();
    let over = ring(65);
    let files: [(&[u8], Option<u32>); 4] =
        [(U, None), (&[1, 0, 3], Some(4)), (&[0, 0, 1, 1, 0], Some(5)), (&over, Some(7))];
    type Damage = fn(&mut Memory);
    let damages: [Damage; 5] = [
        |memory| memory.head.held = 33,
        |memory| memory.count = 32,
        |memory| memory.head.answered += 1,
        |memory| memory.lend().2[0] = 0,
        |memory| set_counts(memory, u64::MAX, &[(1, u64::MAX)]),
    ];
    let damages = damages.into_iter().map(Some).chain([None]);
    for (damage, (file, unread)) in damages.flat_map(|damage| files.map(|file| (damage, file))) {
        for size in [60, 55] {
            let mut memory = registry(&mut tally, size, &[T]);
            damage.iter().for_each(|damage| damage(&mut memory));
            let full = (size == 55).then_some(8);
            let refused = damage.map(|_| 9).or(unread).or(full);
            for out in [MAX_FILE, MAX_FILE - 1] {
                let expected = (out < MAX_FILE).then_some(1).or(refused);
                let answer = question(&mut tally, &mut memory, file, out);
                assert_eq!(answer.map(|(number, _)| number), expected.map_or(Ok(2), Err));
            }
            for claim in [2, 1, 0, 3, 33, usize::MAX] {
                let expected = refused.or((claim != 2).then_some(13)).map_or(Ok(2), Err);
                assert_eq!(commit(&mut tally, &mut memory.clone(), file, claim), expected, "{size} {claim}");
            }
        }
    }
}

/// The last answer that can be counted may be asked for and committed; then both are refused by 9, as entries are.
#[test]
fn last_answer() {
    let mut tally = Tally::default();
    for (file, number) in [(T_PRIME, 1), (U, 2)] {
        let mut memory = registry(&mut tally, 60, &[T]);
        set_counts(&mut memory, u64::MAX - 1, &[(1, u64::MAX - 1)]);
        assert_eq!(asked(&mut tally, &mut memory, file), Ok(number));
        assert_eq!(commit(&mut tally, &mut memory, file, 3 - number), Err(13));
        assert_eq!(asked(&mut tally, &mut memory, file), Ok(number));
        assert_eq!(commit(&mut tally, &mut memory, file, number), Ok(number));
        assert_eq!(memory.head.answered, u64::MAX);
        for claim in [number, 0, 7] {
            assert_eq!(asked(&mut tally, &mut memory, file), Err(9));
            assert_eq!(asked(&mut tally, &mut memory, &[]), Err(9));
            assert_eq!(commit(&mut tally, &mut memory, file, claim), Err(9));
            assert_eq!(commit(&mut tally, &mut memory, &[], claim), Err(9));
        }
    }
}

/// Fewer than 33 records are no registry, and those past the 33rd are neither read nor altered.
#[test]
fn other_counts_of_records() {
    let mut tally = Tally::default();
    for count in [0, 1, 32, 33, 34, 60] {
        let mut memory = Memory::new(count.max(RECORDS), 60);
        assert_eq!(make(&mut tally, &mut memory, S), Ok(()));
        assert_eq!(enter(&mut tally, &mut memory, T), Ok(1));
        memory.count = count;
        let past = memory.records().get(RECORDS..).map(<[Record]>::to_vec);
        let expected = if count < RECORDS { Err(9) } else { Ok(2) };
        assert_eq!(asked(&mut tally, &mut memory, U), expected);
        assert_eq!(commit(&mut tally, &mut memory, U, 2), expected);
        assert_eq!(memory.records().get(RECORDS..).map(<[Record]>::to_vec), past);
    }
}

/// With one body twice, a question answers the lower number, and a commit claims it.
#[test]
fn lowest_number() {
    let mut tally = Tally::default();
    let mut memory = Memory::new(RECORDS, 82);
    let (head, records, area) = memory.lend();
    *head = Head { held: 3, used: 73, answered: 5 };
    // bodies 1 to 3: U as it is, which is not minimal; T; T
    records.fill(Record::default());
    let record = |(start, size, count)| Record { start, size, count };
    records[..4].copy_from_slice(&[(0, 6, 0), (6, 25, 3), (31, 21, 0), (52, 21, 2)].map(record));
    area[..73].copy_from_slice(&[S, U, T, T].concat());
    assert_eq!(question(&mut tally, &mut memory, T_PRIME, MAX_FILE), Ok((2, T.to_vec())));
    for claim in [1, 3, 4] {
        assert_eq!(commit(&mut tally, &mut memory, T_PRIME, claim), Err(13));
    }
    assert_eq!(commit(&mut tally, &mut memory, T_PRIME, 2), Ok(2));
    // that U itself stands there is no number for it, and there is no room
    assert_eq!(asked(&mut tally, &mut memory, U), Err(8));
    assert_eq!(commit(&mut tally, &mut memory, U, 1), Err(8));
    assert_eq!(memory.counts()[..5], [0, 3, 1, 2, 0]);
}

/// A question and its commit, with calls between: those that leave the book do no harm, and an accepted entry or
/// commit of another new sheet takes the number.
#[test]
fn question_and_commit() {
    let mut tally = Tally::default();
    let over = ring(65);
    for files in [&[][..], &[T], &[CONSTANT, T]] {
        for file in [T, T_PRIME, U] {
            let mut memory = registry(&mut tally, 90, files);
            let number = asked(&mut tally, &mut memory, file).unwrap();
            let before = memory.clone();
            // questions of this and other sheets, and calls of all kinds that are refused
            for other in [T, U, CONSTANT, &over, &[1, 0, 3], &[]] {
                let _ = asked(&mut tally, &mut memory, other);
                let _ = question(&mut tally, &mut memory, other, MAX_FILE - 1);
                assert_eq!(commit(&mut tally, &mut memory, other, 30).err(), Some(refusal_of(other)));
            }
            for refused in [&over[..], &[1, 0, 3], &[0, 0, 1, 1, 0]] {
                assert!(enter(&mut tally, &mut memory, refused).is_err());
            }
            assert_eq!(memory, before);
            assert_eq!(commit(&mut tally, &mut memory.clone(), file, number), Ok(number));
            // a sheet that is held, and one alike to that which was asked for, leave it its number
            for other in [files.first().unwrap_or(&file), &file] {
                let mut memory = memory.clone();
                assert!(enter(&mut tally, &mut memory, other).is_ok());
                assert_eq!(commit(&mut tally, &mut memory, file, number), Ok(number));
            }
            // another new one takes it, whether it is entered or committed; the number is asked for once more
            let other: &[u8] = &[0, 0, 3, 0, 0, 0, 1, 0, 1];
            for committed in [false, true] {
                let mut memory = memory.clone();
                let next = memory.head.held + 1;
                let taken = match committed {
                    false => enter(&mut tally, &mut memory, other),
                    true => commit(&mut tally, &mut memory, other, next),
                };
                assert_eq!(taken, Ok(next));
                let is_new = number == next;
                let answer = commit(&mut tally, &mut memory, file, number);
                assert_eq!(answer, if is_new { Err(13) } else { Ok(number) });
                let now = number + usize::from(is_new);
                assert_eq!(asked(&mut tally, &mut memory, file), Ok(now));
                assert_eq!(commit(&mut tally, &mut memory, file, now), Ok(now));
            }
        }
    }
    // a making between takes every number back
    let mut memory = registry(&mut tally, 90, &[CONSTANT]);
    assert_eq!(asked(&mut tally, &mut memory, T), Ok(2));
    assert_eq!(make(&mut tally, &mut memory, S), Ok(()));
    assert_eq!(commit(&mut tally, &mut memory, T, 2), Err(13));
}

/// How a commit of one of the files above is refused that claims a number that nothing gets.
fn refusal_of(file: &[u8]) -> u32 {
    independent::clean(S, file).err().unwrap_or(13)
}

/// The last answered question since which nothing was accepted: which file, and its number.
type Standing = Option<(usize, usize)>;

/// A list of mixed calls on one registry, and what is known of it.
struct List {
    stock: Vec<u8>,
    files: Vec<Vec<u8>>,
    memory: Memory,
    /// The accepted entries and commits: which file, and its number.
    accepted: Vec<(usize, usize)>,
    standing: Standing,
}

impl List {
    fn new(random: &mut Random, tally: &mut Tally) -> Self {
        let (alphabets, mut files) = pool(random, &[1, 2, 3, 4]);
        files.extend([vec![], vec![1, 0, 3], vec![0, 0, 1, 1, 0]]);
        let stock = alphabets.file();
        let room = random.pick(&[0, 40, 100, 300, 5_000]);
        let mut memory = Memory::new(random.pick(&[33, 34, 40]), stock.len() + room);
        assert_eq!(make(tally, &mut memory, &stock), Ok(()));
        List { stock, files, memory, accepted: Vec::new(), standing: None }
    }

    /// An entry, a question or a commit of a file.
    fn call(&mut self, random: &mut Random, tally: &mut Tally, seen: &mut BTreeMap<&'static str, usize>) {
        let which = random.below(self.files.len());
        match random.below(10) {
            0..=2 => self.enter(tally, which),
            3..=5 => self.ask(random, tally, which),
            6 | 7 => {
                let right = self.memory.question(&self.files[which], MAX_FILE).map_or(1, |(number, _)| number);
                let claim = if random.once_in(3) { wrong_claim(random, right) } else { right };
                self.commit(tally, which, claim);
            }
            _ => self.commit_standing(random, tally, seen),
        }
    }

    fn enter(&mut self, tally: &mut Tally, which: usize) {
        let answer = enter(tally, &mut self.memory, &self.files[which]);
        self.answered(which, answer);
    }

    fn commit(&mut self, tally: &mut Tally, which: usize, claim: usize) {
        let answer = commit(tally, &mut self.memory, &self.files[which], claim);
        self.answered(which, answer);
    }

    /// After an accepted call no question stands any more.
    fn answered(&mut self, which: usize, answer: Result<usize, u32>) {
        if let Ok(number) = answer {
            self.accepted.push((which, number));
            self.standing = None;
        }
    }

    /// A question; at times its area is short. It answers what an entry of the same file would be answered with.
    fn ask(&mut self, random: &mut Random, tally: &mut Tally, which: usize) {
        let out = random.pick(&[MAX_FILE, MAX_FILE, MAX_FILE + 1, MAX_FILE - 1, 30_000]);
        let file = &self.files[which];
        let answer = question(tally, &mut self.memory, file, out).map(|(number, _)| number);
        if out >= MAX_FILE {
            assert_eq!(answer, self.memory.clone().enter(file));
        }
        if let Ok(number) = answer {
            self.standing = Some((which, number));
        }
    }

    /// The commit of a question that stands is accepted with its number. At times another entry is accepted before:
    /// then it is accepted still, or the number was taken by a sheet that does not sew alike.
    fn commit_standing(&mut self, random: &mut Random, tally: &mut Tally, seen: &mut BTreeMap<&'static str, usize>) {
        let Some((which, number)) = self.standing else { return };
        let before = self.memory.head.held;
        let other = random.below(self.files.len());
        if random.once_in(2) {
            self.enter(tally, other);
        }
        // one that is new got the next number, which was the answer for another new one
        let taken = self.memory.head.held > before && number > before && !self.alike(which, other);
        let name = match self.standing {
            Some(_) => "standing questions committed",
            None if taken => "numbers taken by an entry",
            None => "questions committed behind an entry",
        };
        *seen.entry(name).or_default() += 1;
        let answer = commit(tally, &mut self.memory, &self.files[which], number);
        self.answered(which, answer);
        let fits = if taken { matches!(answer, Err(8 | 13)) } else { answer == Ok(number) };
        assert!(fits, "{answer:?} {number} {name}");
    }

    /// Whether two files sew alike, by the comparison.
    fn alike(&self, first: usize, second: usize) -> bool {
        let (mut tree, mut address) = ([0; slices::TREE_AREA], [0; slices::ADDRESS_AREA]);
        let [first, second] = [first, second].map(|which| &self.files[which]);
        let compared = slices::compare(&self.stock, first, second, &mut tree, &mut address);
        matches!(compared, Ok(slices::Comparison::Alike))
    }

    /// All three calls on a copy that is damaged, of which some are registries still.
    fn call_damaged(&self, random: &mut Random, tally: &mut Tally) {
        let mut other = self.memory.clone();
        other.damage(random);
        let file = &self.files[random.below(self.files.len())];
        let out = random.pick(&[MAX_FILE, MAX_FILE, MAX_FILE - 1]);
        let right = question(tally, &mut other, file, out).map_or(1, |(number, _)| number);
        let claim = if random.once_in(3) { wrong_claim(random, right) } else { right };
        let _ = commit(tally, &mut other.clone(), file, claim);
        let _ = enter(tally, &mut other, file);
    }

    /// The counts are the accepted entries and commits, and any two of these got one number exactly if they sew alike.
    fn settle(mut self, seen: &mut BTreeMap<&'static str, usize>) {
        let mut counts = [0; RECORDS];
        self.accepted.iter().for_each(|&(_, number)| counts[number] += 1);
        assert_eq!(self.memory.counts()[..RECORDS], counts);
        assert_eq!(self.memory.head.answered, self.accepted.len() as u64);
        self.accepted.sort_unstable();
        self.accepted.dedup();
        for (index, &(first, number)) in self.accepted.iter().enumerate().take(8) {
            for &(second, other) in &self.accepted[..index] {
                let alike = self.alike(first, second);
                assert_eq!(alike, number == other, "{:?} {:?}", self.files[first], self.files[second]);
                *seen.entry(if alike { "pairs alike" } else { "pairs that differ" }).or_default() += 1;
            }
        }
    }
}

/// Another claim than the right one.
fn wrong_claim(random: &mut Random, right: usize) -> usize {
    let others = [0, right - 1, right + 1, 32, 33, right + 256, right + (1 << 32), usize::MAX, right.wrapping_neg()];
    let claim = random.pick(&others);
    if claim == right {
        right + 1
    } else {
        claim
    }
}

/// Many lists of entries, questions and commits, with right claims and wrong ones, valid, damaged and alike sheets and
/// short areas; and the same calls on damaged copies of their registries.
#[test]
fn lists_of_calls() {
    let (mut tally, mut seen) = (Tally::default(), BTreeMap::new());
    for seed in 0..LISTS {
        let mut random = Random::new(seed + 50_000_000);
        let mut list = List::new(&mut random, &mut tally);
        for _ in 0..random.range(1, 24) {
            list.call(&mut random, &mut tally, &mut seen);
            if random.once_in(8) {
                list.call_damaged(&mut random, &mut tally);
            }
        }
        list.settle(&mut seen);
    }
    seen.iter().for_each(|(name, times)| println!("{name:40} {times:8}"));
    for name in [
        "standing questions committed",
        "questions committed behind an entry",
        "numbers taken by an entry",
        "pairs alike",
        "pairs that differ",
    ] {
        assert!(seen[name] > 500, "{name}");
    }
    tally.settle(&OUTCOMES, 100);
}
