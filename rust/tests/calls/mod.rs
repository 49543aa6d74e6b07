//! The calls of a registry, and what they are made on.
//!
//! Every call is made three times, each time on a memory of its own: by the safe function of this crate, by the C
//! function itself, and by the independent function. The answers have to be the same, and so have the three memories
//! afterwards, with what stands around what was lent.

// Each test program uses some of it.
#![allow(dead_code)]

use crate::generate::alike::{chain, chain_alphabets, prefixed_transducer, small_alphabets, small_transducer};
use crate::generate::memory::Memory;
use crate::generate::{damage, Alphabets, Random, Transducer};
use crate::lent::{number, Lent, Tally, BEFORE};
use caplune::ffi;
use caplune::slices::{self, Asked, RECORDS};

/// Makes a registry in the memory three times, and answers what all three do.
pub fn make(tally: &mut Tally, memory: &mut Memory, stock: &[u8]) -> Result<(), u32> {
    let [mut safe, mut exported] = [memory.clone(), memory.clone()];
    let stock_lent = stock.to_vec();
    let expected = memory.make(stock);
    let (head, records, area) = safe.lend();
    assert_eq!(number(slices::make_registry(head, records, area, &stock_lent)), expected, "{stock:?}");
    let (head, records, area) = exported.lend();
    let refused = ffi::make_registry(head, records, area, &stock_lent);
    assert_eq!(refused, expected.err().unwrap_or(0), "{stock:?}");
    assert!(safe == *memory && exported == *memory && stock_lent == stock, "{stock:?}");
    tally.count("make_registry", &expected, "accepted");
    expected
}

/// Enters a transducer three times, and answers the number of all three. One more answer is counted, at that
/// number alone.
pub fn enter(tally: &mut Tally, memory: &mut Memory, file: &[u8]) -> Result<usize, u32> {
    entered(tally, memory, file, None)
}

/// Commits a transducer with this claim three times, and answers the number of all three, which is the claim. It is
/// counted as an entry is.
pub fn commit(tally: &mut Tally, memory: &mut Memory, file: &[u8], claim: usize) -> Result<usize, u32> {
    let answer = entered(tally, memory, file, Some(claim));
    assert!(answer.is_err() || answer == Ok(claim), "{file:?} {claim}");
    answer
}

/// An entry, or a commit where there is a claim.
fn entered(tally: &mut Tally, memory: &mut Memory, file: &[u8], claim: Option<usize>) -> Result<usize, u32> {
    let [before, mut safe, mut exported] = [memory.clone(), memory.clone(), memory.clone()];
    let file_lent = file.to_vec();
    let told = || format!("{:?} {:?} {file:?} {claim:?}", before.head, before.counts());
    let (name, expected) = match claim {
        None => ("enter", memory.enter(file)),
        Some(claim) => ("commit", memory.commit(file, claim)),
    };
    let (head, records, area) = safe.lend();
    let answer = match claim {
        None => slices::enter(head, records, area, &file_lent),
        Some(claim) => slices::commit(head, records, area, &file_lent, claim),
    };
    assert_eq!(number(answer), expected, "{}", told());
    let (head, records, area) = exported.lend();
    let mut entered = BEFORE[0];
    let refused = match claim {
        None => ffi::enter(head, records, area, &file_lent, &mut entered),
        Some(claim) => ffi::commit(head, records, area, &file_lent, claim, &mut entered),
    };
    let left = (expected.err().unwrap_or(0), expected.unwrap_or(BEFORE[0]));
    assert_eq!((refused, entered), left, "{}", told());
    assert!(safe == *memory && exported == *memory && file_lent == file, "{}", told());
    assert!(safe.counted(&before, expected), "{} {:?}", told(), safe.counts());
    let added = if memory.head.held > before.head.held { "added" } else { "found" };
    tally.count(name, &expected, added);
    expected
}

/// Asks three times for the number of a transducer, with so many bytes for its normal form, and answers what all three
/// do. The memory stays as it is.
pub fn question(tally: &mut Tally, memory: &mut Memory, file: &[u8], out: usize) -> Result<(usize, Vec<u8>), u32> {
    let (before, file_lent) = (memory.clone(), file.to_vec());
    let told = || format!("{:?} {:?} {file:?} {out}", before.head, before.counts());
    let expected = memory.question(file, out);
    let (head, records, area) = (&memory.head, memory.records(), memory.area());
    let [mut safe, mut exported] = [Lent::new(out), Lent::new(out)];
    let asked = number(slices::question(head, records, area, &file_lent, safe.area()));
    let [mut asked_number, mut size] = [BEFORE[0], BEFORE[1]];
    let refused = ffi::question(head, records, area, &file_lent, exported.area(), &mut asked_number, &mut size);
    let (left, written) = match &expected {
        Ok((number, form)) => ((0, *number, form.len()), &form[..]),
        Err(refused) => ((*refused, BEFORE[0], BEFORE[1]), &[][..]),
    };
    let asked = asked.map(|Asked { number, length }| (number, length));
    assert_eq!(asked, if left.0 == 0 { Ok((left.1, left.2)) } else { Err(left.0) }, "{}", told());
    assert_eq!((refused, asked_number, size), left, "{}", told());
    assert!(safe.holds(written) && exported.holds(written), "{}", told());
    assert!(*memory == before && file_lent == file, "{}", told());
    let new = if left.1 > memory.head.held { "new" } else { "held" };
    tally.count("question", &expected, new);
    expected
}

/// The body of this number, which all three hand out: the same bytes, and in the same place.
pub fn body<'a>(tally: &mut Tally, memory: &'a mut Memory, number: usize) -> &'a [u8] {
    let expected = memory.body(number);
    let name = if expected.is_ok_and(|(_, length)| length > 0) { "body" } else { "empty" };
    tally.count("body", &expected, name);
    let (from, length) = expected.unwrap_or((0, 0));
    let (head, records, area) = (&memory.head, memory.records(), memory.area());
    let part = slices::body(head, records, area, number);
    assert_eq!(part.len(), length, "{head:?} {number}");
    let mut start = BEFORE[0];
    let size = ffi::body(head, records, area, number, &mut start);
    assert_eq!((size, start), (length, from), "{head:?} {number}");
    if length > 0 {
        assert_eq!(part.as_ptr() as usize, area.as_ptr() as usize + from);
    }
    part
}

/// The bodies of all numbers that can be held, and of some that cannot.
pub fn bodies(tally: &mut Tally, memory: &mut Memory) {
    let before = memory.clone();
    for number in (0..40).chain([63, 255, 256, 1 << 32, 1 << 63, usize::MAX]) {
        body(tally, memory, number);
    }
    assert_eq!(*memory, before);
}

/// Sets the answers of the head, and the counts of these records.
pub fn set_counts(memory: &mut Memory, answered: u64, counts: &[(usize, u64)]) {
    let (head, records, _) = memory.lend();
    head.answered = answered;
    counts.iter().for_each(|&(index, count)| records[index].count = count);
}

/// A registry over one input symbol and 64 output symbols that holds so many transducers of one symbol each, in an area
/// with room for one more.
pub fn of_symbols(tally: &mut Tally, held: usize) -> Memory {
    let stock = [&[1, 0, 64][..], &[0; 64]].concat();
    let mut memory = Memory::new(RECORDS + 2, stock.len() + 5 * (held + 1));
    assert_eq!(make(tally, &mut memory, &stock), Ok(()));
    for symbol in 1..=held {
        assert_eq!(enter(tally, &mut memory, &of_symbol(symbol)), Ok(symbol));
    }
    memory
}

/// The transducer whose output is always this symbol.
pub fn of_symbol(symbol: usize) -> [u8; 5] {
    [0, 0, 1, 0, symbol as u8]
}

/// Alphabets, and one of these numbers of transducers of few shapes over them, many of them equivalent, with some
/// that are refused.
pub fn pool(random: &mut Random, counts: &[usize]) -> (Alphabets, Vec<Vec<u8>>) {
    let alphabets = if random.once_in(3) { chain_alphabets() } else { small_alphabets(random) };
    let mut sheets: Vec<Transducer> = Vec::new();
    for _ in 0..random.pick(counts) {
        sheets.push(match random.below(4) {
            0 => prefixed_transducer(random, &alphabets, 4, 9),
            1 if alphabets.inputs == [1, 0] && alphabets.outputs == [1, 0, 0] => {
                chain(random.range(1, 40), random.below(2), 2)
            }
            _ => {
                let (states, most) = (random.range(1, 4), random.pick(&[1, 3, 5, 9]));
                small_transducer(random, &alphabets, states, most)
            }
        });
    }
    let mut files: Vec<Vec<u8>> = Vec::new();
    for sheet in &sheets {
        files.push(sheet.file());
        let steps = random.pick(&[2, 5, 10]);
        files.push(sheet.alike(random, &alphabets, steps).file());
        if random.once_in(4) {
            files.push(sheet.with_one_mark_changed(random, &alphabets).unwrap_or_else(|| sheet.clone()).file());
        }
        if random.once_in(8) {
            let mut file = sheet.file();
            damage(random, &mut file);
            files.push(file);
        }
    }
    files.push(prefixed_transducer(random, &alphabets, 70, 12).file());
    (alphabets, files)
}
