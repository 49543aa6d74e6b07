//! Holds the proved earliest form and normal form against the independent ones, on the paper's
//! samples, on generated transducers of all sizes, valid ones and damaged ones, and on transducers
//! that are equivalent by construction.
//!
//! Every call is made three times: by the safe function of this crate, by the C function itself, and
//! by the independent function. The answers have to be the same, and every byte and number that was
//! lent is looked at, as in `compare.rs`. `cargo test --release --offline --test cleaning --
//! --nocapture` prints how often each outcome occurred.
mod generate;
mod lent;

use caplune::slices::Form;
use caplune::{ffi, slices, Refusal};
use caplune_independent as independent;
use generate::alike::{any, chain, chain_alphabets};
use generate::samples::*;
use generate::{small_trees, Alphabets, Random};
use independent::MAX_FILE;
use lent::{number, Lent, Tally, BEFORE};
use std::collections::BTreeSet;

/// A C function that writes a form.
type Exported = fn(&[u8], &[u8], &mut [u8], &mut usize, &mut usize, &mut usize) -> u32;

/// A safe function that writes a form.
type Safe = fn(&[u8], &[u8], &mut [u8]) -> Result<Form, Refusal>;

/// An independent function that writes a form, and answers the length of its file.
type Independent = fn(&[u8], &[u8], &mut [u8]) -> Result<usize, u32>;

/// One function in its three forms.
struct Function {
    name: &'static str,
    safe: Safe,
    exported: Exported,
    independent: Independent,
}

const EARLIEST: Function = Function {
    name: "earliest_form",
    safe: slices::earliest_form,
    exported: ffi::earliest_form,
    independent: earliest_into,
};

const CLEAN: Function =
    Function { name: "clean", safe: slices::clean, exported: ffi::clean, independent: independent::clean_into };

/// Writes the independent earliest form to the start of the area.
fn earliest_into(stock: &[u8], file: &[u8], area: &mut [u8]) -> Result<usize, u32> {
    if area.len() < MAX_FILE {
        return Err(independent::AREA_TOO_SHORT);
    }
    let form = independent::earliest(stock, file)?.file();
    area[..form.len()].copy_from_slice(&form);
    Ok(form.len())
}

/// The numbers of states and marks of a form, and the length of its file.
fn size(stock: &[u8], file: &[u8]) -> Form {
    let (states, inputs) = (usize::from(file[0]), usize::from(stock[0]));
    let bytes = file.len() - 1 - 2 * (1 + states * inputs);
    assert_eq!(bytes % 2, 0);
    Form { states, marks: bytes / 2, length: file.len() }
}

impl Function {
    /// The form that all three give, or the refusal.
    fn compare(&self, tally: &mut Tally, stock: &[u8], file: &[u8], area: usize) -> Result<Vec<u8>, u32> {
        let mut lent = [Lent::new(area), Lent::new(area), Lent::new(area)];
        let (stock_lent, file_lent) = (stock.to_vec(), file.to_vec());
        let length = (self.independent)(stock, file, lent[0].area());
        let expected = length.map(|length| lent[0].area()[..length].to_vec());
        let told = expected.as_ref().map(|form| size(stock, form)).map_err(|&number| number);
        let told_by = || format!("{} {stock:?} {file:?} {area}", self.name);
        assert_eq!(number((self.safe)(&stock_lent, &file_lent, lent[1].area())), told, "{}", told_by());
        let [mut states, mut marks, mut length] = BEFORE;
        let refused = (self.exported)(&stock_lent, &file_lent, lent[2].area(), &mut states, &mut marks, &mut length);
        let left = told.map_or(BEFORE, |form| [form.states, form.marks, form.length]);
        assert_eq!((refused, [states, marks, length]), (told.err().unwrap_or(0), left), "{}", told_by());
        let written = expected.as_deref().unwrap_or_default();
        assert!(lent.iter().all(|lent| lent.holds(written)), "{}", told_by());
        // what was lent for reading
        assert!(stock_lent == stock && file_lent == file, "{}", told_by());
        tally.count(self.name, &told, "accepted");
        expected
    }
}

/// Both forms, and what they have to do with each other: the normal form is read, is its own earliest
/// form and its own normal form, and is that of the earliest form.
fn forms(tally: &mut Tally, stock: &[u8], file: &[u8]) -> Result<Vec<u8>, u32> {
    let earliest = EARLIEST.compare(tally, stock, file, MAX_FILE);
    let clean = CLEAN.compare(tally, stock, file, MAX_FILE);
    assert_eq!(earliest.as_ref().err(), clean.as_ref().err(), "{stock:?} {file:?}");
    let (Ok(earliest), Ok(form)) = (&earliest, &clean) else { return clean };
    assert!(slices::read_transducer(stock, earliest).is_ok(), "{stock:?} {file:?}");
    let parts = slices::read_transducer(stock, form).expect("the normal form is read");
    let told = size(stock, form);
    assert_eq!((parts.states, parts.marks.len()), (told.states, 2 * told.marks));
    assert!(told.states <= usize::from(earliest[0]));
    for (function, from) in [(EARLIEST.safe, form), (CLEAN.safe, form), (CLEAN.safe, earliest)] {
        let mut area = Lent::new(MAX_FILE);
        assert_eq!(function(stock, from, area.area()), Ok(told), "{stock:?} {file:?}");
        assert!(area.holds(form), "{stock:?} {file:?}");
    }
    clean
}

/// The outcomes that the paper has.
const OUTCOMES: [(&str, &str); 12] = [
    ("earliest_form", "accepted"),
    ("earliest_form", "refused 1"),
    ("earliest_form", "refused 2"),
    ("earliest_form", "refused 4"),
    ("earliest_form", "refused 5"),
    ("earliest_form", "refused 7"),
    ("clean", "accepted"),
    ("clean", "refused 1"),
    ("clean", "refused 2"),
    ("clean", "refused 4"),
    ("clean", "refused 5"),
    ("clean", "refused 7"),
];

#[test]
fn samples() {
    let mut tally = Tally::default();
    let mut forms = |stock: &[u8], file: &[u8]| forms(&mut tally, stock, file);
    for (file, expected) in [(T, T), (T_PRIME, T), (CONSTANT, CONSTANT)] {
        assert_eq!(forms(S, file).as_deref(), Ok(expected));
    }
    let told =
        |stock, form: Result<Vec<u8>, u32>| form.map(|form| (size(stock, &form).states, size(stock, &form).marks));
    assert_eq!(told(S, forms(S, U)), Ok((1, 11)));
    assert_eq!(told(STOCK_OF_M, forms(STOCK_OF_M, &m())), Ok((3, 23)));
    assert_eq!(forms(STOCK_OF_M, &m()), Ok(clean_m()));
    assert_eq!(told(S, forms(S, &many_calls(16))), Ok((1, 67)));
    assert_eq!(forms(S, &many_calls(17)), Err(7));
    assert_eq!(forms(S, &ring(64)).as_deref(), Ok(T));
    assert_eq!(forms(S, &ring(65)), Err(7));
    assert_eq!(forms(S, &long_side(0)).as_deref(), Ok(T));
    assert_eq!(forms(S, &long_side(1)), Err(7));
    assert_eq!(forms(S, &unreached_pairs()).as_deref(), Ok(T));
    let stock = stock_of_many_marks();
    assert_eq!(told(&stock, forms(&stock, &many_marks(&[1, 0]))), Ok((111, 8191)));
    assert_eq!(told(&stock, forms(&stock, &many_marks(&[0, 2, 1, 0]))), Ok((111, 8192)));
    assert_eq!(forms(&stock, &many_marks(&[0, 0, 1, 0, 0, 1])), Err(7));
    let mut area = vec![0; MAX_FILE];
    let mut trimmed = |file: &[u8]| slices::earliest_form(S, file, &mut area).map(|form| (form.states, form.marks));
    assert_eq!(trimmed(T), Ok((1, 7)));
    assert_eq!(trimmed(T_PRIME).map(|(states, _)| states), Ok(2));
    // 63 marks in the initial term, and 4 in the right-hand sides of each of the two states
    assert_eq!(trimmed(&many_calls(16)), Ok((2, 63 + 2 * 4)));
    assert_eq!(trimmed(&ring(64)).map(|(states, _)| states), Ok(128));
}

#[test]
fn order_of_refusals() {
    let mut tally = Tally::default();
    let (bad_count, bad_term, over): (&[u8], &[u8], &[u8]) = (&[1, 0, 3], &[0, 0, 1, 1, 0], &ring(65));
    let stock: &[u8] = &[1, 1, 1, 0];
    let inputs = [(stock, bad_count, 2), (stock, T, 2), (S, bad_count, 4), (S, bad_term, 5), (S, over, 7), (S, T, 0)];
    for function in [EARLIEST, CLEAN] {
        for (stock, file, refusal) in inputs {
            for area in [0, 1, 20_482] {
                assert_eq!(function.compare(&mut tally, stock, file, area), Err(1));
            }
            for area in [20_483, 20_484, 65_536] {
                let refused = function.compare(&mut tally, stock, file, area).err();
                assert_eq!(refused, (refusal > 0).then_some(refusal));
            }
        }
    }
    tally.settle(&OUTCOMES, 3);
}

/// Damages one of the two files, or both; or swaps, empties or replaces one.
fn damage(random: &mut Random, stock: &mut Vec<u8>, file: &mut Vec<u8>) {
    match random.below(12) {
        0 | 1 => generate::damage(random, stock),
        2 => {
            generate::damage(random, stock);
            generate::damage(random, file);
        }
        3 => match random.below(4) {
            0 => stock.clear(),
            1 => file.clear(),
            2 => std::mem::swap(stock, file),
            _ => *stock = Alphabets::random(random).file(),
        },
        _ => generate::damage(random, file),
    }
}

#[test]
fn generated_cases() {
    let mut tally = Tally::default();
    let (mut states, mut marks, mut inputs, mut merged) = (0, 0, 0, 0);
    for seed in 0..50_000 {
        let mut random = Random::new(seed + 10_000_000);
        let (alphabets, sheet) = any(&mut random);
        let (mut stock, mut file) = (alphabets.file(), sheet.file());
        if let Ok(form) = forms(&mut tally, &stock, &file) {
            let told = size(&stock, &form);
            states = states.max(told.states);
            marks = marks.max(told.marks);
            if told.states > 100 {
                inputs = inputs.max(alphabets.inputs.len());
            }
            merged += usize::from(told.states < independent::earliest(&stock, &file).unwrap().pairs.len());
        }
        damage(&mut random, &mut stock, &mut file);
        for function in [EARLIEST, CLEAN] {
            let _ = function.compare(&mut tally, &stock, &file, generate::area(&mut random));
        }
    }
    tally.settle(&OUTCOMES, 1_000);
    println!("normal forms: at most {states} states, {marks} marks, {inputs} input symbols with over 100 states");
    println!("{merged} with fewer states than the earliest form");
    assert!(states == 128 && marks > 8_000 && inputs == 16 && merged > 1_000);
}

/// Every string of at most seven bytes 0 to 3 as a file, so that all small files are tried, and every
/// transducer of one state over S with terms of at most three marks.
#[test]
fn all_small_files() {
    let mut tally = Tally::default();
    for length in 0..=7 {
        let mut bytes = vec![0; length];
        'next: loop {
            let _ = forms(&mut tally, S, &bytes);
            for byte in bytes.iter_mut() {
                *byte += 1;
                if *byte < 4 {
                    continue 'next;
                }
                *byte = 0;
            }
            break;
        }
    }
    let files = one_state();
    let cleaned: BTreeSet<_> =
        files.iter().map(|file| forms(&mut tally, S, file).expect("it is within the limits")).collect();
    println!("{} transducers of one state, {} normal forms", files.len(), cleaned.len());
    assert!(cleaned.len() > 20 && cleaned.len() < files.len());
    let wanted = OUTCOMES.into_iter().filter(|(_, outcome)| matches!(*outcome, "accepted" | "refused 4" | "refused 5"));
    tally.settle(&wanted.collect::<Vec<_>>(), 3);
}

/// Transducers of all sizes, changed in ways that keep them equivalent: they have one normal form.
#[test]
fn alike_by_construction() {
    let mut tally = Tally::default();
    let (mut same, mut others) = (0, 0);
    for seed in 0..5_000 {
        let mut random = Random::new(seed + 11_000_000);
        let (alphabets, sheet) = any(&mut random);
        let stock = alphabets.file();
        let Ok(expected) = forms(&mut tally, &stock, &sheet.file()) else { continue };
        for changed in sheet.changed(&mut random, &alphabets) {
            match forms(&mut tally, &stock, &changed.file()) {
                Ok(form) => {
                    assert!(form == expected, "{stock:?} {:?} {:?}", sheet.file(), changed.file());
                    same += 1;
                }
                Err(refusal) => assert_eq!(refusal, 7),
            }
        }
        // with one mark changed, often another normal form
        let Some(changed) = sheet.with_one_mark_changed(&mut random, &alphabets) else { continue };
        others += usize::from(forms(&mut tally, &stock, &changed.file()).is_ok_and(|form| form != expected));
    }
    println!("{same} equivalent ones, {others} with one mark changed are not");
    assert!(same > 20_000 && others > 1_000);
}

/// Chains and rings of states of every number that there can be.
#[test]
fn chains_and_rings() {
    let mut tally = Tally::default();
    let alphabets = chain_alphabets();
    let stock = alphabets.file();
    for states in 1..=128 {
        for (symbols, last) in [(0, 1), (0, 2), (1, 1), (1, 2), (3, 2)] {
            let form = forms(&mut tally, &stock, &chain(states, symbols, last).file());
            if symbols == 0 {
                let left = form.map(|form| size(&stock, &form).states);
                assert_eq!(left, Ok(if last == 1 { 0 } else { states }));
            }
        }
        let form = forms(&mut tally, S, &ring(states));
        assert_eq!(form.as_deref(), if states <= 64 { Ok(T) } else { Err(&7) });
    }
    let wanted = OUTCOMES.into_iter().filter(|(_, outcome)| matches!(*outcome, "accepted" | "refused 7"));
    tally.settle(&wanted.collect::<Vec<_>>(), 64);
}

/// The output tree by the proved translation, and all of the area.
fn output(stock: &[u8], file: &[u8], tree: &[u8]) -> (Result<usize, u32>, Vec<u8>) {
    let mut area = vec![0xa5; 2_000];
    (number(slices::translate(stock, file, tree, &mut area)), area)
}

/// Earliest form and normal form translate as their transducer does, on all small input trees.
#[test]
fn outputs_stay() {
    let mut tally = Tally::default();
    let (mut built, mut too_long, mut too_deep) = (0, 0, 0);
    for seed in 0..3_000 {
        let mut random = Random::new(seed + 12_000_000);
        let (alphabets, sheet) = any(&mut random);
        let (stock, file) = (alphabets.file(), sheet.file());
        let Ok(form) = forms(&mut tally, &stock, &file) else { continue };
        let mut area = vec![0; MAX_FILE];
        let length = slices::earliest_form(&stock, &file, &mut area).expect("it is within the limits").length;
        for tree in small_trees(&alphabets.inputs, 60) {
            let expected = output(&stock, &file, &tree);
            assert_eq!(output(&stock, &form, &tree), expected, "{stock:?} {file:?} {tree:?}");
            assert_eq!(output(&stock, &area[..length], &tree), expected, "{stock:?} {file:?} {tree:?}");
            *match expected.0 {
                Ok(_) => &mut built,
                Err(10) => &mut too_deep,
                Err(_) => &mut too_long,
            } += 1;
            if expected.0 == Err(10) {
                let whole = |file: &[u8]| independent::output_tree(&stock, file, &tree, 2_000);
                assert!(whole(&file) == whole(&form) && whole(&file) == whole(&area[..length]), "{stock:?} {file:?}");
            }
        }
    }
    println!("{built} outputs built, {too_long} too long, {too_deep} too deep");
    assert!(built > 30_000);
}
