//! Calls every exported function on drawn inputs, and compares what it gives with the independent implementation.
//!
//! A seed gives one case (`generate/cases.rs`), on which each function is called once, by its C function. The refusal
//! number, every answered number and every byte of what was lent have to be what the independent version gives. Which
//! difference a comparison shows is the library's choice: it is looked at by the independent readers.
//!
//! A failure tells its seed and all inputs. That seed alone, and a longer run by hand, with the counts of outcomes:
//!
//! ```sh
//! CAPLUNE_FUZZ_SEED=1234 CAPLUNE_FUZZ_COUNT=1 cargo test --release --offline --test fuzz
//! CAPLUNE_FUZZ_SEED=1000000 CAPLUNE_FUZZ_SECONDS=180 cargo test --release --offline --test fuzz -- --nocapture
//! ```
//!
//! Without these variables the run starts at seed 1 and has as many cases as [`COUNT`] says, and each outcome of each
//! function has to occur in it.
mod generate;
mod lent;

use caplune::ffi;
use caplune::slices::{ADDRESS_AREA, TREE_AREA};
use caplune_independent as independent;
use generate::cases::{parsed, Case};
use generate::joins;
use generate::memory::Memory;
use independent::{Verdict, AREA_TOO_SHORT, MAX_FILE};
use lent::{Lent, Tally, BEFORE};
use std::panic::{catch_unwind, AssertUnwindSafe};
use std::time::{Duration, Instant};

/// The cases of a run.
const COUNT: u64 = 10_000;
/// The most levels of a shown input tree.
const SHOWN_LEVELS: usize = 384;

/// The outcome that both gave, a refusal or what the answer is called; or how the two differ.
type Checked = Result<Result<&'static str, u32>, String>;

/// An exported function: its name, how it is held against the independent one, and the outcomes it can have.
struct Function {
    name: &'static str,
    check: fn(&Case) -> Checked,
    answers: &'static [&'static str],
    refusals: &'static [u32],
}

const fn function(
    name: &'static str,
    check: fn(&Case) -> Checked,
    answers: &'static [&'static str],
    refusals: &'static [u32],
) -> Function {
    Function { name, check, answers, refusals }
}

/// All functions. `shorter` and `body` give no number: they are counted by that for which they give nothing.
const FUNCTIONS: [Function; 20] = [
    function("read_alphabets", read_alphabets, &["accepted"], &[2]),
    function("read_tree", read_tree, &["accepted"], &[2, 3]),
    function("read_transducer", read_transducer, &["accepted"], &[2, 4, 5]),
    function("write_transducer", write_transducer, &["accepted"], &[1, 2, 4, 5]),
    function("is_linear", is_linear, &["yes", "yes, unreached copies", "no"], &[2, 4, 5]),
    function("translate", translate, &["accepted"], &[2, 4, 5, 3, 6, 10]),
    function("symbol_at", symbol_at, &["symbol", "nowhere"], &[2, 4, 5, 3]),
    function("earliest_form", earliest_form, &["accepted"], &[1, 2, 4, 5, 7]),
    function("clean", clean, &["accepted"], &[1, 2, 4, 5, 7]),
    function("join", join, &["accepted"], &[1, 2, 16, 4, 5, 17]),
    function("compare", compare, &["alike", "differ"], &[1, 2, 4, 5, 7]),
    function("shorter", shorter, &["first", "second", "differ"], &[2, 4, 5, 7]),
    function("make_registry", make_registry, &["accepted"], &[9, 2, 8]),
    function("enter", enter, &["added", "found"], &[9, 4, 5, 7, 8]),
    function("question", question, &["new", "held"], &[1, 9, 4, 5, 7, 8]),
    function("commit", commit, &["added", "found"], &[9, 4, 5, 7, 8, 13]),
    function("body", body, &["body", "empty"], &[9]),
    function("write_codes", write_codes, &["accepted"], &[1]),
    function("write_xml", write_xml, &["accepted"], &[2, 11, 12]),
    function("read_xml", read_xml, &["accepted"], &[2, 11, 12]),
];

/// Numbers that a refusal has to leave.
fn before<const N: usize>() -> [usize; N] {
    std::array::from_fn(|index| BEFORE[index % BEFORE.len()].wrapping_sub(index))
}

/// Whether refusal and numbers are the expected ones: a refusal leaves the numbers.
fn agree<const N: usize>(refused: u32, numbers: [usize; N], expected: Result<[usize; N], u32>) -> Result<(), String> {
    same((refused, numbers), (expected.err().unwrap_or(0), expected.unwrap_or(before())))
}

fn same<T: PartialEq + std::fmt::Debug>(given: T, expected: T) -> Result<(), String> {
    if given == expected {
        return Ok(());
    }
    Err(format!("the library gives {given:?}, expected is {expected:?}"))
}

fn holds(lent: &Lent, written: &[u8]) -> Result<(), String> {
    if lent.holds(written) {
        return Ok(());
    }
    Err(format!("an area does not hold {written:?} and around it what stood there"))
}

/// Refuses by 1 an area that is too short for a file, before all else.
fn in_area<T>(area: usize, expected: impl FnOnce() -> Result<T, u32>) -> Result<T, u32> {
    if area < MAX_FILE {
        return Err(AREA_TOO_SHORT);
    }
    expected()
}

fn read_alphabets(case: &Case) -> Checked {
    let expected = independent::read_alphabets(&case.stock).map(|read| [read.inputs.len(), read.outputs.len()]);
    let [mut inputs, mut outputs] = before();
    let refused = ffi::read_alphabets(&case.stock, &mut inputs, &mut outputs);
    agree(refused, [inputs, outputs], expected)?;
    Ok(expected.map(|_| "accepted"))
}

fn read_tree(case: &Case) -> Checked {
    let expected = independent::read_tree(&case.stock, &case.tree).map(|read| [read.symbols.len(), read.levels]);
    let [mut nodes, mut levels] = before();
    let refused = ffi::read_tree(&case.stock, &case.tree, &mut nodes, &mut levels);
    agree(refused, [nodes, levels], expected)?;
    Ok(expected.map(|_| "accepted"))
}

fn read_transducer(case: &Case) -> Checked {
    let read = independent::read_transducer(&case.stock, &case.first);
    let expected = read.map(|read| [read.states, read.counts.len(), read.marks.len()]);
    let [mut states, mut counts, mut marks] = before();
    let refused = ffi::read_transducer(&case.stock, &case.first, &mut states, &mut counts, &mut marks);
    agree(refused, [states, counts, marks], expected)?;
    Ok(expected.map(|_| "accepted"))
}

fn write_transducer(case: &Case) -> Checked {
    let Case { stock, states, counts, marks, .. } = case;
    let [mut lent, mut other] = [Lent::new(case.file_areas[0]), Lent::new(case.file_areas[0])];
    let expected = independent::write_transducer(stock, *states, counts, marks, other.area());
    let [mut length] = before();
    let refused = ffi::write_transducer(stock, *states, counts, marks, lent.area(), &mut length);
    agree(refused, [length], expected.map(|length| [length]))?;
    let file = expected.map_or(vec![], |_| [&[*states as u8], &counts[..], &marks[..]].concat());
    holds(&lent, &file)?;
    holds(&other, &file)?;
    Ok(expected.map(|_| "accepted"))
}

fn is_linear(case: &Case) -> Checked {
    let expected = independent::is_linear(&case.stock, &case.first);
    let [mut linear] = before();
    let refused = ffi::is_linear(&case.stock, &case.first, &mut linear);
    agree(refused, [linear], expected.map(|linear| [usize::from(linear)]))?;
    // where it is linear, a term that calls a child twice is of a state that is not reached
    let copies = || parsed(&case.stock, &case.first).1.is_some_and(|sheet| sheet.copies());
    Ok(expected.map(|linear| match linear {
        true if copies() => "yes, unreached copies",
        true => "yes",
        false => "no",
    }))
}

fn translate(case: &Case) -> Checked {
    let Case { stock, first, tree, output_area, .. } = case;
    let expected = independent::translate(stock, first, tree, *output_area);
    let mut lent = Lent::new(*output_area);
    let [mut length] = before();
    let refused = ffi::translate(stock, first, tree, lent.area(), &mut length);
    let outcome = expected.as_ref().map_err(|&number| number);
    agree(refused, [length], outcome.map(|output| [output.len()]))?;
    holds(&lent, expected.as_deref().unwrap_or_default())?;
    Ok(outcome.map(|_| "accepted"))
}

fn symbol_at(case: &Case) -> Checked {
    let Case { stock, first, tree, address, .. } = case;
    let expected = independent::symbol_at(stock, first, tree, address);
    let [mut there, mut symbol] = before();
    let refused = ffi::symbol_at(stock, first, tree, address, &mut there, &mut symbol);
    let [_, symbol_before] = before::<2>();
    let told = |found: Option<u8>| found.map_or([0, symbol_before], |symbol| [1, usize::from(symbol)]);
    agree(refused, [there, symbol], expected.map(told))?;
    Ok(expected.map(|found| if found.is_some() { "symbol" } else { "nowhere" }))
}

/// What has to be given with this file of a form, and stand in the area.
fn agree_on_form(
    stock: &[u8],
    expected: Result<Vec<u8>, u32>,
    lent: &Lent,
    (refused, numbers): (u32, [usize; 3]),
) -> Checked {
    let outcome = expected.as_ref().map_err(|&number| number);
    let size = outcome.map(|file| {
        let (states, marks) = joins::size(stock, file);
        [states, marks, file.len()]
    });
    agree(refused, numbers, size)?;
    holds(lent, expected.as_deref().unwrap_or_default())?;
    Ok(outcome.map(|_| "accepted"))
}

fn earliest_form(case: &Case) -> Checked {
    let mut lent = Lent::new(case.file_areas[1]);
    let earliest = || independent::earliest(&case.stock, &case.first).map(|form| form.file());
    let expected = in_area(case.file_areas[1], earliest);
    let [mut states, mut marks, mut length] = before();
    let refused = ffi::earliest_form(&case.stock, &case.first, lent.area(), &mut states, &mut marks, &mut length);
    agree_on_form(&case.stock, expected, &lent, (refused, [states, marks, length]))
}

fn clean(case: &Case) -> Checked {
    let mut lent = Lent::new(case.file_areas[2]);
    let expected = in_area(case.file_areas[2], || independent::clean(&case.stock, &case.first));
    let [mut states, mut marks, mut length] = before();
    let refused = ffi::clean(&case.stock, &case.first, lent.area(), &mut states, &mut marks, &mut length);
    agree_on_form(&case.stock, expected, &lent, (refused, [states, marks, length]))
}

fn join(case: &Case) -> Checked {
    let Case { stock, second_stock, first, third, .. } = case;
    let mut lent = Lent::new(case.file_areas[3]);
    let expected = in_area(case.file_areas[3], || independent::join(stock, second_stock, first, third));
    let [mut states, mut marks, mut length] = before();
    let refused = ffi::join(stock, second_stock, first, third, lent.area(), &mut states, &mut marks, &mut length);
    agree_on_form(stock, expected, &lent, (refused, [states, marks, length]))
}

fn compare(case: &Case) -> Checked {
    let Case { stock, first, second, shown_areas, .. } = case;
    let short = shown_areas[0] < TREE_AREA || shown_areas[1] < ADDRESS_AREA;
    let expected = if short { Err(AREA_TOO_SHORT) } else { independent::compare(stock, first, second) };
    let [mut tree, mut address] = shown_areas.map(Lent::new);
    let [mut alike, mut nodes, mut numbers, mut left, mut right] = before();
    let refused = ffi::compare(
        stock,
        first,
        second,
        tree.area(),
        address.area(),
        &mut alike,
        &mut nodes,
        &mut numbers,
        &mut left,
        &mut right,
    );
    if expected != Ok(Verdict::Differ) {
        let [_, rest @ ..] = before::<5>();
        let told = |_| [1, rest[0], rest[1], rest[2], rest[3]];
        agree(refused, [alike, nodes, numbers, left, right], expected.map(told))?;
        holds(&tree, &[])?;
        holds(&address, &[])?;
        return Ok(expected.map(|_| "alike"));
    }
    same((refused, alike), (0, 0))?;
    let part = |area: &mut Lent, length: usize| area.area().get(..length).map(<[u8]>::to_vec);
    let shown = (part(&mut tree, nodes), part(&mut address, numbers));
    let (Some(shown_tree), Some(shown_address)) = shown else {
        return Err(format!("{nodes} nodes and {numbers} numbers are longer than the areas"));
    };
    holds(&tree, &shown_tree)?;
    holds(&address, &shown_address)?;
    look_at(case, &shown_tree, &shown_address, [left, right])?;
    Ok(Ok("differ"))
}

/// Whether a shown difference is within the limits, and has these symbols by the independent version.
fn look_at(case: &Case, tree: &[u8], address: &[u8], symbols: [usize; 2]) -> Result<(), String> {
    let told = || format!("the shown difference is {tree:?} {address:?} {symbols:?}");
    let levels = independent::read_tree(&case.stock, tree).map(|read| read.levels);
    let symbol = |file| independent::symbol_at(&case.stock, file, tree, address);
    let found = [&case.first, &case.second].map(|file| symbol(file).map(|found| found.map(usize::from)));
    let within =
        tree.len() <= TREE_AREA && levels.is_ok_and(|levels| levels <= SHOWN_LEVELS) && address.len() <= ADDRESS_AREA;
    let there = found == symbols.map(|symbol| Ok(Some(symbol)));
    if within && there && symbols[0] != symbols[1] {
        return Ok(());
    }
    Err(format!("{}, of {levels:?} levels, where {found:?} stand", told()))
}

fn shorter(case: &Case) -> Checked {
    let Case { stock, first, second, .. } = case;
    let verdict = independent::compare(stock, first, second);
    let marks = |file| independent::read_transducer(stock, file).map_or(0, |read| read.marks.len());
    let expected = match (verdict, marks(first), marks(second)) {
        (Ok(Verdict::Alike), one, two) if two < one => (2, second.len() - two, two),
        (Ok(Verdict::Alike), one, _) => (1, first.len() - one, one),
        _ => (0, 0, 0),
    };
    let [mut start, mut size] = before();
    let which = ffi::shorter(stock, first, second, &mut start, &mut size);
    same((which, start, size), expected)?;
    Ok(verdict.map(|_| ["differ", "first", "second"][expected.0]))
}

fn make_registry(case: &Case) -> Checked {
    let [mut memory, mut other] = [case.registry.clone(), case.registry.clone()];
    let expected = other.make(&case.stock);
    let (head, records, area) = memory.lend();
    let refused = ffi::make_registry(head, records, area, &case.stock);
    agree(refused, [], expected.map(|()| []))?;
    same(memory, other)?;
    Ok(expected.map(|()| "accepted"))
}

fn enter(case: &Case) -> Checked {
    let [mut memory, mut other] = [case.registry.clone(), case.registry.clone()];
    let expected = other.enter(&case.entered);
    let (head, records, area) = memory.lend();
    let [mut number] = before();
    let refused = ffi::enter(head, records, area, &case.entered, &mut number);
    agree_on_entry(case, expected, [&memory, &other], (refused, number))
}

fn commit(case: &Case) -> Checked {
    let [mut memory, mut other] = [case.registry.clone(), case.registry.clone()];
    let expected = other.commit(&case.entered, case.claim);
    let (head, records, area) = memory.lend();
    let [mut number] = before();
    let refused = ffi::commit(head, records, area, &case.entered, case.claim, &mut number);
    agree_on_entry(case, expected, [&memory, &other], (refused, number))
}

/// Number, counts and memory are those of an entry with this answer.
fn agree_on_entry(
    case: &Case,
    expected: Result<usize, u32>,
    [memory, other]: [&Memory; 2],
    (refused, number): (u32, usize),
) -> Checked {
    agree(refused, [number], expected.map(|number| [number]))?;
    let added = other.head.held > case.registry.head.held;
    if !memory.counted(&case.registry, expected) {
        return Err(format!("the counts are {:?}, of {:?}", memory.counts(), memory.head));
    }
    same(memory, other)?;
    Ok(expected.map(|_| if added { "added" } else { "found" }))
}

fn question(case: &Case) -> Checked {
    let expected = case.registry.clone().question(&case.entered, case.question_area);
    let (head, records, area) = (&case.registry.head, case.registry.records(), case.registry.area());
    let mut lent = Lent::new(case.question_area);
    let [mut number, mut size] = before();
    let refused = ffi::question(head, records, area, &case.entered, lent.area(), &mut number, &mut size);
    let outcome = expected.as_ref().map_err(|&number| number);
    agree(refused, [number, size], outcome.map(|(number, form)| [*number, form.len()]))?;
    holds(&lent, outcome.map_or(&[], |(_, form)| form))?;
    Ok(outcome.map(|(number, _)| if *number > case.registry.head.held { "new" } else { "held" }))
}

fn body(case: &Case) -> Checked {
    let expected = case.registry.clone().body(case.number);
    let (head, records, area) = (&case.registry.head, case.registry.records(), case.registry.area());
    let [mut start] = before();
    let size = ffi::body(head, records, area, case.number, &mut start);
    same((start, size), expected.unwrap_or((0, 0)))?;
    Ok(expected.map(|(_, size)| if size > 0 { "body" } else { "empty" }))
}

fn write_codes(case: &Case) -> Checked {
    let [mut lent, mut other] = [Lent::new(case.codes_area), Lent::new(case.codes_area)];
    let expected = independent::write_codes(other.area());
    agree(ffi::write_codes(lent.area()), [], expected.map(|()| []))?;
    let codes = other.area()[..expected.map_or(0, |()| independent::CODES)].to_vec();
    holds(&lent, &codes)?;
    holds(&other, &codes)?;
    Ok(expected.map(|()| "accepted"))
}

fn write_xml(case: &Case) -> Checked {
    let Case { stock, output, xml_areas: [area, _], .. } = case;
    let [mut lent, mut other] = [Lent::new(*area), Lent::new(*area)];
    let expected = independent::write_xml(stock, output, other.area());
    let [mut length] = before();
    let refused = ffi::write_xml(stock, output, lent.area(), &mut length);
    agree_on_copy(expected, [&mut lent, &mut other], (refused, [length]))
}

fn read_xml(case: &Case) -> Checked {
    let Case { stock, xml, xml_areas: [_, area], .. } = case;
    let [mut lent, mut other] = [Lent::new(*area), Lent::new(*area)];
    let expected = independent::read_xml(stock, xml, other.area());
    let [mut length] = before();
    let refused = ffi::read_xml(stock, xml, lent.area(), &mut length);
    agree_on_copy(expected, [&mut lent, &mut other], (refused, [length]))
}

/// Both areas hold what the independent version wrote, and nothing else that is new.
fn agree_on_copy(
    expected: Result<usize, u32>,
    [lent, other]: [&mut Lent; 2],
    (refused, numbers): (u32, [usize; 1]),
) -> Checked {
    agree(refused, numbers, expected.map(|length| [length]))?;
    let written = other.area()[..expected.unwrap_or(0)].to_vec();
    holds(lent, &written)?;
    holds(other, &written)?;
    Ok(expected.map(|_| "accepted"))
}

/// What `call` gives; the message if it panics.
fn caught<T>(call: impl FnOnce() -> T) -> Result<T, String> {
    catch_unwind(AssertUnwindSafe(call)).map_err(|panic| {
        let text = panic.downcast_ref::<String>().cloned();
        let text = text.or_else(|| panic.downcast_ref::<&str>().map(|text| text.to_string()));
        format!("a panic: {}", text.unwrap_or_default())
    })
}

/// Calls all functions on the case of a seed.
fn run(seed: u64, tally: &mut Tally) {
    let repeat = format!("seed {seed} (CAPLUNE_FUZZ_SEED={seed} CAPLUNE_FUZZ_COUNT=1)");
    let case = caught(|| Case::of_seed(seed)).unwrap_or_else(|wrong| panic!("{repeat}, no case drawn: {wrong}"));
    let as_lent = case.clone();
    for Function { name, check, .. } in &FUNCTIONS {
        match caught(|| check(&case)).and_then(|checked| checked) {
            Ok(outcome) => tally.count(name, &outcome, outcome.unwrap_or_default()),
            Err(wrong) => panic!("{repeat}, {name}: {wrong}\nthe inputs: {as_lent:?}"),
        }
    }
    // what was lent for reading
    assert!(case == as_lent, "{repeat}: an input has changed\nthe inputs: {as_lent:?}");
}

/// The number in a variable of the environment.
fn variable(name: &str) -> Option<u64> {
    let text = std::env::var(name).ok()?;
    Some(text.parse().unwrap_or_else(|_| panic!("{name} is not a number: {text}")))
}

#[test]
fn every_function() {
    let [seed, count, seconds] = ["SEED", "COUNT", "SECONDS"].map(|name| variable(&format!("CAPLUNE_FUZZ_{name}")));
    let (start, first) = (Instant::now(), seed.unwrap_or(1));
    let more = |run: u64| match seconds {
        Some(seconds) => start.elapsed() < Duration::from_secs(seconds),
        None => run < count.unwrap_or(COUNT),
    };
    let mut tally = Tally::default();
    let runs =
        (0..).take_while(|&index| more(index)).inspect(|&index| run(first.wrapping_add(index), &mut tally)).count();
    println!("{runs} cases from seed {first} on, in {:?}", start.elapsed());
    let outcomes: Vec<(&'static str, String)> = FUNCTIONS
        .iter()
        .flat_map(|function| {
            let refusals = function.refusals.iter().map(|number| format!("refused {number}"));
            let answers = function.answers.iter().map(|answer| answer.to_string());
            answers.chain(refusals).map(|outcome| (function.name, outcome))
        })
        .collect();
    let whole = [seed, count, seconds] == [None; 3];
    let wanted = outcomes.iter().filter(|outcome| whole || tally.0.contains_key(outcome));
    tally.settle(&wanted.map(|(name, outcome)| (*name, &outcome[..])).collect::<Vec<_>>(), if whole { 20 } else { 1 });
}
