//! Times the proved library against the independent implementation, in one run, and where
//! `xsltproc` is installed against the same transducer as an XSLT 1.0 stylesheet, and where OpenFst's
//! `fstminimize` is installed against the minimization of the same transducer on strings.
//!
//! `cargo bench --offline`; `benches/xmllint` compares reading XML with libxml2.
use caplune::slices;
use caplune_independent as independent;
use std::cell::RefCell;
use std::hint::black_box;
use std::io::Write;
use std::path::Path;
use std::process::{Command, Stdio};
use std::time::Instant;

/// Batches of each side, of which the fastest counts.
const BATCHES: usize = 9;
/// The least time of a batch, in seconds.
const BATCH: f64 = 0.02;

/// One transducer with one input tree.
struct Case {
    name: &'static str,
    stock: Vec<u8>,
    file: Vec<u8>,
    tree: Vec<u8>,
}

impl Case {
    /// Translates by the proved library.
    fn proved(&self, area: &mut [u8]) {
        black_box(slices::translate(&self.stock, &self.file, black_box(&self.tree), area)).expect("it is translated");
    }

    /// Translates by the independent implementation.
    fn independent(&self, area: &mut [u8]) {
        let tree = black_box(&self.tree);
        black_box(independent::translate_into(&self.stock, &self.file, tree, area)).expect("it is translated");
    }
}

fn main() {
    println!("Areas are allocated and written once before the timing, the same one for both sides;");
    println!("they are not cleared between calls. The independent translation builds its output in a");
    println!("vector of its own and copies it into the area, so that a refusal leaves the area; the");
    println!("vector is allocated in the time shown. Time of one call: the fastest of {BATCHES} batches.");
    println!();
    println!("{:52} {:>9} {:>12} {:>12} {:>8}", "", "size", "proved", "independent", "ratio");
    let (cases, few_levels) = (cases(), few_levels());
    reading(&cases);
    as_xml();
    reaching();
    translating(&few_levels);
    addressing(&cases);
    cleaning();
    println!();
    println!("The independent comparison minimizes both and compares the two files: it shows no difference. The");
    println!("proved one makes both earliest, joins states pair by pair, and where the two differ shows an input");
    println!("tree of so many nodes and an address so deep. The size is that of both files.");
    comparing();
    println!();
    println!("An entry minimizes the transducer and compares it with what is held. A question does the same and");
    println!("writes the minimal one to an area; a commit is an entry with the number of the question. Both");
    println!("registries are as they were before each call. The size is that of the file.");
    entering();
    println!();
    println!("A join reads two transducers and writes the second after the first. The size is that of both files.");
    joining();
    stylesheets(&few_levels);
    string_transducers();
}

/// Prints a line: the times of both sides, taken in turn, and how many times longer the proved
/// library takes.
fn line(name: &str, size: usize, proved: &mut dyn FnMut(), independent: &mut dyn FnMut()) {
    let (best, other) = times(proved, independent);
    println!("{name:52} {size:9} {:>12} {:>12} {:8.2}", show(best), show(other), best / other);
}

/// The times of one call of each, taken in turn.
fn times(proved: &mut dyn FnMut(), independent: &mut dyn FnMut()) -> (f64, f64) {
    let (mut best, mut other) = (f64::INFINITY, f64::INFINITY);
    let (times, other_times) = (calibrate(proved), calibrate(independent));
    for _ in 0..BATCHES {
        best = best.min(batch(proved, times));
        other = other.min(batch(independent, other_times));
    }
    (best, other)
}

/// Takes a value that is not used.
fn discard<T>(_: T) {}

/// How many calls make a batch.
fn calibrate(call: &mut dyn FnMut()) -> usize {
    let mut times = 1;
    while batch(call, times) * (times as f64) < BATCH {
        times *= 2;
    }
    times
}

/// The time of one call, in seconds.
fn batch(call: &mut dyn FnMut(), times: usize) -> f64 {
    let start = Instant::now();
    for _ in 0..times {
        call();
    }
    start.elapsed().as_secs_f64() / times as f64
}

fn show(seconds: f64) -> String {
    match seconds {
        s if s < 1e-5 => format!("{:.1} ns", s * 1e9),
        s if s < 1e-2 => format!("{:.1} us", s * 1e6),
        s => format!("{:.1} ms", s * 1e3),
    }
}

/// Reading, writing, the codes and the linear test.
fn reading(cases: &[Case]) {
    let largest = largest();
    let small = &cases[0];
    for case in [small, &largest] {
        line(
            &format!("read alphabets, {}", case.name),
            case.stock.len(),
            &mut || discard(black_box(slices::read_alphabets(black_box(&case.stock)))),
            &mut || discard(black_box(independent::read_alphabets(black_box(&case.stock)))),
        );
    }
    let area = RefCell::new([1; slices::CODES_AREA]);
    line(
        "write the codes",
        slices::CODES_AREA,
        &mut || discard(black_box(slices::write_codes(black_box(&mut area.borrow_mut()[..])))),
        &mut || discard(black_box(independent::write_codes(black_box(&mut area.borrow_mut()[..])))),
    );
    for case in &cases[..4] {
        line(
            &format!("read tree, {}", case.name),
            case.tree.len(),
            &mut || discard(black_box(slices::read_tree(&case.stock, black_box(&case.tree)))),
            &mut || discard(black_box(independent::read_tree(&case.stock, black_box(&case.tree)))),
        );
    }
    for case in [small, &largest] {
        let Case { name, stock, file, .. } = case;
        line(
            &format!("read transducer, {name}"),
            file.len(),
            &mut || discard(black_box(slices::read_transducer(stock, black_box(file)))),
            &mut || discard(black_box(independent::read_transducer(stock, black_box(file)))),
        );
        line(
            &format!("linear test, {name}"),
            file.len(),
            &mut || discard(black_box(slices::is_linear(stock, black_box(file)))),
            &mut || discard(black_box(independent::is_linear(stock, black_box(file)))),
        );
        let parts = slices::read_transducer(stock, file).expect("the transducer is read");
        let (states, counts, marks) = (parts.states, parts.counts, parts.marks);
        let area = RefCell::new(vec![1; independent::MAX_FILE]);
        line(
            &format!("write transducer, {name}"),
            file.len(),
            &mut || {
                let area = &mut area.borrow_mut()[..];
                discard(black_box(slices::write_transducer(stock, states, counts, black_box(marks), area)))
            },
            &mut || {
                let area = &mut area.borrow_mut()[..];
                discard(black_box(independent::write_transducer(stock, states, counts, black_box(marks), area)))
            },
        );
    }
}

/// Output trees as XML, written and read. The size is that of the text.
fn as_xml() {
    // f, g and e of ranks 2, 1, 0
    let stock = [1, 0, 3, 2, 1, 0];
    let mut even = Vec::new();
    grow(&mut even, 4096);
    for (name, tree) in [("f(e, e)", vec![0, 2, 2]), ("4096 symbols", even), ("4096 levels", chain(4096, 1, 2))] {
        let areas = RefCell::new((vec![1; slices::LONGEST_XML], vec![1; slices::MOST_XML_SYMBOLS]));
        let mut text = vec![1; slices::LONGEST_XML];
        let length = slices::write_xml(&stock, &tree, &mut text).expect("it is written");
        text.truncate(length);
        assert_eq!(slices::read_xml(&stock, &text, &mut areas.borrow_mut().1), Ok(tree.len()), "{name}");
        line(
            &format!("write XML, {name}"),
            text.len(),
            &mut || discard(black_box(slices::write_xml(&stock, black_box(&tree), &mut areas.borrow_mut().0))),
            &mut || discard(black_box(independent::write_xml(&stock, black_box(&tree), &mut areas.borrow_mut().0))),
        );
        line(
            &format!("read XML, {name}"),
            text.len(),
            &mut || discard(black_box(slices::read_xml(&stock, black_box(&text), &mut areas.borrow_mut().1))),
            &mut || discard(black_box(independent::read_xml(&stock, black_box(&text), &mut areas.borrow_mut().1))),
        );
    }
}

/// The linear test where states are reached one after another.
fn reaching() {
    // 15 symbols of rank 1 and one of rank 0 to g and c of ranks 1 and 0. The k-th state has the number `number(k)`,
    // and the state with the number k is the `number(k)`-th; it calls the next one at the symbols of rank 1, but those
    // at `ends` call themselves.
    let stock = [vec![16], vec![1; 15], vec![0, 2, 1, 0]].concat();
    let row = |ends: [u8; 2], number: &dyn Fn(u8) -> u8| {
        rows(128, 16, &[1, number(0)], &|state, symbol| match number(state) {
            _ if symbol == 15 => vec![0, 1],
            place if ends.contains(&place) => vec![1, state],
            place => vec![1, number(place + 1)],
        })
    };
    let sheets = [
        ("128 states in a row", row([127; 2], &|k| k)),
        ("128 in a row, backwards", row([127; 2], &|k| 127 - k)),
        ("128 in a row, 64 not reached", row([63, 127], &|k| k)),
    ];
    for (name, file) in sheets {
        assert_eq!((slices::is_linear(&stock, &file), independent::is_linear(&stock, &file)), (Ok(true), Ok(true)));
        line(
            &format!("linear test, {name}"),
            file.len(),
            &mut || discard(black_box(slices::is_linear(&stock, black_box(&file)))),
            &mut || discard(black_box(independent::is_linear(&stock, black_box(&file)))),
        );
    }
}

/// Translation.
fn translating(cases: &[Case]) {
    for case in cases {
        let output = output(case);
        let area = RefCell::new(vec![1; 2 * output.len()]);
        line(
            &format!("translate, {}", case.name),
            output.len(),
            &mut || case.proved(&mut area.borrow_mut()),
            &mut || case.independent(&mut area.borrow_mut()),
        );
    }
    erasing();
}

/// The symbol at the address of the output's last node.
fn addressing(cases: &[Case]) {
    for case in cases {
        let Case { name, stock, file, tree } = case;
        let address = last_address(case);
        line(
            &format!("symbol at the last node, {name}"),
            address.len(),
            &mut || discard(black_box(slices::symbol_at(stock, file, tree, black_box(&address)))),
            &mut || discard(black_box(independent::symbol_at(stock, file, tree, black_box(&address)))),
        );
    }
}

/// Twenty levels that double the output over 490 that write nothing, against the same output without those;
/// and that against a plain copy of as many bytes. The independent version would take seconds for the first.
fn erasing() {
    // q(a(x)) = f(q(x), q(x)), q(b(x)) = q(x), q(e) = e
    let doubling = |erased: usize| Case {
        name: "20 doubling levels",
        stock: vec![3, 1, 1, 0, 2, 2, 0],
        file: file(1, &[&[1, 0], &[0, 0, 1, 0, 1, 0], &[1, 0], &[0, 1]]),
        tree: [vec![0; 20], vec![1; erased], vec![2]].concat(),
    };
    let (long, short) = (doubling(490), doubling(0));
    let plan = output(&short);
    let area = RefCell::new(vec![1; plan.len()]);
    line(
        "translate, 20 doubling over 490 erasing / without them",
        plan.len(),
        &mut || long.proved(&mut area.borrow_mut()),
        &mut || short.proved(&mut area.borrow_mut()),
    );
    line(
        "translate, 20 doubling levels / plain copy",
        plan.len(),
        &mut || short.proved(&mut area.borrow_mut()),
        &mut || area.borrow_mut().copy_from_slice(black_box(&plan)),
    );
}

/// One transducer to minimize.
struct Sheet {
    name: &'static str,
    stock: Vec<u8>,
    file: Vec<u8>,
}

impl Sheet {
    /// Minimizes by the proved library.
    fn proved(&self, area: &mut [u8]) {
        discard(black_box(slices::clean(&self.stock, black_box(&self.file), area)))
    }

    /// Minimizes by the independent implementation.
    fn independent(&self, area: &mut [u8]) {
        discard(black_box(independent::clean_into(&self.stock, black_box(&self.file), area)))
    }

    /// The minimal transducer, or the refusal; both sides give it.
    fn clean(&self) -> Result<Vec<u8>, u32> {
        let mut area = vec![1; independent::MAX_FILE];
        let form = slices::clean(&self.stock, &self.file, &mut area);
        let proved = form.map(|form| area[..form.length].to_vec()).map_err(caplune::Refusal::number);
        assert_eq!(proved, independent::clean(&self.stock, &self.file), "{}", self.name);
        proved
    }
}

/// Minimization.
fn cleaning() {
    for sheet in sheets() {
        let outcome = match sheet.clean() {
            Ok(clean) => format!("{} left", clean[0]),
            Err(number) => format!("refused by {number}"),
        };
        let area = RefCell::new(vec![1; independent::MAX_FILE]);
        line(
            &format!("minimize, {}: {outcome}", sheet.name),
            sheet.file.len(),
            &mut || sheet.proved(&mut area.borrow_mut()),
            &mut || sheet.independent(&mut area.borrow_mut()),
        );
    }
}

/// Whether two transducers are equivalent.
fn comparing() {
    for Pair { name, stock, first, second } in pairs() {
        let areas = RefCell::new((vec![1; slices::TREE_AREA], vec![1; slices::ADDRESS_AREA]));
        let proved = || {
            let (tree, address) = &mut *areas.borrow_mut();
            slices::compare(&stock, black_box(&first), &second, tree, address).map(|comparison| match comparison {
                slices::Comparison::Alike => None,
                slices::Comparison::Differ(shown) => Some((shown.tree.len(), shown.address.len())),
            })
        };
        let independent = || independent::compare(&stock, black_box(&first), &second);
        let (shown, verdict) = (proved().expect("they are compared"), independent());
        let outcome = match shown {
            None => "alike".to_string(),
            Some((nodes, numbers)) => format!("{nodes} nodes, {numbers} deep"),
        };
        let expected = if shown.is_none() { independent::Verdict::Alike } else { independent::Verdict::Differ };
        assert_eq!(verdict, Ok(expected), "{name}");
        line(
            &format!("compare, {name}: {outcome}"),
            first.len() + second.len(),
            &mut || discard(black_box(proved())),
            &mut || discard(black_box(independent())),
        );
    }
}

/// Two transducers to compare.
struct Pair {
    name: &'static str,
    stock: Vec<u8>,
    first: Vec<u8>,
    second: Vec<u8>,
}

fn pairs() -> Vec<Pair> {
    let sheets = sheets();
    let pair = |name, stock: &[u8], first, second| Pair { name, stock: stock.to_vec(), first, second };
    let cleaned = |sheet: &Sheet| sheet.clean().expect("it is minimized");
    // the minimal transducer with another leaf in its last right-hand side
    let changed = |sheet: &Sheet| {
        let mut file = cleaned(sheet);
        let last = file.len() - 1;
        let rank = |symbol: u8| sheet.stock[2 + usize::from(sheet.stock[0]) + usize::from(symbol)];
        let other = (0..64).find(|&symbol| symbol != file[last] && rank(symbol) == 0);
        file[last] = other.expect("the alphabets have two leaves");
        file
    };
    let by_name = |name: &str| sheets.iter().find(|sheet| sheet.name == name).expect("there is one");
    let (t_prime, random) = (by_name("T'"), by_name("128 random states"));
    let (chain, wide) = (by_name("merging, chain of 128"), by_name("merging, chain of 128, 30 calls"));
    // Rows of states that go round, and agree on the states met until all are joined. At v each calls the
    // one before, at w the next one below g, at z the next one and the last one h(c), and gives c at e.
    let row_stock = [4, 4, 4, 4, 0, 3, 1, 1, 0];
    let row = |states: u8, back: u8, symbols: usize| {
        rows(states, 4, &[1, 0], &|state, symbol| {
            let last = state + 1 == states;
            let next = if last { back } else { state + 1 };
            match symbol {
                0 => vec![1, state.saturating_sub(1)],
                1 => [vec![0; 2 * symbols], vec![1, next]].concat(),
                2 if last => vec![0, 1, 0, 2],
                2 => vec![1, next],
                _ => vec![0, 2],
            }
        })
    };
    // at 15 symbols each state calls the next alone, and gives c at the last symbol; only the last gives d
    let alone = rows(128, 16, &[1, 0], &|state, symbol| match symbol {
        15 => vec![0, 1 + state / 127],
        _ => vec![1, (state + 1).min(127)],
    });
    vec![
        pair("T' and T", &t_prime.stock, t_prime.file.clone(), cleaned(t_prime)),
        pair("T' and T with d", &t_prime.stock, t_prime.file.clone(), changed(t_prime)),
        pair("random, minimized", &random.stock, random.file.clone(), cleaned(random)),
        pair("random, a leaf changed", &random.stock, random.file.clone(), changed(random)),
        pair("chain of 128", &chain.stock, chain.file.clone(), chain.file.clone()),
        pair("128, 30 calls", &wide.stock, wide.file.clone(), wide.file.clone()),
        pair("128, 30 calls", &wide.stock, wide.file.clone(), changed(wide)),
        pair("128 calls alone and c", &wide.stock, alone, file(0, &[&[0, 1]])),
        pair("two rows of 128", &row_stock, row(128, 1, 0), row(128, 0, 0)),
        pair("two of 128, 59 g", &row_stock, row(128, 1, 59), row(128, 0, 59)),
    ]
}

/// Entries into a registry, with their questions and commits.
fn entering() {
    // u and e of ranks 1 and 0 to g, c, d of ranks 1, 0, 0; each state calls the next below g, and gives c
    // at e; the last gives d
    let stock = [2, 1, 0, 3, 1, 0, 0];
    let chain = |states: u8| {
        rows(states, 2, &[1, 0], &|state, symbol| match symbol {
            0 => vec![0, 0, 1, (state + 1).min(states - 1)],
            _ => vec![0, 1 + u8::from(state + 1 == states)],
        })
    };
    let all = |count: u8| (2..2 + count).map(chain).collect::<Vec<_>>();
    let random = sheets().into_iter().find(|sheet| sheet.name == "128 random states").expect("there is one");
    entry("first of 1", &stock, &all(1), &chain(2));
    entry("last of 32", &stock, &all(32), &chain(33));
    entry("behind 1", &stock, &all(1), &chain(3));
    entry("behind 31", &stock, &all(31), &chain(33));
    entry("behind 32", &stock, &all(32), &chain(34));
    entry("chain of 128", &stock, &[], &chain(128));
    entry("128 random states", &random.stock, &[], &random.file);
    entry("128 random states, held", &random.stock, std::slice::from_ref(&random.file), &random.file);
}

/// A call of a registry that is timed.
#[derive(Clone, Copy)]
enum Call {
    Enter,
    Question,
    Commit,
}

/// Prints a line each for an entry into a registry of these transducers, for its question, and for the commit with the
/// number that this answers.
fn entry(name: &str, stock: &[u8], held: &[Vec<u8>], file: &[u8]) {
    let (mut head, mut records, mut area) = (slices::Head::default(), [slices::Record::default(); 33], [1; 65_536]);
    slices::make_registry(&mut head, &mut records, &mut area, stock).expect("it is made");
    for file in held {
        slices::enter(&mut head, &mut records, &mut area, file).expect("it is entered");
    }
    let mut other = independent::Head { held: head.held, used: head.used, answered: head.answered };
    let other_record = |slices::Record { start, size, count }| independent::Record { start, length: size, count };
    let mut others = records.map(other_record);
    let (mut other_area, mut out, mut other_out) = (area, [1; independent::MAX_FILE], [1; independent::MAX_FILE]);
    let (before, other_before) = ((head, records), (other, others));
    let claim = slices::question(&head, &records, &area, file, &mut out).map_or(1, |asked| asked.number);
    let mut proved = |call: Call| {
        (head, records) = before;
        let answer = match call {
            Call::Enter => slices::enter(&mut head, &mut records, &mut area, black_box(file)),
            Call::Question => {
                slices::question(&head, &records, &area, black_box(file), &mut out).map(|asked| asked.number)
            }
            Call::Commit => slices::commit(&mut head, &mut records, &mut area, black_box(file), black_box(claim)),
        };
        answer.map_err(caplune::Refusal::number)
    };
    let mut independent = |call: Call| {
        (other, others) = other_before;
        let mut book = independent::Book { head: &mut other, records: &mut others, area: &mut other_area };
        match call {
            Call::Enter => book.enter(black_box(file)),
            Call::Question => book.question(black_box(file), &mut other_out).map(|(number, _)| number),
            Call::Commit => book.commit(black_box(file), black_box(claim)),
        }
    };
    for (call, verb) in [(Call::Enter, "enter"), (Call::Question, "question"), (Call::Commit, "commit")] {
        let answer = proved(call);
        assert_eq!(answer, independent(call), "{name}");
        let outcome = match (answer, call) {
            (Err(number), _) => format!("refused by {number}"),
            (Ok(number), Call::Question) => if number > before.0.held { "new" } else { "held" }.to_string(),
            (Ok(number), _) => if number > before.0.held { "added" } else { "found" }.to_string(),
        };
        line(&format!("{verb}, {name}: {outcome}"), file.len(), &mut || discard(black_box(proved(call))), &mut || {
            discard(black_box(independent(call)))
        });
        // every call was this one
        assert_eq!((proved(call), independent(call)), (answer, answer), "{name}");
    }
}

/// Two transducers to join.
struct Join {
    name: &'static str,
    stocks: [Vec<u8>; 2],
    files: [Vec<u8>; 2],
}

/// The composition of two transducers.
fn joining() {
    for Join { name, stocks: [first_stock, second_stock], files: [first, second] } in joins() {
        let area = RefCell::new(vec![1; independent::MAX_FILE]);
        let proved = || {
            let area = &mut area.borrow_mut()[..];
            slices::join(&first_stock, &second_stock, black_box(&first), &second, area)
        };
        let independent = || {
            let area = &mut area.borrow_mut()[..];
            independent::join_into(&first_stock, &second_stock, black_box(&first), &second, area)
        };
        let joined = proved().map(|form| area.borrow()[..form.length].to_vec()).map_err(caplune::Refusal::number);
        assert_eq!(joined, independent::join(&first_stock, &second_stock, &first, &second), "{name}");
        let outcome = match joined {
            Ok(joined) => format!("{} met", joined[0]),
            Err(number) => format!("refused by {number}"),
        };
        line(
            &format!("join, {name}: {outcome}"),
            first.len() + second.len(),
            &mut || discard(black_box(proved())),
            &mut || discard(black_box(independent())),
        );
    }
}

fn joins() -> Vec<Join> {
    let join = |name, first_stock: &[u8], second_stock: &[u8], first, second| Join {
        name,
        stocks: [first_stock.to_vec(), second_stock.to_vec()],
        files: [first, second],
    };
    let over = |symbols: usize, mark: [u8; 2]| [vec![0; 2 * symbols], mark.to_vec()].concat();
    // T' of the paper's samples; and T with f of rank 2 for a
    let t_prime = file(1, &[&[1, 0], &[0, 0, 1, 0, 1, 0], &[0, 0, 0, 1, 0, 1]]);
    let t = file(1, &[&[0, 0, 1, 0, 1, 0], &[0, 0, 1, 0, 2, 0], &[0, 1]]);
    // 15 symbols of rank 1 and one of rank 0 to g and c of ranks 1 and 0, and these to themselves
    let (wide, narrow) = ([vec![16], vec![1; 15], vec![0, 2, 1, 0]].concat(), [2, 1, 0, 2, 1, 0]);
    // a ring of states that has so many g for one
    let stretching = |states: u8, symbols: usize| {
        rows(states, 2, &[1, 0], &|state, symbol| match symbol {
            0 => over(symbols, [1, (state + 1) % states]),
            _ => vec![0, 1],
        })
    };
    // a ring of states, with g over the next at each symbol of rank 1, and c at the other
    let ring = rows(128, 16, &[1, 0], &|state, symbol| match symbol {
        15 => vec![0, 1],
        _ => over(1, [1, (state + 1) % 128]),
    });
    // at eight symbols another state alone, at seven the same one below g
    let grid = rows(16, 16, &[1, 0], &|state, symbol| match symbol {
        15 => vec![0, 1],
        _ if symbol % 2 == 0 => vec![1, (state + 1 + symbol) % 16],
        _ => over(1, [1, state]),
    });
    // 62 g over the next state, and c
    let long = rows(127, 2, &[1, 0], &|state, symbol| match symbol {
        0 => over(62, [1, (state + 1) % 127]),
        _ => vec![0, 1],
    });
    // 63 g over the state itself, and c; then f(q(x1), q(x1)) for each g, with f and c of ranks 2 and 0
    let doubled = file(1, &[&[1, 0], &over(63, [1, 0]), &[0, 1]]);
    let doubling = file(1, &[&[1, 0], &[0, 0, 1, 0, 1, 0], &[0, 1]]);
    // random states, and then the sub-trees in the other order
    let random = sheets().into_iter().find(|sheet| sheet.name == "128 random states").expect("there is one");
    let ranks = independent::read_alphabets(&random.stock).expect("the alphabets are read").outputs;
    let mirror = rows(1, ranks.len() as u8, &[1, 0], &|_, symbol| {
        let children = (1..=ranks[usize::from(symbol)]).rev();
        [0, symbol].into_iter().chain(children.flat_map(|child| [child, 0])).collect()
    });
    let mirror_stock = [&[ranks.len() as u8], ranks, &[ranks.len() as u8], ranks].concat();
    vec![
        join("T after T'", &[2, 1, 0, 2, 2, 0], &[2, 2, 0, 2, 2, 0], t_prime, t),
        join("128 random states, mirrored", &random.stock, &mirror_stock, random.file.clone(), mirror),
        join("8 states after 16", &wide, &narrow, grid.clone(), stretching(8, 6)),
        join("9 states after 16", &wide, &narrow, grid, stretching(9, 6)),
        join("2,049 terms", &wide, &narrow, ring, stretching(1, 3)),
        join("62 g erased, 127 times", &narrow, &narrow, long.clone(), stretching(1, 0)),
        join("62 g kept, 127 times", &narrow, &narrow, long, stretching(1, 1)),
        join("2^64 - 1 marks", &narrow, &[2, 1, 0, 2, 2, 0], doubled, doubling),
    ]
}

/// The states in a ring or a chain: `side` gives the right-hand side of a state at a symbol.
fn rows(states: u8, inputs: u8, initial: &[u8], side: &dyn Fn(u8, u8) -> Vec<u8>) -> Vec<u8> {
    let sides = (0..states).flat_map(|state| (0..inputs).map(move |symbol| side(state, symbol)));
    let terms: Vec<Vec<u8>> = std::iter::once(initial.to_vec()).chain(sides).collect();
    file(states, &terms.iter().map(Vec::as_slice).collect::<Vec<_>>())
}

fn sheets() -> Vec<Sheet> {
    // u and e of ranks 1 and 0 to f, c, d of ranks 2, 0, 0
    let stock = vec![2, 1, 0, 3, 2, 0, 0];
    let t_prime = |states: u8| {
        rows(states, 2, &[1, 0], &|state, symbol| match symbol {
            0 => vec![0, 0, 1, (state + 1) % states, 1, (state + 1) % states],
            _ => vec![0, 0, 0, 1, 0, 1],
        })
    };
    // each state calls the next at u and gives c at e; only the last gives d there
    let root = rows(128, 2, &[1, 0], &|state, symbol| match (state, symbol) {
        (127, 0) => vec![0, 1],
        (_, 0) => vec![1, state + 1],
        _ => vec![0, 1 + state / 127],
    });
    // A ring, whose k-th state has the number `number(k)`; at e the comb f(c, f(c, ...)) of 31 f, but in the
    // last state with d as its first leaf; at the symbols of rank 1 the calls of the next states, but in the
    // last one f(c, q(x1)) with the first. That the first leaf varies goes round the ring, then that the
    // second one does, and so on: no other order finds it sooner.
    let ring = |states: u8, inputs: u8, number: &dyn Fn(u8) -> u8| {
        let position: Vec<u8> =
            (0..states).map(|state| (0..states).find(|&k| number(k) == state).expect("numbers differ")).collect();
        rows(states, inputs, &[1, number(0)], &|state, symbol| match position[usize::from(state)] {
            k if symbol + 1 == inputs => {
                let mut comb = [[0, 0, 0, 1].repeat(31), vec![0, 1]].concat();
                comb[3] += u8::from(k + 1 == states);
                comb
            }
            k if k + 1 < states => vec![1, number((k + 1 + symbol).min(states - 1))],
            _ => vec![0, 0, 0, 1, 1, number(0)],
        })
    };
    let comb = |states: u8| ring(states, 2, &|k| k);
    let mut shuffled: Vec<u8> = (0..127).collect();
    let mut numbers = Numbers(0x2545_f491_4f6c_dd1d);
    (1..127).rev().for_each(|k| shuffled.swap(k, numbers.below(k + 1)));
    // each state calls itself below f(c, .), with d as the first leaf of its comb at e
    let loops = rows(124, 2, &[1, 0], &|state, symbol| match symbol {
        0 => vec![0, 0, 0, 1, 1, state],
        _ => [vec![0, 0, 0, 2], [0, 0, 0, 1].repeat(30), vec![0, 1]].concat(),
    });
    // 15 calls of states here and there, and in each of 31 states a leaf of the comb that is its own
    let meshed = rows(100, 16, &[1, 0], &|state, symbol| match symbol {
        15 => {
            let mut comb = [[0, 0, 0, 1].repeat(31), vec![0, 1]].concat();
            if state % 3 == 0 && state < 93 {
                comb[4 * usize::from(state / 3) + 3] = 2;
            }
            comb
        }
        _ => vec![1, ((u16::from(state) * 37 + u16::from(symbol) * 61 + 11) % 100) as u8],
    });
    // 15 symbols of rank 1 at which other states are called, all with one comb of 23 f at the symbol of
    // rank 0, but for one leaf in the last: the most nodes that lie over others
    let wide_stock = [vec![16], vec![1; 15], vec![0, 4, 2, 0, 0, 1]].concat();
    let crossing = |last: u8| {
        rows(128, 16, &[1, 0], &|state, symbol| match symbol {
            15 => {
                let mut comb = [[0, 0, 0, 1].repeat(23), vec![0, 1]].concat();
                comb[4 * 23 + 1] = if state == 127 { last } else { 1 };
                comb
            }
            _ => vec![1, (state + 1 + symbol * symbol) % 128],
        })
    };
    // u to f(next, next), and c at e; only the last state gives d, or none does
    let chain = |last: u8| {
        rows(128, 2, &[1, 0], &|state, symbol| match symbol {
            0 => vec![0, 0, 1, (state + 1).min(127), 1, (state + 1).min(127)],
            _ => vec![0, if state == 127 { last } else { 1 }],
        })
    };
    // the same with 15 symbols of rank 1, and g(f(next, next))
    let wide = rows(128, 16, &[1, 0], &|state, symbol| match symbol {
        15 => vec![0, 1 + state / 127],
        _ => vec![0, 3, 0, 0, 1, (state + 1).min(127), 1, (state + 1).min(127)],
    });
    let sheet = |name, stock: &[u8], file| Sheet { name, stock: stock.to_vec(), file };
    let random_stock = [5, 2, 1, 1, 0, 0, 8, 2, 2, 1, 1, 0, 0, 0, 0];
    vec![
        sheet("T'", &stock, t_prime(1)),
        sheet("ring of 64", &stock, t_prime(64)),
        sheet("128 random states", &random_stock, random(&random_stock)),
        sheet("prefixes, a conflict in 128", &stock, root),
        sheet("prefixes, 32 conflicts in 4", &stock, comb(4)),
        sheet("prefixes, 32 in 127", &stock, comb(127)),
        sheet("prefixes, 32 in 127, backwards", &stock, ring(127, 2, &|k| 126 - k)),
        sheet("prefixes, 32 in 127, mixed", &stock, ring(127, 2, &|k| (u16::from(k) * 50 % 127) as u8)),
        sheet("prefixes, 32 in 127, at random", &stock, ring(127, 2, &|k| shuffled[usize::from(k)])),
        sheet("prefixes, 32 in 100, 15 calls", &wide_stock, ring(100, 16, &|k| k)),
        sheet("prefixes, 32 in 100, 15 calls, mixed", &wide_stock, ring(100, 16, &|k| (u16::from(k) * 37 % 100) as u8)),
        sheet("prefixes, 31 in itself, 124 times", &stock, loops),
        sheet("prefixes, 31 conflicts, 15 calls", &wide_stock, meshed),
        sheet("prefixes, 15 calls, agreeing", &wide_stock, crossing(1)),
        sheet("prefixes, 15 calls, a conflict", &wide_stock, crossing(2)),
        sheet("merging, 128 equal states", &stock, chain(1)),
        sheet("merging, chain of 128", &stock, chain(2)),
        sheet("merging, chain of 128, 30 calls", &wide_stock, wide),
    ]
}

/// Numbers below a bound, from a seed: xorshift.
struct Numbers(u64);

impl Numbers {
    fn below(&mut self, bound: usize) -> usize {
        self.0 ^= self.0 << 13;
        self.0 ^= self.0 >> 7;
        self.0 ^= self.0 << 17;
        (self.0 >> 20) as usize % bound
    }
}

/// A transducer of 128 random states, of which over 120 are left in the minimal one.
fn random(stock: &[u8]) -> Vec<u8> {
    let alphabets = independent::read_alphabets(stock).expect("the alphabets are read");
    let mut numbers = Numbers(0x9e37_79b9_7f4a_7c15);
    loop {
        let mut terms = vec![vec![1, 0]];
        for number in 0..128 * alphabets.inputs.len() {
            let reach = alphabets.inputs[number % alphabets.inputs.len()].into();
            let mut term = Vec::new();
            let mut owed = 1;
            while owed > 0 {
                owed -= 1;
                let symbol = match numbers.below(4) {
                    0 | 1 if term.len() < 16 => numbers.below(4),
                    2 | 3 if reach > 0 => {
                        term.extend([1 + numbers.below(reach) as u8, numbers.below(128) as u8]);
                        continue;
                    }
                    _ => 4 + numbers.below(4),
                };
                term.extend([0, symbol as u8]);
                owed += usize::from(alphabets.outputs[symbol]);
            }
            terms.push(term);
        }
        let file = file(128, &terms.iter().map(Vec::as_slice).collect::<Vec<_>>());
        if independent::clean(stock, &file).is_ok_and(|clean| clean[0] > 120) {
            return file;
        }
    }
}

fn output(case: &Case) -> Vec<u8> {
    independent::translate(&case.stock, &case.file, &case.tree, 1 << 26).expect("it is translated")
}

/// The address of the last node of the output tree: the last child, down to a leaf.
fn last_address(case: &Case) -> Vec<u8> {
    let outputs = independent::read_alphabets(&case.stock).expect("the alphabets are read").outputs;
    let mut address = Vec::new();
    loop {
        let symbol = independent::symbol_at(&case.stock, &case.file, &case.tree, &address);
        match symbol.expect("it is read").map_or(0, |symbol| outputs[usize::from(symbol)]) {
            0 => return address,
            rank => address.push(rank),
        }
    }
}

/// The same transducer as a stylesheet, on the same tree as a document.
fn stylesheets(cases: &[Case]) {
    println!();
    let installed = Command::new("xsltproc").arg("--version").stdout(Stdio::null()).stderr(Stdio::null()).status();
    if !installed.is_ok_and(|status| status.success()) {
        println!("xsltproc is not installed: no comparison with XSLT.");
        return;
    }
    let folder = std::env::temp_dir().join(format!("caplune-bench-{}", std::process::id()));
    std::fs::create_dir_all(&folder).expect("a folder for the stylesheets");
    println!("XSLT 1.0 by xsltproc: the time of its process, with starting, reading and writing, against a");
    println!("call in this process; the output is discarded. Its output on one node, which is hardly more than");
    println!("its start, is in the first line. Before the timing its output is compared with the output tree.");
    println!(
        "{:52} {:>9} {:>12} {:>12} {:>8} {:>12} {:>8}",
        "", "size", "xsltproc", "proved", "ratio", "independent", "ratio"
    );
    let start = Case { name: "one node", tree: vec![2], stock: cases[0].stock.clone(), file: cases[0].file.clone() };
    std::iter::once(&start).chain(cases).for_each(|case| stylesheet(&folder, case));
    let _ = std::fs::remove_dir_all(&folder);
}

fn stylesheet(folder: &Path, case: &Case) {
    let (sheet, document) = (folder.join("sheet.xsl"), folder.join("document.xml"));
    std::fs::write(&sheet, stylesheet_of(case)).expect("the stylesheet is written");
    std::fs::write(&document, document_of(case)).expect("the document is written");
    let run = |discard: bool| {
        let mut command = Command::new("xsltproc");
        // the parser refuses documents of more than 256 levels unless told otherwise
        command
            .args(["--huge", "--maxparserdepth", "100000", "--maxdepth", "100000"])
            .arg(&sheet)
            .arg(&document)
            .stderr(Stdio::inherit());
        if discard {
            assert!(command.stdout(Stdio::null()).status().expect("xsltproc runs").success());
            return vec![];
        }
        let written = command.output().expect("xsltproc runs");
        assert!(written.status.success());
        symbols_of(&written.stdout)
    };
    let output = output(case);
    assert!(run(false) == output, "xsltproc writes the elements of the output tree");
    let batches = if output.len() > 100_000 { 3 } else { BATCHES };
    let process = (0..batches).map(|_| batch(&mut || discard(run(true)), 1)).fold(f64::INFINITY, f64::min);
    let area = RefCell::new(vec![1; 2 * output.len()]);
    let (proved, independent) =
        times(&mut || case.proved(&mut area.borrow_mut()), &mut || case.independent(&mut area.borrow_mut()));
    println!(
        "{:52} {:9} {:>12} {:>12} {:8.0} {:>12} {:8.0}",
        case.name,
        output.len(),
        show(process),
        show(proved),
        process / proved,
        show(independent),
        process / independent
    );
    let _ = std::io::stdout().flush();
}

/// The symbols of a document's elements `bN`, in the order of their start tags.
fn symbols_of(document: &[u8]) -> Vec<u8> {
    let tags = document.split(|&byte| byte == b'<').filter_map(|tag| tag.strip_prefix(b"b"));
    tags.map(|tag| tag.iter().take_while(|byte| byte.is_ascii_digit()).fold(0, |n, digit| 10 * n + (digit - b'0')))
        .collect()
}

/// A template for the initial term, and one for each right-hand side: a state is a mode, an input
/// symbol `a` an element `aN`, and an output symbol an element `bN`.
fn stylesheet_of(case: &Case) -> String {
    let alphabets = independent::read_alphabets(&case.stock).expect("the alphabets are read");
    let read = independent::read_transducer(&case.stock, &case.file).expect("the transducer is read");
    let mut sheet =
        String::from("<xsl:stylesheet version=\"1.0\" xmlns:xsl=\"http://www.w3.org/1999/XSL/Transform\">\n");
    sheet.push_str("<xsl:output method=\"xml\" indent=\"no\"/>\n");
    let mut marks = read.marks.chunks(2);
    for (number, count) in read.counts.chunks(2).enumerate() {
        match number.checked_sub(1) {
            None => sheet.push_str("<xsl:template match=\"/\">"),
            Some(line) => {
                let (state, symbol) = (line / alphabets.inputs.len(), line % alphabets.inputs.len());
                sheet.push_str(&format!("<xsl:template match=\"a{symbol}\" mode=\"q{state}\">"));
            }
        }
        let mut open: Vec<(u8, u8)> = Vec::new();
        for mark in marks.by_ref().take(usize::from(count[1])) {
            match *mark {
                [0, symbol] if alphabets.outputs[usize::from(symbol)] > 0 => {
                    sheet.push_str(&format!("<b{symbol}>"));
                    open.push((symbol, alphabets.outputs[usize::from(symbol)]));
                    continue;
                }
                [0, symbol] => sheet.push_str(&format!("<b{symbol}/>")),
                [child, state] => {
                    sheet.push_str(&format!("<xsl:apply-templates select=\"*[{child}]\" mode=\"q{state}\"/>"))
                }
                _ => unreachable!("a mark has two bytes"),
            }
            while let Some((symbol, left)) = open.last_mut() {
                *left -= 1;
                if *left > 0 {
                    break;
                }
                sheet.push_str(&format!("</b{symbol}>"));
                open.pop();
            }
        }
        sheet.push_str("</xsl:template>\n");
    }
    sheet.push_str("</xsl:stylesheet>\n");
    sheet
}

fn document_of(case: &Case) -> String {
    let inputs = independent::read_alphabets(&case.stock).expect("the alphabets are read").inputs;
    let mut document = String::new();
    let mut open: Vec<(u8, u8)> = Vec::new();
    for &symbol in &case.tree {
        let rank = inputs[usize::from(symbol)];
        if rank > 0 {
            document.push_str(&format!("<a{symbol}>"));
            open.push((symbol, rank));
            continue;
        }
        document.push_str(&format!("<a{symbol}/>"));
        while let Some((symbol, left)) = open.last_mut() {
            *left -= 1;
            if *left > 0 {
                break;
            }
            document.push_str(&format!("</a{symbol}>"));
            open.pop();
        }
    }
    document
}

/// Transducers whose input symbols have ranks 1 and 0, and whose terms have no fork, translate
/// strings: at a state the right-hand side of a symbol of rank 1 is a string and a call, and that of a
/// symbol of rank 0 a string. OpenFst has them as deterministic transducers: a state is a state, and a
/// right-hand side an arc that reads the symbol and writes the string; since an arc writes at most one
/// symbol, the others are written by arcs behind it that read nothing. `fstminimize` does there what
/// minimization does here: it pushes the output labels towards the initial state, which is the
/// earliest form, encodes the labels and merges equal states. Its states that read a symbol are as
/// many as the states of the minimal transducer, which is asserted.
///
/// What is timed is the process of `fstminimize`, with starting, reading and writing the binary
/// machine, against a call in this process; a machine of one state takes hardly more than its start.
fn string_transducers() {
    println!();
    let installed = ["fstcompile", "fstminimize", "fstprint"].iter().all(|name| {
        let status = Command::new(name).arg("--help").stdout(Stdio::null()).stderr(Stdio::null()).status();
        status.is_ok()
    });
    if !installed {
        println!("OpenFst is not installed: no comparison with fstminimize.");
        return;
    }
    let folder = std::env::temp_dir().join(format!("caplune-fst-{}", std::process::id()));
    std::fs::create_dir_all(&folder).expect("a folder for the machines");
    println!("OpenFst's fstminimize: the time of its process, with starting, reading and writing, against a call");
    println!("in this process. The first line is hardly more than its start, which the second ratios leave out.");
    println!(
        "{:52} {:>9} {:>12} {:>12} {:>12} {:>8} {:>8} {:>12} {:>8} {:>8}",
        "", "states", "fstminimize", "past start", "proved", "ratio", "ratio", "independent", "ratio", "ratio"
    );
    let mut start = None;
    for sheet in string_sheets() {
        let time = string_transducer(&folder, &sheet, start);
        start = start.or(Some(time));
    }
    let _ = std::fs::remove_dir_all(&folder);
}

/// Transducers on strings, whose initial term is a call of state 0.
fn string_sheets() -> Vec<Sheet> {
    // u and e of ranks 1 and 0 to g, c, d of ranks 1, 0, 0
    let stock = vec![2, 1, 0, 3, 1, 0, 0];
    let one = rows(1, 2, &[1, 0], &|_, symbol| if symbol == 0 { vec![0, 0, 1, 0] } else { vec![0, 1] });
    // T' on strings, in a ring: u to g(next), e to g(c)
    let ring = rows(128, 2, &[1, 0], &|state, symbol| match symbol {
        0 => vec![0, 0, 1, (state + 1) % 128],
        _ => vec![0, 0, 0, 1],
    });
    let chain = rows(128, 2, &[1, 0], &|state, symbol| match symbol {
        0 => vec![0, 0, 1, (state + 1).min(127)],
        _ => vec![0, 1 + state / 127],
    });
    // 14 symbols of rank 1 and 2 of rank 0; strings of at most 2 symbols, of 4
    let wide_stock = [vec![16], vec![1; 14], vec![0, 0, 8], vec![1; 4], vec![0; 4]].concat();
    let numbers = RefCell::new(Numbers(7));
    let below = |bound: usize| numbers.borrow_mut().below(bound);
    let wide = rows(128, 16, &[1, 0], &|_, symbol| {
        let mut side: Vec<u8> = (0..below(3)).flat_map(|_| [0, below(4) as u8]).collect();
        side.extend(if symbol < 14 { [1, below(128) as u8] } else { [0, 4 + below(4) as u8] });
        side
    });
    let sheet = |name, stock: &[u8], file| Sheet { name, stock: stock.to_vec(), file };
    vec![
        sheet("strings, one state", &stock, one),
        sheet("strings, ring of 128 states", &stock, ring),
        sheet("strings, chain of 128 states", &stock, chain),
        sheet("strings, 128 random states, 16 symbols", &wide_stock, wide),
    ]
}

/// Prints a line for a transducer, and answers the time of the process; `start` is that of its start.
fn string_transducer(folder: &Path, sheet: &Sheet, start: Option<f64>) -> f64 {
    let [text, machine, minimal] = ["machine.txt", "machine.fst", "minimal.fst"].map(|name| folder.join(name));
    std::fs::write(&text, machine_of(sheet)).expect("the machine is written");
    let run = |name: &str, from: &Path, to: &Path| {
        let status = Command::new(name).arg(from).arg(to).status();
        assert!(status.expect("OpenFst runs").success());
    };
    run("fstcompile", &text, &machine);
    let process =
        (0..BATCHES).map(|_| batch(&mut || run("fstminimize", &machine, &minimal), 1)).fold(f64::INFINITY, f64::min);
    let printed = Command::new("fstprint").arg(&minimal).output().expect("OpenFst runs").stdout;
    // an arc is printed as its states, what it reads and what it writes; 0 is nothing
    let printed = String::from_utf8(printed).expect("a text");
    let arcs = printed.lines().map(|line| line.split('\t').collect::<Vec<_>>()).filter(|arc| arc.len() >= 4);
    let reading: std::collections::BTreeSet<_> =
        arcs.filter(|arc| arc[2] != "0").map(|arc| arc[0].to_owned()).collect();
    let clean = sheet.clean().expect("it is minimized");
    assert_eq!(reading.len(), usize::from(clean[0]), "{}", sheet.name);
    let area = RefCell::new(vec![1; independent::MAX_FILE]);
    let (proved, independent) =
        times(&mut || sheet.proved(&mut area.borrow_mut()), &mut || sheet.independent(&mut area.borrow_mut()));
    let name = format!("{}: {} left", sheet.name, clean[0]);
    let states = sheet.file[0];
    let past = process - start.unwrap_or(process);
    println!(
        "{name:52} {states:9} {:>12} {:>12} {:>12} {:8.0} {:8.0} {:>12} {:8.0} {:8.0}",
        show(process),
        show(past),
        show(proved),
        process / proved,
        past / proved,
        show(independent),
        process / independent,
        past / independent
    );
    let _ = std::io::stdout().flush();
    process
}

/// A transducer on strings as OpenFst's text: lines of two states, what is read and what is written.
/// The first line starts at state 0, which the initial term calls.
fn machine_of(sheet: &Sheet) -> String {
    let inputs = usize::from(sheet.stock[0]);
    let read = independent::read_transducer(&sheet.stock, &sheet.file).expect("the transducer is read");
    let end = read.states;
    // states that read nothing, between two symbols that a right-hand side writes
    let mut next = end + 1;
    let mut text = String::new();
    let mut marks = read.marks.chunks(2).skip(1);
    for (number, count) in read.counts.chunks(2).skip(1).enumerate() {
        let side: Vec<&[u8]> = marks.by_ref().take(usize::from(count[1])).collect();
        let (string, to) = match side.split_last() {
            Some((&[1, state], string)) => (string, usize::from(*state)),
            _ => (&side[..], end),
        };
        let (mut from, mut reads) = (number / inputs, 1 + number % inputs);
        for at in 0..string.len().max(1) {
            let last = at + 1 >= string.len();
            let behind = if last { to } else { next };
            next += usize::from(!last);
            let writes = string.get(at).map_or(0, |mark| 1 + usize::from(mark[1]));
            text.push_str(&format!("{from} {behind} {reads} {writes}\n"));
            (from, reads) = (behind, 0);
        }
    }
    text.push_str(&format!("{end}\n"));
    text
}

/// The file of a transducer.
fn file(states: u8, terms: &[&[u8]]) -> Vec<u8> {
    let mut file = vec![states];
    terms.iter().for_each(|term| file.extend([0, (term.len() / 2) as u8]));
    terms.iter().for_each(|term| file.extend(*term));
    file
}

fn cases() -> Vec<Case> {
    // a, u, e of ranks 2, 1, 0 to f, g, c, d of ranks 2, 1, 0, 0. Two states that take turns and
    // swap the sub-trees: p(a(x1, x2)) = f(q(x2), g(p(x1))), p(u(x1)) = g(q(x1)), p(e) = c;
    // q(a(x1, x2)) = f(p(x2), q(x1)), q(u(x1)) = g(g(p(x1))), q(e) = d.
    let stock = vec![3, 2, 1, 0, 4, 2, 1, 0, 0];
    let swap = file(
        2,
        &[
            &[1, 0],
            &[0, 0, 2, 1, 0, 1, 1, 0],
            &[0, 1, 1, 1],
            &[0, 2],
            &[0, 0, 2, 0, 1, 1],
            &[0, 1, 0, 1, 1, 0],
            &[0, 3],
        ],
    );
    let even = |nodes: usize| {
        let mut tree = Vec::new();
        grow(&mut tree, nodes);
        tree
    };
    // T of the paper's samples: every level doubles the output.
    let copies = vec![1, 0, 3, 0, 3, 0, 1, 0, 0, 1, 0, 1, 0, 0, 0, 1, 0, 1, 0, 0, 1];
    let of = |name, tree| Case { name, stock: stock.clone(), file: swap.clone(), tree };
    vec![
        of("64 nodes", even(64)),
        of("512 nodes", even(512)),
        of("4096 nodes", even(4096)),
        of("chain of 512 levels", chain(512, 1, 2)),
        Case {
            name: "copying, chain of 21 levels",
            stock: vec![2, 1, 0, 2, 2, 0],
            file: copies,
            tree: chain(21, 0, 1),
        },
        Case {
            name: "two copying states, chain of 20 levels",
            stock: vec![2, 1, 0, 3, 2, 0, 0],
            // p(a(x1)) = f(p(x1), q(x1)), p(e) = c, q(a(x1)) = f(q(x1), p(x1)), q(e) = d
            file: file(2, &[&[1, 0], &[0, 0, 1, 0, 1, 1], &[0, 1], &[0, 0, 1, 1, 1, 0], &[0, 2]]),
            tree: chain(20, 0, 1),
        },
    ]
}

/// Those whose output trees have few enough levels to be given. For the chain of 512 levels, whose output tree has 767,
/// there are three whose output trees have 256, the most.
fn few_levels() -> Vec<Case> {
    // u, v and e of ranks 1, 1, 0 to f, g and c of ranks 2, 1, 0. Two states that take turns: at u g over the other one,
    // or the other one alone; at v f over twice the other one.
    let stock = vec![3, 1, 1, 0, 3, 2, 1, 0];
    let states = |initial: u8, second: &[u8]| {
        let copy = |state: u8| [0, 0, 1, state, 1, state];
        file(2, &[&[1, initial], &[0, 1, 1, 1], &copy(1), &[0, 2], second, &copy(0), &[0, 2]])
    };
    let writing = states(0, &[0, 1, 1, 0]);
    let deep = [
        ("chain of 256 levels", writing.clone(), chain(256, 0, 2)),
        ("chain of 512 levels, half erased", states(1, &[1, 0]), chain(512, 0, 2)),
        ("12 copying levels of 256", writing, [vec![1; 12], chain(244, 0, 2)].concat()),
    ];
    let deep = deep.map(|(name, file, tree)| Case { name, stock: stock.clone(), file, tree });
    let mut cases = cases();
    let at = cases.iter().position(|case| case.name == "chain of 512 levels").expect("there is one");
    cases.splice(at..=at, deep);
    cases
}

/// So many levels of one node each.
fn chain(levels: usize, step: u8, end: u8) -> Vec<u8> {
    [vec![step; levels - 1], vec![end]].concat()
}

/// A tree of so many nodes, as even as can be.
fn grow(tree: &mut Vec<u8>, nodes: usize) {
    match nodes {
        1 => tree.push(2),
        2 => tree.extend([1, 2]),
        _ => {
            tree.push(0);
            grow(tree, (nodes - 1) / 2);
            grow(tree, nodes - 1 - (nodes - 1) / 2);
        }
    }
}

/// The longest file: 128 states, 16 input symbols, 8,192 marks.
fn largest() -> Case {
    let mut terms: Vec<&[u8]> = vec![&[0, 1, 0, 0, 1, 5, 0, 2]; 2047];
    terms.extend([&[0, 1, 1, 0][..]; 2]);
    terms[0] = &[0, 1, 0, 0, 1, 5, 0, 2];
    let stock = [vec![16], vec![2; 15], vec![0, 3, 2, 1, 0]].concat();
    // the last input symbol is a leaf, at which nothing is called
    for (number, term) in terms.iter_mut().enumerate().skip(1) {
        if (number - 1) % 16 == 15 {
            *term = if term.len() == 4 { &[0, 1, 0, 2] } else { &[0, 1, 0, 0, 0, 2, 0, 2] };
        }
    }
    Case { name: "20,483 bytes", stock, file: file(128, &terms), tree: vec![15] }
}
