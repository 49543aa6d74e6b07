//! What a transducer lays for a partial tree (document 02, request F-10: for a design with blanks), by the independent
//! definition: held against the proved translation, and the proved normal form against equivalent transducers.
//!
//! There is no function of the library for it. Tried from outside are: translation lays, with one more input symbol
//! for variables and one more output symbol for the calls that stay; nothing that an equivalent transducer lays is
//! missing in what the normal form lays, be that transducer over the limits of the earliest form or not; what the
//! normal form lays stands in the output tree of every filling; at each call that stays there two fillings have
//! different symbols; and without variables what is laid is the output tree.
//!
//! Every translation is made three times, by the safe function of this crate, by the C function itself, and by the
//! independent function, and every byte and number that was lent is looked at, as in `compare.rs`. `cargo test
//! --release --offline --test partial -- --nocapture` prints how often each outcome occurred.
mod generate;
mod lent;

use caplune::{ffi, slices};
use caplune_independent as independent;
use generate::alike::{any, prefixed, small_alphabets, small_transducer};
use generate::partials::{blanked, filled, longest, wider, with_leaf, with_room};
use generate::samples::*;
use generate::{damage, deep, input_tree, levels, small_trees, tree, trees, Alphabets, Growth, Random, Transducer};
use independent::{lay, MAX_FILE, MAX_OUTPUT_LEVELS};
use lent::{number, Lent, Tally, BEFORE};
use std::collections::{BTreeMap, BTreeSet};

/// The most symbols and calls that are laid, and the most symbols of an output tree.
const LONGEST: usize = 1_000;

/// The output tree of at most [`LONGEST`] symbols that all three give, or the refusal.
fn translate(stock: &[u8], file: &[u8], tree: &[u8]) -> Result<Vec<u8>, u32> {
    let told = || format!("{stock:?} {file:?} {tree:?}");
    let mut lent = [Lent::new(LONGEST), Lent::new(LONGEST)];
    let copies = [stock, file, tree].map(<[u8]>::to_vec);
    let [stock_lent, file_lent, tree_lent] = &copies;
    let expected = independent::translate(stock, file, tree, LONGEST);
    let length = expected.as_ref().map(Vec::len).map_err(|&number| number);
    let safe = slices::translate(stock_lent, file_lent, tree_lent, lent[0].area());
    assert_eq!(number(safe), length, "{}", told());
    let mut left = BEFORE[0];
    let refused = ffi::translate(stock_lent, file_lent, tree_lent, lent[1].area(), &mut left);
    assert_eq!((refused, left), (length.err().unwrap_or(0), length.unwrap_or(BEFORE[0])), "{}", told());
    let written = expected.as_deref().unwrap_or_default();
    assert!(lent.iter().all(|lent| lent.holds(written)), "{}", told());
    // what was lent for reading
    assert!(copies == [stock, file, tree], "{}", told());
    expected
}

/// The normal form by the proved library, or the refusal.
fn clean(stock: &[u8], file: &[u8]) -> Result<Vec<u8>, u32> {
    let mut lent = Lent::new(MAX_FILE);
    let form = number(slices::clean(stock, file, lent.area()));
    let written = form.map(|form| lent.area()[..form.length].to_vec());
    assert!(lent.holds(written.as_deref().unwrap_or_default()), "{stock:?} {file:?}");
    written
}

/// What stands at each address of a tree.
type Nodes = BTreeMap<Vec<u8>, u8>;

/// The nodes of a tree over these ranks.
fn nodes(ranks: &[u8], tree: &[u8]) -> Nodes {
    // the addresses of the trees that are not read yet, the next one last
    let mut waiting = vec![vec![]];
    let mut node = |&symbol: &u8| {
        let address = waiting.pop().expect("it is one tree");
        let children = (1..=ranks[usize::from(symbol)]).rev();
        waiting.extend(children.map(|child| [&address[..], &[child]].concat()));
        (address, symbol)
    };
    let nodes = tree.iter().map(&mut node).collect();
    assert!(waiting.is_empty(), "{tree:?} is one tree");
    nodes
}

/// Whether each symbol of `less` stands in `more` at the same address, and something stands there for each call.
fn is_within(call: u8, less: &Nodes, more: &Nodes) -> bool {
    less.iter().all(|(address, &symbol)| more.get(address).is_some_and(|&other| symbol == call || symbol == other))
}

/// Counts a partial tree by its variables.
fn count_variables(tally: &mut Tally, variable: u8, partial: &[u8]) {
    let variables = partial.iter().filter(|&&symbol| symbol == variable).count();
    tally.count("variables", &Ok(()), ["none", "one", "more"][variables.min(2)]);
    if partial == [variable] {
        tally.count("whole tree", &Ok(()), "variable");
    }
}

/// The outcomes of [`count_variables`].
const VARIABLES: [(&str, &str); 4] =
    [("variables", "none"), ("variables", "one"), ("variables", "more"), ("whole tree", "variable")];

#[test]
fn samples() {
    let lay = |stock: &[u8], file: &[u8], partial: &[u8]| lay(stock, file, partial, LONGEST);
    // over S a variable is 2, and so is a call that stays
    for (partial, of_t_prime, of_t) in [
        (&[2][..], &[2][..], &[0, 2, 2][..]),
        (&[0, 2], &[0, 2, 2], &[0, 0, 2, 2, 0, 2, 2]),
        (&[0, 1], &[0, 0, 1, 1, 0, 1, 1], &[0, 0, 1, 1, 0, 1, 1]),
        (&[1], &[0, 1, 1], &[0, 1, 1]),
    ] {
        assert_eq!(lay(S, T_PRIME, partial).as_deref(), Ok(of_t_prime));
        assert_eq!(lay(S, T, partial).as_deref(), Ok(of_t));
        assert_eq!(lay(S, CONSTANT, partial).as_deref(), Ok(&[1][..]));
    }
    // a variable, and a(x1, x2), for which M lays d(q(x1), d(q(x1), e))
    for (partial, of_m, of_clean_m) in [
        (&[2][..], &[2][..], &[0, 0, 2, 2, 0, 2, 1][..]),
        (&[0, 2, 2], &[0, 2, 0, 2, 1], &[0, 0, 0, 2, 2, 0, 2, 1, 0, 0, 0, 2, 2, 0, 2, 1, 1]),
    ] {
        assert_eq!(lay(STOCK_OF_M, &m(), partial).as_deref(), Ok(of_m));
        assert_eq!(lay(STOCK_OF_M, &clean_m(), partial).as_deref(), Ok(of_clean_m));
    }
    // no call is on a second child, so that a variable there is not met
    let whole = translate(STOCK_OF_M, &m(), &[0, 1, 1]);
    assert_eq!(lay(STOCK_OF_M, &m(), &[0, 1, 2]), whole);
    assert_eq!(lay(STOCK_OF_M, &clean_m(), &[0, 1, 2]), whole);
}

#[test]
fn refusals() {
    let lay = |stock: &[u8], file: &[u8], partial: &[u8]| lay(stock, file, partial, 7);
    let (bad_stock, bad_count, bad_term): (&[u8], &[u8], &[u8]) = (&[1, 1, 1, 0], &[1, 0, 3], &[0, 0, 1, 1, 0]);
    // nothing; a symbol without its child; a byte past that of a variable; two trees
    let no_trees: [&[u8]; 8] = [&[], &[0], &[3], &[0, 3], &[255], &[2, 2], &[0, 2, 2], &[1, 2]];
    for partial in no_trees {
        assert_eq!(lay(bad_stock, bad_count, partial), Err(2));
        assert_eq!(lay(S, bad_count, partial), Err(4));
        assert_eq!(lay(S, bad_term, partial), Err(5));
        assert_eq!(lay(S, T, partial), Err(3));
    }
    assert_eq!(lay(S, T, &[0, 2]).map(|laid| laid.len()), Ok(7));
    assert_eq!(lay(S, T, &[0, 0, 2]), Err(6));
    // 512 levels, a variable being one
    let chain = |levels: usize| [vec![0; levels - 1], vec![2]].concat();
    assert_eq!(lay(S, CONSTANT, &chain(512)).as_deref(), Ok(&[1][..]));
    assert_eq!(lay(S, CONSTANT, &chain(513)), Err(3));
    assert_eq!(lay(S, T, &chain(512)), Err(6));
}

/// Alphabets, a transducer and an input tree: any ones, with the alphabets of [`with_room`], or with an output tree of
/// many levels.
fn any_with_tree(random: &mut Random) -> (Alphabets, Transducer, Vec<u8>) {
    let (alphabets, sheet) = match random.below(4) {
        0 => return deep::any(random),
        1 => {
            let alphabets = with_room(random);
            let sheet = Transducer::random(random, &alphabets);
            (alphabets, sheet)
        }
        _ => any(random),
    };
    let tree = input_tree(random, &alphabets);
    (alphabets, sheet, tree)
}

/// Looks whether the translation of the wider transducer is what is laid for these, each a partial tree or not.
fn translation_lays(tally: &mut Tally, alphabets: &Alphabets, sheet: &Transducer, partials: &[Vec<u8>]) {
    let (wide_alphabets, wide) = wider(alphabets, sheet);
    let [stock, wide_stock] = [alphabets, &wide_alphabets].map(Alphabets::file);
    let [file, wide_file] = [sheet, &wide].map(Transducer::file);
    for partial in partials {
        let expected = lay(&stock, &file, partial, LONGEST).and_then(|laid| {
            let fits = levels(&wide_alphabets.outputs, &laid) <= MAX_OUTPUT_LEVELS;
            fits.then_some(laid).ok_or(independent::OUTPUT_TOO_DEEP)
        });
        let written = translate(&wide_stock, &wide_file, partial);
        assert_eq!(written, expected, "{stock:?} {file:?} {partial:?}");
        tally.count("translate", &written, "accepted");
        if written.is_ok() {
            count_variables(tally, alphabets.inputs.len() as u8, partial);
        }
    }
}

#[test]
fn translation_of_the_wider_one() {
    let mut tally = Tally::default();
    let (mut most_inputs, mut most_outputs) = (0, 0);
    for seed in 0..5_000 {
        let mut random = Random::new(seed + 91_000_000);
        let (alphabets, sheet, grown) = any_with_tree(&mut random);
        let (inputs, outputs) = (alphabets.inputs.len(), alphabets.outputs.len());
        if inputs > 15 || outputs > 63 || !wider(&alphabets, &sheet).1.fits() {
            continue;
        }
        most_inputs += usize::from(inputs == 15);
        most_outputs += usize::from(outputs == 63);
        let mut partials = small_trees(&with_leaf(&alphabets.inputs), 8);
        for tree in [grown, input_tree(&mut random, &alphabets), input_tree(&mut random, &alphabets)] {
            partials.push(blanked(&mut random, &alphabets.inputs, &tree));
        }
        let mut damaged = partials.last().expect("there are some").clone();
        damage(&mut random, &mut damaged);
        partials.push(damaged);
        translation_lays(&mut tally, &alphabets, &sheet, &partials);
    }
    println!("{most_inputs} with 15 input symbols, {most_outputs} with 63 output symbols");
    assert!(most_inputs > 200 && most_outputs > 200);
    let outcomes = ["accepted", "refused 3", "refused 5", "refused 6", "refused 10"];
    let wanted = VARIABLES.into_iter().chain(outcomes.map(|outcome| ("translate", outcome)));
    tally.settle(&wanted.collect::<Vec<_>>(), 100);
    assert!(tally.0[&("translate", "accepted".to_string())] > 20_000);
}

/// With the longest file that a transducer has.
#[test]
fn translation_of_the_longest() {
    let mut tally = Tally::default();
    let mut random = Random::new(92_000_000);
    let (alphabets, sheet) = longest();
    assert_eq!(wider(&alphabets, &sheet).1.file().len(), MAX_FILE);
    let mut partials = small_trees(&with_leaf(&alphabets.inputs), 50);
    for nodes in 1..=70 {
        let tree = tree(&mut random, &alphabets.inputs, nodes, nodes, Growth::Even(16));
        partials.push(blanked(&mut random, &alphabets.inputs, &tree));
    }
    translation_lays(&mut tally, &alphabets, &sheet, &partials);
    let outcomes = [("translate", "accepted"), ("translate", "refused 10"), VARIABLES[0], VARIABLES[1], VARIABLES[3]];
    tally.settle(&outcomes, 1);
}

/// Looks whether what each of these equivalent transducers lays is within what their normal form lays, if one of them
/// is within the limits of the earliest form.
fn nothing_is_earlier(tally: &mut Tally, alphabets: &Alphabets, sheets: &[Vec<u8>], partials: &[Vec<u8>]) {
    let stock = alphabets.file();
    let (variable, call) = (alphabets.inputs.len() as u8, alphabets.outputs.len() as u8);
    let ranks = with_leaf(&alphabets.outputs);
    let forms: Vec<Result<Vec<u8>, u32>> = sheets.iter().map(|file| clean(&stock, file)).collect();
    let Some(form) = forms.iter().find_map(|form| form.as_ref().ok()) else { return };
    assert!(forms.iter().all(|other| other.as_ref().map_or_else(|&number| number == 7, |other| other == form)));
    for partial in partials {
        let laid = lay(&stock, form, partial, LONGEST);
        let more = laid.as_ref().map(|laid| nodes(&ranks, laid));
        for (file, cleaned) in sheets.iter().zip(&forms) {
            let other = lay(&stock, file, partial, LONGEST);
            let Ok(more) = &more else {
                assert_eq!(laid, Err(6), "{stock:?} {form:?} {partial:?}");
                tally.count("laid", &Ok(()), "too long");
                continue;
            };
            // one that lays no more is not longer
            let less = nodes(&ranks, &other.expect("it is not too long"));
            assert!(is_within(call, &less, more), "{stock:?} {file:?} {form:?} {partial:?}");
            let outcome = if less == *more { "the same" } else { "less" };
            tally.count("laid", &Ok(()), outcome);
            tally.count(if cleaned.is_ok() { "by one accepted" } else { "by one refused" }, &Ok(()), outcome);
            count_variables(tally, variable, partial);
        }
    }
}

/// The outcomes of [`nothing_is_earlier`].
const OUTCOMES: [(&str, &str); 10] = [
    ("laid", "less"),
    ("laid", "the same"),
    ("by one accepted", "less"),
    ("by one accepted", "the same"),
    ("by one refused", "less"),
    ("by one refused", "the same"),
    VARIABLES[0],
    VARIABLES[1],
    VARIABLES[2],
    VARIABLES[3],
];

/// Transducers of all sizes, changed in ways that keep them equivalent, and with as many copies of their states as
/// there is room for.
#[test]
fn nothing_is_earlier_than_the_normal_form() {
    let mut tally = Tally::default();
    for seed in 0..1_500 {
        let mut random = Random::new(seed + 93_000_000);
        // with long prefixes, copies of states are soon over the limits of the earliest form
        let (alphabets, sheet) = if seed % 2 == 0 { prefixed(&mut random) } else { any(&mut random) };
        // it is a transducer, be it over the limits of the earliest form or not
        if !matches!(clean(&alphabets.file(), &sheet.file()), Ok(_) | Err(7)) {
            continue;
        }
        let mut sheets = sheet.changed(&mut random, &alphabets);
        // with trees delayed, prefixes have more calls
        let delayed = sheet.alike(&mut random, &alphabets, 4);
        for sheet in [sheet, delayed] {
            sheets.push(sheet.multiplied(&mut random, 128 / sheet.states.max(1)));
            sheets.push(sheet);
        }
        let files: Vec<_> = sheets.iter().filter(|sheet| sheet.fits()).map(Transducer::file).collect();
        let mut partials = small_trees(&with_leaf(&alphabets.inputs), 12);
        for _ in 0..6 {
            let nodes = random.range(2, 40);
            let tree = tree(&mut random, &alphabets.inputs, nodes, 30, Growth::Even(13));
            partials.push(blanked(&mut random, &alphabets.inputs, &tree));
        }
        nothing_is_earlier(&mut tally, &alphabets, &files, &partials);
    }
    tally.settle(&[&OUTCOMES[..], &[("laid", "too long")]].concat(), 1_000);
    assert!(tally.0[&("laid", "less".to_string())] + tally.0[&("laid", "the same".to_string())] > 20_000);
}

/// The rings of all sizes, of which those of over 64 states are over the limits of the earliest form; T and T'.
#[test]
fn nothing_is_earlier_than_t() {
    let mut tally = Tally::default();
    let alphabets = Alphabets { inputs: vec![1, 0], outputs: vec![2, 0] };
    let rings = (1..=128).map(ring);
    let sheets: Vec<_> = rings.chain([T.to_vec(), T_PRIME.to_vec(), unreached_pairs(), long_side(0)]).collect();
    // up to 8 levels, so that nothing that is laid is too long
    let partials = trees(&with_leaf(&alphabets.inputs), 8, 100).expect("there are two of each number of levels");
    nothing_is_earlier(&mut tally, &alphabets, &sheets, &partials);
    let wanted: Vec<_> = OUTCOMES.into_iter().filter(|outcome| *outcome != VARIABLES[2]).collect();
    tally.settle(&wanted, 1);
    // with a variable T alone lays as much as the normal form, which it is
    assert_eq!(tally.0[&("laid", "less".to_string())], 8 * (sheets.len() - 1));
}

/// What the normal form lays stands in the output tree of every filling, and at each call that stays there two
/// fillings have different symbols. Two symbols that a state has at the root of its outputs are given by trees with a
/// level for each call at the root of a right-hand side, where no state is called twice, and one for leaves: so all
/// trees of a level more than the normal form has states are enough.
#[test]
fn neither_more_nor_less() {
    let mut tally = Tally::default();
    let [mut fillings, mut calls] = [0; 2];
    for seed in 0..3_000 {
        let mut random = Random::new(seed + 94_000_000);
        let alphabets = small_alphabets(&mut random);
        let steps = random.below(4);
        let sheet = small_transducer(&mut random, &alphabets, 3, 6).alike(&mut random, &alphabets, steps);
        let (stock, file) = (alphabets.file(), sheet.file());
        let Ok(form) = clean(&stock, &file) else { continue };
        let Some(small) = trees(&alphabets.inputs, usize::from(form[0]) + 1, 40) else { continue };
        let (variable, call) = (alphabets.inputs.len() as u8, alphabets.outputs.len() as u8);
        tally.count("states", &Ok(()), ["none", "one", "two", "more"][usize::from(form[0]).min(3)]);
        let mut partials = small_trees(&with_leaf(&alphabets.inputs), 15);
        for nodes in [6, 12] {
            let tree = tree(&mut random, &alphabets.inputs, nodes, 6, Growth::Even(13));
            partials.push(blanked(&mut random, &alphabets.inputs, &tree));
        }
        for partial in &partials {
            let filled_in = small.iter().map(|tree| filled(partial, variable, || tree));
            let mixed = filled(partial, variable, || &small[random.below(small.len())]);
            let outputs: Result<Vec<_>, u32> =
                filled_in.chain([mixed]).map(|tree| translate(&stock, &file, &tree)).collect();
            tally.count("all fillings", &outputs, "translated");
            let Ok(outputs) = outputs else { continue };
            let outputs: Vec<_> = outputs.iter().map(|output| nodes(&alphabets.outputs, output)).collect();
            let laid = lay(&stock, &form, partial, LONGEST).expect("no output tree is too long");
            let laid = nodes(&with_leaf(&alphabets.outputs), &laid);
            assert!(outputs.iter().all(|output| is_within(call, &laid, output)), "{stock:?} {form:?} {partial:?}");
            for (address, _) in laid.iter().filter(|&(_, &symbol)| symbol == call) {
                let symbols: BTreeSet<u8> = outputs.iter().map(|output| output[address]).collect();
                assert!(symbols.len() > 1, "{stock:?} {form:?} {partial:?} {address:?}");
                calls += 1;
            }
            fillings += outputs.len();
            count_variables(&mut tally, variable, partial);
        }
    }
    println!("{fillings} fillings, {calls} calls that stay");
    assert!(fillings > 200_000 && calls > 20_000);
    let states = ["none", "one", "two", "more"].map(|outcome| ("states", outcome));
    let outcomes = ["translated", "refused 6"].map(|outcome| ("all fillings", outcome));
    tally.settle(&[&VARIABLES[..], &states, &outcomes].concat(), 50);
}

/// Without variables what is laid is the output tree, or the refusal is the same.
#[test]
fn without_variables() {
    let mut tally = Tally::default();
    for seed in 0..10_000 {
        let mut random = Random::new(seed + 95_000_000);
        let (alphabets, sheet, mut tree) = any_with_tree(&mut random);
        let (mut stock, mut file) = (alphabets.file(), sheet.file());
        match random.below(8) {
            0 => damage(&mut random, &mut stock),
            1 => damage(&mut random, &mut file),
            2 => damage(&mut random, &mut tree),
            _ => {}
        }
        if stock.first().is_some_and(|variable| tree.contains(variable)) {
            continue;
        }
        let laid = lay(&stock, &file, &tree, LONGEST);
        let output = match translate(&stock, &file, &tree) {
            // what is laid may have any number of levels
            Err(10) => independent::output_tree(&stock, &file, &tree, LONGEST),
            output => output,
        };
        assert_eq!(laid, output, "{stock:?} {file:?} {tree:?}");
        tally.count("laid", &laid, "output tree");
    }
    let outcomes = ["output tree", "refused 2", "refused 3", "refused 4", "refused 5", "refused 6"];
    tally.settle(&outcomes.map(|outcome| ("laid", outcome)), 100);
}
