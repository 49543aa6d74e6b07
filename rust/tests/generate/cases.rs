//! One case for every function: files that belong together, areas and a registry, all of it valid, or some of it
//! damaged, cut, empty, of another kind or random bytes.
use super::alike::{self, chain, chain_alphabets, small_alphabets, small_transducer};
use super::deep;
use super::joins::{self, Pair};
use super::memory::Memory;
use super::rows::{row_alphabets, Row};
use super::samples::*;
use super::{Alphabets, Growth, Random, Transducer};
use caplune::slices::{ADDRESS_AREA, CODES_AREA, LONGEST_XML, RECORDS, TREE_AREA};
use caplune_independent as independent;
use std::sync::OnceLock;

/// What is lent to the functions.
#[derive(Clone, Debug, PartialEq)]
pub struct Case {
    pub stock: Vec<u8>,
    pub first: Vec<u8>,
    /// Over the same stock, and often equivalent to the first.
    pub second: Vec<u8>,
    pub tree: Vec<u8>,
    pub address: Vec<u8>,
    /// The stock of the third, which is to run on the output of the first.
    pub second_stock: Vec<u8>,
    pub third: Vec<u8>,
    /// The parts of a transducer that is written.
    pub states: usize,
    pub counts: Vec<u8>,
    pub marks: Vec<u8>,
    /// The lengths of the areas for a file: that is written, of the earliest form, the normal form and the composition.
    pub file_areas: [usize; 4],
    /// The length of the area for the output tree.
    pub output_area: usize,
    /// The lengths of the areas for the input tree and the address of a difference.
    pub shown_areas: [usize; 2],
    /// The length of the area for the codes.
    pub codes_area: usize,
    /// An output tree that is written as XML, and the text of one that is read.
    pub output: Vec<u8>,
    pub xml: Vec<u8>,
    /// The lengths of the areas for the text and for the output tree that is read.
    pub xml_areas: [usize; 2],
    pub registry: Memory,
    /// The transducer that is entered.
    pub entered: Vec<u8>,
    /// The number whose body is asked for.
    pub number: usize,
    /// The length of the area for the normal form that a question writes.
    pub question_area: usize,
    /// The number that a commit claims.
    pub claim: usize,
}

impl Case {
    pub fn of_seed(seed: u64) -> Self {
        let mut random = Random::new(seed);
        let mut case = Case::valid(&mut random);
        let (alphabets, _) = parsed(&case.stock, &case.first);
        let faults = match random.below(8) {
            0..=3 => 0,
            4 | 5 => 1,
            6 => 2,
            _ => random.range(2, 5),
        };
        (0..faults).for_each(|_| case.spoil(&mut random));
        if random.once_in(5) {
            case.registry.damage(&mut random);
        }
        case.codes_area = shown_area(&mut random, CODES_AREA);
        case.add_xml(&mut random, &alphabets);
        case.question_area = file_area(&mut random);
        case.claim = case.claim(&mut random);
        case
    }

    /// The number that an entry gets, most often, or another one.
    fn claim(&self, random: &mut Random) -> usize {
        let right = self.registry.clone().enter(&self.entered).unwrap_or(1);
        match random.below(8) {
            0 => random.pick(&[right - 1, right + 1]),
            1 => random.range(0, RECORDS + 1),
            2 => right.wrapping_add(1 << random.range(6, 63)),
            3 => random.pick(&[0, 32, 33, usize::MAX]),
            _ => right,
        }
    }

    /// An output tree over these alphabets and the text of one, most often of the same, with areas for the results;
    /// some of it damaged.
    fn add_xml(&mut self, random: &mut Random, alphabets: &Alphabets) {
        let stock = alphabets.file();
        let mut text = vec![0; LONGEST_XML];
        let mut trees = [output_tree(random, &alphabets.outputs), output_tree(random, &alphabets.outputs)];
        if !random.once_in(4) {
            trees[1] = trees[0].clone();
        }
        let lengths = [0, 1].map(|which| independent::write_xml(&stock, &trees[which], &mut text).unwrap_or(5));
        text.truncate(lengths[1]);
        self.xml_areas = [output_area(random, lengths[0]), output_area(random, trees[1].len().max(1))];
        self.output = std::mem::take(&mut trees[0]);
        self.xml = text;
        match random.below(6) {
            0 => super::damage(random, &mut self.output),
            1 => super::damage(random, &mut self.xml),
            2 => damage_tags(random, &mut self.xml),
            _ => {}
        }
    }

    /// Files as they should be, or hardly over the limits. Areas may be too short, but that for the codes is not. There
    /// is no output tree and no text yet.
    fn valid(random: &mut Random) -> Self {
        let (pair, deep) = if random.once_in(12) { deep_pair(random) } else { (pair(random), None) };
        let Pair { stocks: [stock, second_stock], files: [mut first, third] } = pair;
        let (alphabets, sheet) = parsed(&stock, &first);
        let mut second = sheet.as_ref().map_or(first.clone(), |sheet| companion(random, &alphabets, sheet).file());
        if random.once_in(2) {
            std::mem::swap(&mut first, &mut second);
        }
        let tree = deep.unwrap_or_else(|| super::input_tree(random, &alphabets));
        let limit = random.pick(&[50, 500, 500, 5_000, 50_000]);
        let output = independent::output_tree(&stock, &first, &tree, limit).ok();
        let (registry, entered) = registry(random, &stock, [&first, &second]);
        let parts = sheet.unwrap_or(Transducer { states: 1, terms: vec![vec![1, 0]] });
        Case {
            address: super::address(random, output.as_deref(), &alphabets.outputs),
            states: parts.states,
            counts: parts.counts(),
            marks: parts.marks(),
            file_areas: std::array::from_fn(|_| file_area(random)),
            output_area: output_area(random, output.map_or(limit, |output| output.len())),
            shown_areas: [TREE_AREA, ADDRESS_AREA].map(|least| shown_area(random, least)),
            codes_area: CODES_AREA,
            output: vec![],
            xml: vec![],
            xml_areas: [0; 2],
            number: body_number(random, registry.head.held),
            question_area: independent::MAX_FILE,
            claim: 1,
            stock,
            first,
            second,
            tree,
            second_stock,
            third,
            registry,
            entered,
        }
    }

    fn files(&mut self) -> [&mut Vec<u8>; 10] {
        let Case { stock, first, second, tree, address, second_stock, third, counts, marks, entered, .. } = self;
        [stock, first, second, tree, address, second_stock, third, counts, marks, entered]
    }

    /// Damages one of the files, or replaces it.
    fn spoil(&mut self, random: &mut Random) {
        if random.once_in(16) {
            self.states = random.pick(&[0, 1, 2, 127, 128, 129, 255, 256, 257, 1 << 62, 1 << 63, usize::MAX]);
            return;
        }
        let files = self.files();
        let (which, other) = (random.below(files.len()), random.below(files.len()));
        let of_another_kind = files[other].clone();
        let file = &mut *files[which];
        match random.below(12) {
            0 => file.truncate(random.below(file.len() + 1)),
            1 => *file = random_bytes(random),
            2 => *file = of_another_kind,
            3 => file.clear(),
            4 | 5 => wrong_mark(random, file),
            6 => wrong_count(random, file),
            _ => super::damage(random, file),
        }
    }
}

/// The alphabets of a stock that is one, and the transducer of the file if it is one.
pub fn parsed(stock: &[u8], file: &[u8]) -> (Alphabets, Option<Transducer>) {
    let read = independent::read_alphabets(stock).expect("the generators make stocks");
    let alphabets = Alphabets { inputs: read.inputs.to_vec(), outputs: read.outputs.to_vec() };
    let sheet = independent::read_transducer(stock, file).ok().map(|read| {
        let mut marks = read.marks;
        let mut term = |count: &[u8]| {
            let (term, behind) = marks.split_at(2 * usize::from(u16::from_be_bytes([count[0], count[1]])));
            marks = behind;
            term.to_vec()
        };
        Transducer { states: read.states, terms: read.counts.chunks(2).map(&mut term).collect() }
    });
    (alphabets, sheet)
}

/// Two transducers, most often such that the second runs on the output of the first.
fn pair(random: &mut Random) -> Pair {
    match random.below(40) {
        0 => {
            let limits = join_limits();
            limits[random.below(limits.len())].clone()
        }
        1 => {
            let limits = earliest_limits();
            let (stock, file) = limits[random.below(limits.len())].clone();
            let (alphabets, _) = parsed(&stock, &file);
            let (after, third) = after(random, &alphabets);
            Pair { stocks: [stock, after.file()], files: [file, third.file()] }
        }
        2 => {
            let alphabets = row_alphabets(random.range(1, 4) as u8);
            let sheet = row(random, &alphabets);
            let after = after(random, &alphabets);
            Pair::of(&(alphabets, sheet), &after)
        }
        3..=20 => {
            let two = joins::any(random, 2);
            Pair::of(&two[0], &two[1])
        }
        _ => {
            let first = alike::any(random);
            let after = after(random, &first.0);
            Pair::of(&first, &after)
        }
    }
}

/// Two transducers, with an input tree on which the output tree of the first has many levels.
fn deep_pair(random: &mut Random) -> (Pair, Option<Vec<u8>>) {
    let (alphabets, sheet, tree) = deep::any(random);
    let after = after(random, &alphabets);
    (Pair::of(&(alphabets, sheet), &after), Some(tree))
}

fn join_limits() -> &'static [Pair] {
    static LIMITS: OnceLock<Vec<Pair>> = OnceLock::new();
    LIMITS.get_or_init(|| joins::limits().into_iter().map(|(_, pair, _)| pair).collect())
}

/// Stocks and transducers at the limits of the earliest form, and past them.
fn earliest_limits() -> &'static [(Vec<u8>, Vec<u8>)] {
    static LIMITS: OnceLock<Vec<(Vec<u8>, Vec<u8>)>> = OnceLock::new();
    LIMITS.get_or_init(|| {
        let over_s =
            [ring(64), ring(65), many_calls(16), many_calls(17), long_side(0), long_side(1), unreached_pairs()];
        let mut limits: Vec<_> = over_s.into_iter().map(|file| (S.to_vec(), file)).collect();
        for initial in [&[1, 0][..], &[0, 2, 1, 0], &[0, 0, 1, 0, 0, 1]] {
            limits.push((stock_of_many_marks(), many_marks(initial)));
        }
        limits.push((chain_alphabets().file(), chain(128, 61, 2).file()));
        limits
    })
}

/// An output tree over these symbols, or hardly over the limit; some bytes where there is none.
fn output_tree(random: &mut Random, outputs: &[u8]) -> Vec<u8> {
    if !outputs.contains(&0) {
        return (0..random.below(6)).map(|_| random.below(outputs.len()) as u8).collect();
    }
    let growth = random.pick(&[Growth::Left, Growth::Right, Growth::Even(16), Growth::Even(12), Growth::Even(8)]);
    let nodes = random.pick(&[1, 5, 20, 60, 60, 300, 4_096, 4_100]);
    super::tree(random, outputs, nodes, nodes, growth)
}

/// Doubles, drops or swaps tags, or gives one another code.
fn damage_tags(random: &mut Random, text: &mut Vec<u8>) {
    let mut tags: Vec<Vec<u8>> = text.split_inclusive(|&byte| byte == b'>').map(<[u8]>::to_vec).collect();
    let (at, other) = (random.below(tags.len()), random.below(tags.len()));
    match random.below(5) {
        0 => tags.insert(at, tags[other].clone()),
        1 => drop(tags.remove(at)),
        2 => tags.swap(at, other),
        3 => tags[at] = tags[other].clone(),
        _ => tags.insert(at, random.pick(&[&b" "[..], b"\n", b"<A1/>", b"<A1></A1>", b"<A1>", b"</A1>"]).to_vec()),
    }
    *text = tags.concat();
}

/// A row of states, which tells its marks: two of them differ late.
fn row(random: &mut Random, alphabets: &Alphabets) -> Transducer {
    let most = random.pick(&[3, 12, 40]);
    let child = random.range(1, usize::from(alphabets.inputs[0])) as u8;
    Row::random(random, most).telling(child, 1)
}

/// A transducer that runs on the output of one over these alphabets, or at times not.
fn after(random: &mut Random, first: &Alphabets) -> (Alphabets, Transducer) {
    let fits = first.outputs.len() <= independent::MAX_INPUTS && first.outputs.contains(&0);
    if !fits || random.once_in(12) {
        let alphabets = Alphabets::random(random);
        let sheet = Transducer::random(random, &alphabets);
        return (alphabets, sheet);
    }
    let inputs = first.outputs.clone();
    if random.once_in(4) {
        let sheet = joins::identity(&inputs);
        return (Alphabets { outputs: inputs.clone(), inputs }, sheet);
    }
    let alphabets = Alphabets { inputs, outputs: small_alphabets(random).outputs };
    let (states, most) = (random.pick(&[1, 2, 5]), random.pick(&[2, 3, 5, 9]));
    let sheet = small_transducer(random, &alphabets, states, most);
    (alphabets, sheet)
}

/// A second transducer over the same alphabets: an equivalent one, one that differs in a mark, or another one.
fn companion(random: &mut Random, alphabets: &Alphabets, first: &Transducer) -> Transducer {
    let in_a_row = alphabets.inputs.len() == 2 && alphabets.inputs[0] > 0 && alphabets.outputs == [1, 0, 0];
    let steps = random.pick(&[0, 1, 4, 15]);
    match random.below(8) {
        _ if in_a_row && random.once_in(3) => row(random, alphabets),
        0 => Transducer::random(random, alphabets),
        1..=3 => {
            let changed = first.with_one_mark_changed(random, alphabets);
            changed.unwrap_or_else(|| first.clone()).alike(random, alphabets, steps)
        }
        _ => first.alike(random, alphabets, steps),
    }
}

/// A registry of the stock with some of the two files in it, or what is none; and a file to enter.
fn registry(random: &mut Random, stock: &[u8], files: [&Vec<u8>; 2]) -> (Memory, Vec<u8>) {
    if random.once_in(30) {
        return (full_registry().clone(), chain(random.range(1, 40), 1, 2).file());
    }
    let size = match random.below(8) {
        0 => random.below(2 * stock.len()),
        1 => random.range(stock.len(), stock.len() + 300),
        7 => 21_000,
        _ => random.pick(&[2_000, 5_000]),
    };
    let mut memory = Memory::new(random.pick(&[RECORDS, RECORDS, RECORDS, RECORDS + 1, 40]), size);
    let entered = files[random.below(2)].clone();
    if random.once_in(20) || memory.make(stock).is_err() {
        return (memory, entered);
    }
    for _ in 0..random.below(3) {
        // what is refused is not in it
        let _ = memory.enter(files[random.below(2)]);
    }
    // as other entries would have left it
    match random.below(8) {
        0 => memory.move_counts(random),
        1 => memory.raise_counts(random),
        _ => {}
    }
    if random.once_in(3) {
        // as long as it is used, as the form that is entered needs, or one byte less
        let form = independent::clean(stock, &entered).map_or(0, |form| form.len());
        let exact = memory.head.used + random.pick(&[0, form, form, form.saturating_sub(1)]);
        memory.size = exact.min(memory.size);
    }
    (memory, entered)
}

/// A registry with 32 transducers in it.
fn full_registry() -> &'static Memory {
    static FULL: OnceLock<Memory> = OnceLock::new();
    FULL.get_or_init(|| {
        let mut memory = Memory::new(RECORDS, 20_000);
        memory.make(&chain_alphabets().file()).expect("there is room");
        for states in 1..=independent::MAX_HELD {
            assert_eq!(memory.enter(&chain(states, 1, 2).file()), Ok(states));
        }
        memory
    })
}

fn file_area(random: &mut Random) -> usize {
    match random.below(16) {
        0 => 0,
        1 => 65_536,
        2..=9 => independent::MAX_FILE,
        _ => super::area(random),
    }
}

/// The length of an area for an output of this length.
fn output_area(random: &mut Random, length: usize) -> usize {
    match random.below(6) {
        0 | 1 => length,
        2 => length - 1,
        3 => random.below(length),
        _ => length + random.below(40),
    }
}

/// The length of an area of which so many bytes are asked: most often as many.
fn shown_area(random: &mut Random, least: usize) -> usize {
    match random.below(16) {
        0 => least - 1,
        1 => random.below(least),
        2 => random.range(least, least + 500),
        3 => 65_536,
        _ => least,
    }
}

fn body_number(random: &mut Random, held: usize) -> usize {
    match random.below(6) {
        0 => 0,
        1 => random.range(30, 40),
        2 => random.pick(&[255, 256, 1 << 32, 1 << 63, usize::MAX]),
        _ => random.range(1, held.clamp(1, 33) + 1),
    }
}

fn random_bytes(random: &mut Random) -> Vec<u8> {
    let length = random.pick(&[1, 3, 6, 20, 100, 300]);
    let small = random.once_in(2);
    (0..length).map(|_| if small { random.below(5) as u8 } else { random.byte() }).collect()
}

/// Changes a mark near the end of a transducer's file to one that may be unknown or of another rank.
fn wrong_mark(random: &mut Random, file: &mut [u8]) {
    let marks = (file.len() / 2).min(40);
    if marks > 0 {
        let at = file.len() - 2 * random.range(1, marks);
        file[at] = random.below(6) as u8;
        file[at + 1] = random.pick(&[0, 1, 2, 63, 64, 127, 128, 255]);
    }
}

/// Changes a count near the start of a transducer's file.
fn wrong_count(random: &mut Random, file: &mut [u8]) {
    let counts = (file.len().saturating_sub(1) / 2).min(8);
    if counts > 0 {
        let at = 1 + 2 * random.below(counts);
        let count = random.pick(&[0, 1, 2, 63, 64, 65, 256, 257, 65_535u16]);
        file[at..at + 2].copy_from_slice(&count.to_be_bytes());
    }
}
