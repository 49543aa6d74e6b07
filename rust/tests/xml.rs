//! Output trees as XML: the library against the independent version on trees and texts, valid ones and damaged ones, on
//! all short texts, at the limits, and against an XML parser that is not ours. Each conversion undoes the other, and
//! every lent byte is looked at. `cargo test --release --offline --test xml -- --nocapture` prints how often each
//! outcome occurred.
mod folder;
mod generate;
mod lent;

use caplune::slices::{self, LONGEST_XML, MOST_XML_SYMBOLS};
use caplune::{ffi, Alphabets, InputTree, OutputTree, Refusal, Transducer};
use caplune_independent as independent;
use folder::Folder;
use generate::samples::{S, T};
use generate::{Growth, Random};
use lent::{number, Lent, Tally, BEFORE};
use std::collections::HashSet;
use std::path::Path;

/// A function that writes its result to the start of an area, and answers its length.
type Convert<E> = fn(&[u8], &[u8], &mut [u8]) -> Result<usize, E>;

/// Writing or reading, by the C function, its wrapper and the independent version.
struct Conversion {
    name: &'static str,
    library: fn(&[u8], &[u8], &mut [u8], &mut usize) -> u32,
    wrapper: Convert<Refusal>,
    independent: Convert<u32>,
    /// The longest result.
    longest: usize,
}

const WRITE: Conversion = Conversion {
    name: "write_xml",
    library: ffi::write_xml,
    wrapper: slices::write_xml,
    independent: independent::write_xml,
    longest: LONGEST_XML,
};
const READ: Conversion = Conversion {
    name: "read_xml",
    library: ffi::read_xml,
    wrapper: slices::read_xml,
    independent: independent::read_xml,
    longest: MOST_XML_SYMBOLS,
};

impl Conversion {
    /// What all of them give in an area of this length, of which every byte is looked at.
    fn run(&self, stock: &[u8], from: &[u8], length: usize) -> Result<Vec<u8>, u32> {
        let [mut lent, mut wrapped, mut other] = std::array::from_fn(|_| Lent::new(length));
        let (lent_stock, lent_from) = (stock.to_vec(), from.to_vec());
        let expected = (self.independent)(stock, from, other.area());
        let mut told = BEFORE[0];
        let refused = (self.library)(&lent_stock, &lent_from, lent.area(), &mut told);
        let answer = if refused == 0 { Ok(told) } else { Err(refused) };
        let case = || format!("{} of {:?} under {stock:?} into {length}", self.name, from.escape_ascii().to_string());
        assert_eq!(answer, expected, "{}", case());
        assert_eq!(number((self.wrapper)(stock, from, wrapped.area())), expected, "{}", case());
        assert!(refused == 0 || told == BEFORE[0], "{}: the refusal tells {told}", case());
        assert!(lent_stock == stock && lent_from == from, "{}: what was lent for reading", case());
        let written = other.area()[..expected.unwrap_or(0)].to_vec();
        for area in [&lent, &wrapped, &other] {
            assert!(area.holds(&written), "{}: not {written:?} and around it what stood there", case());
        }
        expected.map(|_| written)
    }

    /// What they give in areas that are long enough, and, where that is no refusal, in shorter ones.
    fn in_areas(&self, random: &mut Random, tally: &mut Tally, stock: &[u8], from: &[u8]) -> Result<Vec<u8>, u32> {
        let result = self.run(stock, from, self.longest);
        let needed = result.as_ref().map_or(0, Vec::len);
        for length in
            [needed, needed + 1, needed + random.below(40), needed.saturating_sub(1), random.below(needed + 1), 0]
        {
            let expected = if length < needed { Err(12) } else { result.clone() };
            let given = self.run(stock, from, length);
            assert_eq!(given, expected, "{} into {length} of {needed}", self.name);
            tally.count(self.name, &given, "accepted");
        }
        result
    }
}

/// All outcomes that there are.
const OUTCOMES: [(&str, &str); 8] = [
    ("write_xml", "accepted"),
    ("write_xml", "refused 2"),
    ("write_xml", "refused 11"),
    ("write_xml", "refused 12"),
    ("read_xml", "accepted"),
    ("read_xml", "refused 2"),
    ("read_xml", "refused 11"),
    ("read_xml", "refused 12"),
];

/// The stock of some output symbols, with one input symbol.
fn stock_of(outputs: &[u8]) -> Vec<u8> {
    [&[1, 0, outputs.len() as u8], outputs].concat()
}

fn code(symbol: u8) -> String {
    format!("{}{}", char::from(b'A' + symbol / 8), symbol % 8 + 1)
}

/// The text of an output tree by the words of document 02, for few levels.
fn text_of(ranks: &[u8], symbols: &mut impl Iterator<Item = u8>) -> String {
    let symbol = symbols.next().expect("the tree is whole");
    let within: String = (0..ranks[usize::from(symbol)]).map(|_| text_of(ranks, symbols)).collect();
    let code = code(symbol);
    if within.is_empty() {
        format!("<{code}/>")
    } else {
        format!("<{code}>{within}</{code}>")
    }
}

/// g over g over ... over e, of so many levels, where g is symbol 0 and e symbol 1; and its text.
fn chain(levels: usize) -> (Vec<u8>, Vec<u8>) {
    let [above, starts, ends] = [vec![0; levels - 1], b"<A1>".repeat(levels - 1), b"</A1>".repeat(levels - 1)];
    ([&above[..], &[1]].concat(), [&starts[..], b"<A2/>", &ends].concat())
}

/// f over f ... over e, the f of rank 2 one below the other, on the left or on the right; f is symbol 0 and e symbol 1.
fn comb(forks: usize, left: bool) -> (Vec<u8>, Vec<u8>) {
    let part = |piece: &[u8]| piece.repeat(forks);
    match left {
        true => (
            [&part(&[0])[..], &[1], &part(&[1])].concat(),
            [&part(b"<A1>")[..], b"<A2/>", &part(b"<A2/></A1>")].concat(),
        ),
        false => ([&part(&[0, 1])[..], &[1]].concat(), [&part(b"<A1><A2/>")[..], b"<A2/>", &part(b"</A1>")].concat()),
    }
}

/// A tree over these output symbols, most often a small one; some of it is over the limit.
fn output_tree(random: &mut Random, outputs: &[u8]) -> Vec<u8> {
    let growth = match random.below(6) {
        0 => Growth::Right,
        1 => Growth::Left,
        2 => Growth::Even(16),
        _ => Growth::Even(random.range(4, 15)),
    };
    let (nodes, levels) = match random.below(40) {
        0 => (4_096, 4_096),
        1 => (4_097, 4_097),
        2 => (random.range(4_000, 4_300), random.range(1, 4_300)),
        3 => (4_096, random.range(5, 14)),
        4 | 5 => (random.range(1, 4_096), random.range(1, 600)),
        _ => (random.range(1, 40), random.range(1, 20)),
    };
    generate::tree(random, outputs, nodes, levels, growth)
}

#[test]
fn samples() {
    let texts: [(&[u8], &str); 4] = [
        (&[0, 1, 1], "<A1><A2/><A2/></A1>"),
        (&[1], "<A2/>"),
        (&[0, 0, 1, 1, 1], "<A1><A1><A2/><A2/></A1><A2/></A1>"),
        (&[0, 0, 1, 1, 0, 1, 1], "<A1><A1><A2/><A2/></A1><A1><A2/><A2/></A1></A1>"),
    ];
    for (tree, text) in texts {
        for length in 0..=text.len() + 2 {
            let expected = if length < text.len() { Err(12) } else { Ok(text.as_bytes().to_vec()) };
            assert_eq!(WRITE.run(S, tree, length), expected);
        }
        for length in 0..=tree.len() + 2 {
            let expected = if length < tree.len() { Err(12) } else { Ok(tree.to_vec()) };
            assert_eq!(READ.run(S, text.as_bytes(), length), expected);
        }
    }
}

/// What is no output tree and what is no text, each where the area is long and where it has no byte: 11 before 12, and
/// 2 before both.
#[test]
fn refused() {
    let no_stock = [1, 1, 1, 0];
    let trees: [&[u8]; 11] =
        [&[], &[0], &[0, 1], &[1, 1], &[0, 1, 1, 1], &[2], &[0, 1, 2], &[0, 2, 1], &[64], &[255], b"<A2/>"];
    let texts = "|<|>|<>|</>|<A2|<A2/|A2/>|A2|<A2/>x|x<A2/>|<A2/><A2/>|<A2></A2>|<A2>|</A2>|<A1/>|<A1></A1>|<A1><A2/></A1>|\
        <A1><A2/><A2/><A2/></A1>|<A1><A2/><A2/></A2>|<A1><A2/><A2/></A3>|<A1><A2/><A2/></A1|<A1><A2/><A2/>|\
        <A1><A2/><A2/></A1></A1>|<A1><A2/><A2/></A1><A2/>|<A1><A2></A2><A2/></A1>|<A1><A1/><A2/></A1>|<A3/>|<B1/>|<H8/>|\
        <I1/>|<@1/>|<A0/>|<A9/>|<a2/>|<A02/>|<A22/>|<AA2/>|<2A/>|<A2//>|<//A2>|</A2/>|<<A2/>|<A2/>>|<A2\\>| <A2/>|<A2/> |\
        < A2/>|<A2 />|<A2/ >|<A1> <A2/><A2/></A1>|<A1><A2/> <A2/></A1>|<A1 ><A2/><A2/></A1>|<A1><A2/><A2/></A1 >|<A2/>\n|\
        <A2/>\r\n|\n<A2/>|<A1><A2/>\n<A2/></A1>|<A2/>\0|\0|<A2 x=\"1\"/>|<!-- --><A2/>|<A2/><!-- -->|<A1>e<A2/><A2/></A1>|\
        <?xml version=\"1.0\"?><A2/>|\u{feff}<A2/>|&lt;A2/&gt;|plan e";
    let (mut refused, mut asked) = (0, 0);
    for (conversion, wrong) in
        trees.iter().map(|tree| (&WRITE, *tree)).chain(texts.split('|').map(|text| (&READ, text.as_bytes())))
    {
        for length in [0, 1, 5, 100, conversion.longest] {
            assert_eq!(conversion.run(S, wrong, length), Err(11), "{} {wrong:?}", conversion.name);
            assert_eq!(conversion.run(&no_stock, wrong, length), Err(2), "{} {wrong:?}", conversion.name);
            refused += 1;
        }
        asked += 1;
    }
    println!("{asked} wrong trees and texts, {refused} calls");
    assert_eq!(asked, 11 + 68);
    for length in [0, 2, 100] {
        assert_eq!(WRITE.run(&no_stock, &[0, 1, 1], length), Err(2));
        assert_eq!(READ.run(&no_stock, b"<A2/>", length), Err(2));
    }
}

/// Generated output trees: written, read again, into areas of every kind; and the bytes of damaged ones.
#[test]
fn written_and_read_again() {
    let (mut tally, mut trees, mut longest) = (Tally::default(), 0, 0);
    for seed in 0..6_000 {
        let random = &mut Random::new(seed + 81_000_000);
        let alphabets = generate::Alphabets::random(random);
        let (mut stock, ranks) = (alphabets.file(), &alphabets.outputs);
        let mut tree = match ranks.contains(&0) {
            true => output_tree(random, ranks),
            false => (0..random.below(9)).map(|_| random.below(ranks.len()) as u8).collect(),
        };
        match random.below(12) {
            0..=2 => generate::damage(random, &mut tree),
            3 => generate::damage(random, &mut stock),
            _ => {}
        }
        let Ok(text) = WRITE.in_areas(random, &mut tally, &stock, &tree) else { continue };
        assert_eq!(READ.in_areas(random, &mut tally, &stock, &text).as_ref(), Ok(&tree), "{seed}");
        let ranks = independent::read_alphabets(&stock).expect("it is a stock").outputs;
        if generate::levels(ranks, &tree) < 200 {
            assert_eq!(text, text_of(ranks, &mut tree.iter().copied()).into_bytes(), "{seed}");
        }
        longest = longest.max(text.len());
        trees += 1;
        // a stock that is none, and another stock
        assert_eq!(READ.in_areas(random, &mut tally, &[], &text), Err(2));
        let other = generate::Alphabets::random(random).file();
        if let Ok(read) = READ.in_areas(random, &mut tally, &other, &text) {
            assert_eq!(WRITE.run(&other, &read, LONGEST_XML), Ok(text), "{seed}");
        }
    }
    println!("{trees} trees, the longest text of {longest} bytes");
    assert!(trees > 4_000 && longest > 30_000);
    tally.settle(&OUTCOMES, 1_000);
}

/// The tags of a text.
type Tags = Vec<Vec<u8>>;

fn tags_of(text: &[u8]) -> Tags {
    text.split_inclusive(|&byte| byte == b'>').map(<[u8]>::to_vec).collect()
}

/// The places of the tags for which `wanted` holds.
fn places(tags: &[Vec<u8>], wanted: fn(&[u8]) -> bool) -> Vec<usize> {
    (0..tags.len()).filter(|&at| wanted(&tags[at])).collect()
}

fn is_empty_tag(tag: &[u8]) -> bool {
    tag.ends_with(b"/>")
}

fn is_end(tag: &[u8]) -> bool {
    tag.starts_with(b"</")
}

fn is_start(tag: &[u8]) -> bool {
    !is_empty_tag(tag) && !is_end(tag)
}

/// Where the element that starts at this tag has its last one.
fn end_of(tags: &[Vec<u8>], start: usize) -> usize {
    let mut open = 0;
    for (at, tag) in tags.iter().enumerate().skip(start) {
        open += usize::from(is_start(tag));
        open -= usize::from(is_end(tag));
        if open == 0 {
            return at;
        }
    }
    unreachable!("the element ends")
}

/// The code in a tag.
fn code_in(tag: &mut [u8]) -> &mut [u8] {
    let at = if is_end(tag) { 2 } else { 1 };
    &mut tag[at..at + 2]
}

fn some_code(random: &mut Random) -> Vec<u8> {
    code(random.pick(&[0, 1, 2, 3, 7, 8, 9, 63])).into_bytes()
}

/// The tags of a damaged text; none where it cannot be damaged so.
type DamageTags = fn(&mut Random, Tags) -> Option<Tags>;

/// What is done to a text.
struct Damage {
    name: &'static str,
    leaves: Leaves,
    damage: DamageTags,
}

/// What a damaged text can be.
#[derive(PartialEq)]
enum Leaves {
    /// No text of a tree.
    None,
    /// One at times.
    Some,
    /// Always one.
    All,
}

const fn damage(name: &'static str, leaves: Leaves, damage: DamageTags) -> Damage {
    Damage { name, leaves, damage }
}

/// One of the places, if there is one.
fn one_of(random: &mut Random, places: &[usize]) -> Option<usize> {
    (!places.is_empty()).then(|| random.pick(places))
}

/// The text as one piece, altered.
fn bytes(tags: Tags, alter: impl FnOnce(&mut Vec<u8>)) -> Option<Tags> {
    let mut text = tags.concat();
    alter(&mut text);
    Some(vec![text])
}

const DAMAGES: [Damage; 19] = [
    damage("one byte changed", Leaves::Some, |random, tags| {
        bytes(tags, |text| {
            let at = random.below(text.len());
            text[at] = if random.once_in(2) { random.byte() } else { random.pick(b"</>ABH128 ") };
        })
    }),
    damage("one byte inserted", Leaves::None, |random, tags| {
        bytes(tags, |text| {
            let byte = if random.once_in(2) { random.byte() } else { random.pick(b"</>A12 ") };
            text.insert(random.range(0, text.len()), byte);
        })
    }),
    damage("one byte dropped", Leaves::None, |random, tags| {
        bytes(tags, |text| {
            text.remove(random.below(text.len()));
        })
    }),
    damage("two bytes swapped", Leaves::Some, |random, tags| {
        bytes(tags, |text| {
            let (at, other) = (random.below(text.len()), random.below(text.len()));
            text.swap(at, other);
        })
    }),
    damage("cut", Leaves::None, |random, tags| bytes(tags, |text| text.truncate(random.below(text.len())))),
    damage("bytes behind", Leaves::None, |random, tags| {
        bytes(tags, |text| text.extend(random.pick(&[&b"\n"[..], b" ", b"\0", b"<A1/>", b"<A2/>", b"</A1>", b"x"])))
    }),
    damage("bytes before", Leaves::None, |random, tags| {
        bytes(tags, |text| {
            let before = random.pick(&[&b"\n"[..], b" ", b"\0", b"<A1/>", b"<A2/>", b"<A1>", b"\xef\xbb\xbf"]);
            text.splice(0..0, before.iter().copied());
        })
    }),
    damage("a blank between tags", Leaves::None, |random, mut tags| {
        let at = random.range(0, tags.len());
        tags.insert(at, random.pick(&[&b" "[..], b"\n", b"\r\n", b"\t"]).to_vec());
        Some(tags)
    }),
    damage("a small letter", Leaves::None, |random, mut tags| {
        let at = random.below(tags.len());
        code_in(&mut tags[at]).make_ascii_lowercase();
        Some(tags)
    }),
    damage("another code in a tag", Leaves::Some, |random, mut tags| {
        let at = random.below(tags.len());
        code_in(&mut tags[at]).copy_from_slice(&some_code(random));
        Some(tags)
    }),
    damage("another code in an element", Leaves::Some, |random, mut tags| {
        let at = one_of(random, &places(&tags, |tag| !is_end(tag)))?;
        let (end, code) = (end_of(&tags, at), some_code(random));
        [at, end].iter().for_each(|&at| code_in(&mut tags[at]).copy_from_slice(&code));
        Some(tags)
    }),
    damage("another code at an end", Leaves::None, |random, mut tags| {
        let at = one_of(random, &places(&tags, is_end))?;
        let (before, code) = (code_in(&mut tags[at]).to_vec(), some_code(random));
        code_in(&mut tags[at]).copy_from_slice(&code);
        (before != code).then_some(tags)
    }),
    damage("a leaf as two tags", Leaves::None, |random, mut tags| {
        let at = one_of(random, &places(&tags, is_empty_tag))?;
        let code = code_in(&mut tags[at]).to_vec();
        tags[at] = [b"<", &code[..], b"></", &code, b">"].concat();
        Some(tags)
    }),
    damage("an inner element as one tag", Leaves::None, |random, mut tags| {
        let at = one_of(random, &places(&tags, is_start))?;
        let code = code_in(&mut tags[at]).to_vec();
        let end = end_of(&tags, at);
        tags.splice(at..=end, [[b"<", &code[..], b"/>"].concat()]);
        Some(tags)
    }),
    damage("no end", Leaves::None, |random, mut tags| {
        let at = one_of(random, &places(&tags, is_end))?;
        tags.remove(at);
        Some(tags)
    }),
    damage("a child more", Leaves::None, |random, mut tags| {
        let at = one_of(random, &places(&tags, |tag| !is_end(tag)))?;
        let again = tags[at..=end_of(&tags, at)].to_vec();
        tags.splice(at..at, again);
        Some(tags)
    }),
    damage("a child less", Leaves::None, |random, mut tags| {
        let at = one_of(random, &places(&tags, |tag| !is_end(tag)))?;
        let end = end_of(&tags, at);
        tags.drain(at..=end);
        Some(tags)
    }),
    damage("an element in the place of another", Leaves::All, |random, mut tags| {
        let all = places(&tags, |tag| !is_end(tag));
        let [at, other] = [one_of(random, &all)?, one_of(random, &all)?];
        let copied = tags[other..=end_of(&tags, other)].to_vec();
        let end = end_of(&tags, at);
        tags.splice(at..=end, copied);
        Some(tags)
    }),
    damage("two tags swapped", Leaves::Some, |random, mut tags| {
        let (at, other) = (random.below(tags.len()), random.below(tags.len()));
        tags.swap(at, other);
        Some(tags)
    }),
];

/// A small stock, a tree under it and its text.
fn small_text(random: &mut Random) -> (Vec<u8>, Vec<u8>, Vec<u8>) {
    let mut ranks: Vec<u8> = (0..random.range(2, 10)).map(|_| random.range(0, 4) as u8).collect();
    let leaf = random.below(2);
    (ranks[leaf], ranks[1 - leaf]) = (0, random.range(1, 2) as u8);
    let stock = stock_of(&ranks);
    let (nodes, levels) = (random.pick(&[3, 8, 20, 60]), random.pick(&[3, 8, 60]));
    let tree = generate::tree(random, &ranks, nodes, levels, Growth::Even(14));
    let text = WRITE.run(&stock, &tree, LONGEST_XML).expect("it is a plan");
    (stock, tree, text)
}

/// Texts that are damaged in each way: refused, or the text of another tree.
#[test]
fn damaged_texts() {
    let (mut tally, mut outcomes) = (Tally::default(), Tally::default());
    for seed in 0..2_500 {
        let random = &mut Random::new(seed + 82_000_000);
        let (stock, _, text) = small_text(random);
        for Damage { name, damage, .. } in &DAMAGES {
            let Some(damaged) = damage(random, tags_of(&text)) else { continue };
            let damaged = damaged.concat();
            let read = READ.in_areas(random, &mut tally, &stock, &damaged);
            outcomes.count(name, &read, "accepted");
            match read {
                Ok(read) => assert_eq!(WRITE.run(&stock, &read, LONGEST_XML), Ok(damaged), "{seed} {name}"),
                Err(refusal) => assert!(refusal == 11, "{seed} {name}: {refusal}"),
            }
        }
    }
    tally.settle(&[("read_xml", "accepted"), ("read_xml", "refused 11"), ("read_xml", "refused 12")], 1_000);
    let outcome = |not: Leaves, outcome| {
        let able = DAMAGES.iter().filter(move |damage| damage.leaves != not);
        able.map(move |damage| (damage.name, outcome))
    };
    // each that can occur, and no other
    let wanted: Vec<_> = outcome(Leaves::None, "accepted").chain(outcome(Leaves::All, "refused 11")).collect();
    outcomes.settle(&wanted, 60);
}

/// The texts of exactly so many tags by the words of document 02: `<A2/>`, or `<A1>`, as many texts as A1 has places, and
/// `</A1>`.
fn texts(ranks: &[u8], tags: usize) -> Vec<String> {
    let of_symbol = |(symbol, &rank): (usize, &u8)| {
        let code = code(symbol as u8);
        match rank {
            0 if tags == 1 => vec![format!("<{code}/>")],
            0 => vec![],
            _ if tags < 3 => vec![],
            _ => rows(ranks, rank, tags - 2).iter().map(|row| format!("<{code}>{row}</{code}>")).collect(),
        }
    };
    ranks.iter().enumerate().flat_map(of_symbol).collect()
}

/// So many texts one behind the other, of exactly so many tags.
fn rows(ranks: &[u8], count: u8, tags: usize) -> Vec<String> {
    if count == 0 {
        return if tags == 0 { vec![String::new()] } else { vec![] };
    }
    let mut rows_of = Vec::new();
    for first in 1..=tags {
        let rest = rows(ranks, count - 1, tags - first);
        for text in texts(ranks, first) {
            rows_of.extend(rest.iter().map(|row| format!("{text}{row}")));
        }
    }
    rows_of
}

/// Every sequence of at most so many of these pieces, one behind the other.
fn sequences(pieces: &[&[u8]], most: usize, each: &mut dyn FnMut(&[u8])) {
    fn go_on(pieces: &[&[u8]], left: usize, text: &mut Vec<u8>, each: &mut dyn FnMut(&[u8])) {
        each(text);
        if left == 0 {
            return;
        }
        for piece in pieces {
            text.extend(*piece);
            go_on(pieces, left - 1, text, each);
            text.truncate(text.len() - piece.len());
        }
    }
    go_on(pieces, most, &mut Vec::new(), each);
}

/// All sequences of at most six tags of three codes: just the texts of trees are read. In the first stock the third code
/// is past the symbols.
#[test]
fn all_sequences_of_tags() {
    const MOST: usize = 6;
    let codes = ["A1", "A2", "A3"];
    let tags: Vec<String> =
        codes.iter().flat_map(|code| [format!("<{code}>"), format!("</{code}>"), format!("<{code}/>")]).collect();
    let tags: Vec<&[u8]> = tags.iter().map(String::as_bytes).collect();
    for (ranks, trees) in [(&[1, 0][..], 3), (&[2, 1, 0], 7), (&[0, 3, 1], 4)] {
        let stock = stock_of(ranks);
        let right: HashSet<Vec<u8>> = (1..=MOST).flat_map(|tags| texts(ranks, tags)).map(String::into_bytes).collect();
        assert_eq!(right.len(), trees, "{ranks:?}");
        let (mut read, mut all) = (0, 0);
        sequences(&tags, MOST, &mut |text| {
            all += 1;
            let given = READ.run(&stock, text, 8);
            assert_eq!(given.is_ok(), right.contains(text), "{}", text.escape_ascii());
            if let Ok(tree) = given {
                assert_eq!(WRITE.run(&stock, &tree, 64).as_deref(), Ok(text));
                read += 1;
            }
        });
        assert_eq!((read, all), (trees, (9usize.pow(7) - 1) / 8));
    }
}

/// All sequences of at most seven bytes that can stand in a text of A1 and A2: by themselves, in an element, and behind
/// the child of one.
#[test]
fn all_short_sequences_of_bytes() {
    const MOST: usize = 7;
    let stock = stock_of(&[1, 0]);
    let pieces: Vec<&[u8]> = b"</>A12".chunks(1).collect();
    for (before, behind, right, tree) in [
        ("", "", "<A2/>", &[1][..]),
        ("<A1>", "</A1>", "<A2/>", &[0, 1]),
        ("<A1><A2/>", "", "</A1>", &[0, 1]),
        ("<A1", "><A2/></A1>", "", &[0, 1]),
    ] {
        let (mut read, mut all) = (0, 0);
        sequences(&pieces, MOST, &mut |between| {
            all += 1;
            let text = [before.as_bytes(), between, behind.as_bytes()].concat();
            let ([mut area, mut other], mut told) = ([[9; 4]; 2], BEFORE[0]);
            let refused = ffi::read_xml(&stock, &text, &mut area, &mut told);
            let expected = independent::read_xml(&stock, &text, &mut other);
            assert_eq!(if refused == 0 { Ok(told) } else { Err(refused) }, expected, "{}", text.escape_ascii());
            assert_eq!(refused == 0, between == right.as_bytes(), "{}", text.escape_ascii());
            assert_eq!(area, other);
            match refused {
                0 => assert!(area.starts_with(tree) && area[tree.len()..].iter().all(|&byte| byte == 9)),
                _ => assert!(told == BEFORE[0] && area == [9; 4]),
            }
            read += usize::from(refused == 0);
        });
        assert_eq!((read, all), (1, (6usize.pow(8) - 1) / 5));
    }
}

/// Some texts with each byte changed to each other one, each byte inserted everywhere, and two bytes swapped: the ones
/// that are read stand for other symbols of the same rank.
#[test]
fn all_texts_near_by() {
    let wide: Vec<u8> = (0..64).map(|symbol| [0, 2, 1][symbol % 3]).collect();
    let mut read = Vec::new();
    for (ranks, text) in [
        (&[2, 0][..], "<A1><A2/><A2/></A1>"),
        (&[1, 0], "<A1><A1><A2/></A1></A1>"),
        (&[2, 0, 0, 2], "<A1><A2/><A2/></A1>"),
        (&wide, "<A2><H8/><A3><A1/></A3></A2>"),
    ] {
        let (stock, text) = (stock_of(ranks), text.as_bytes());
        let mut near: Vec<Vec<u8>> = Vec::new();
        for at in 0..=text.len() {
            let [before, behind] = [&text[..at], &text[at..]];
            near.extend((0..=255).map(|byte| [before, &[byte], behind].concat()));
            if let Some((_, behind)) = behind.split_first() {
                near.push([before, behind].concat());
                near.extend((0..=255).map(|byte| [before, &[byte], behind].concat()));
                near.extend((0..at).map(|other| {
                    let mut swapped = text.to_vec();
                    swapped.swap(at, other);
                    swapped
                }));
            }
        }
        near.retain(|other| other != text);
        let taken: HashSet<Vec<u8>> = near.into_iter().filter(|text| READ.run(&stock, text, 8).is_ok()).collect();
        for text in &taken {
            let tree = READ.run(&stock, text, 8).unwrap();
            assert_eq!(WRITE.run(&stock, &tree, 64).as_ref(), Ok(text));
        }
        read.push(taken.len());
    }
    println!("read: {read:?}");
    // under the third stock each e may be A3; under the last, each leaf one of a row or of a column
    assert_eq!(read[..3], [0, 0, 2]);
    assert!(read[3] > 4);
}

/// A text or tree at a limit, in areas around its length; and one symbol more.
#[test]
fn limits() {
    let unary = stock_of(&[1, 0]);
    let fits = |stock: &[u8], tree: &[u8], text: &[u8]| {
        for (conversion, from, to) in [(&WRITE, tree, text), (&READ, text, tree)] {
            for length in [0, 1, to.len() - 1, to.len(), to.len() + 1, 65_536] {
                let expected = if length < to.len() { Err(12) } else { Ok(to.to_vec()) };
                assert!(conversion.run(stock, from, length) == expected, "{} {length}", conversion.name);
            }
        }
    };
    let over = |stock: &[u8], tree: &[u8], text: &[u8]| {
        for length in [0, 1, 4_095, 4_096, 4_097, LONGEST_XML, 65_536] {
            assert!(WRITE.run(stock, tree, length) == Err(11), "{length}");
            assert!(READ.run(stock, text, length) == Err(11), "{length}");
        }
    };
    let (tree, text) = chain(MOST_XML_SYMBOLS);
    assert_eq!((tree.len(), text.len(), LONGEST_XML, independent::MAX_XML), (4_096, 36_860, 36_860, 36_860));
    fits(&unary, &tree, &text);
    // a chain without its end, and with an end more
    assert_eq!(WRITE.run(&unary, &tree[..4_095], LONGEST_XML), Err(11));
    assert_eq!(READ.run(&unary, &text[..text.len() - 5], 4_096), Err(11));
    assert_eq!(READ.run(&unary, &[&text[..], b"</A1>"].concat(), 4_096), Err(11));
    assert_eq!(READ.run(&unary, &[&text[..], b"\n"].concat(), 4_096), Err(11));
    for symbols in [1, 2, 255, 256, 257, 512, 513, 4_095] {
        let (tree, text) = chain(symbols);
        fits(&unary, &tree, &text);
    }
    for symbols in [4_097, 4_098, 8_192, 65_535, 65_536, 65_537] {
        let (tree, text) = chain(symbols);
        over(&unary, &tree, &text);
    }
    // 2,047 forks over 2,048 leaves, and one more of each; with a g on top there are 4,096
    for left in [true, false] {
        let (tree, text) = comb(2_047, left);
        fits(&stock_of(&[2, 0]), &tree, &text);
        let (tree, text) = ([&[2], &tree[..]].concat(), [b"<A3>", &text[..], b"</A3>"].concat());
        fits(&stock_of(&[2, 0, 1]), &tree, &text);
        let (tree, text) = ([&[2], &tree[..]].concat(), [b"<A3>", &text[..], b"</A3>"].concat());
        over(&stock_of(&[2, 0, 1]), &tree, &text);
        let (tree, text) = comb(2_048, left);
        over(&stock_of(&[2, 0]), &tree, &text);
    }
    // tags without end
    for text in [&b"<A1>"[..], b"</A1>", b"<A2/>", b"<", b"/", b"A", b" ", b"<A1></A1>", b"<A1><A2/>"] {
        assert_eq!(READ.run(&unary, &text.repeat(12_000), 4_096), Err(11));
    }
}

/// As many symbols as there may be, and all kinds of trees over them at the limit of 4,096.
#[test]
fn full_trees() {
    let (mut full, mut over) = (0, 0);
    for seed in 0..120 {
        let random = &mut Random::new(seed + 83_000_000);
        let mut ranks: Vec<u8> = (0..random.range(3, 64)).map(|_| random.range(0, 4) as u8).collect();
        ranks[0] = 0;
        ranks[1] = 1;
        ranks[2] = random.range(1, 4) as u8;
        let growth = random.pick(&[Growth::Even(16), Growth::Even(12), Growth::Right, Growth::Left]);
        let nodes = random.range(4_000, 4_096);
        let mut tree = generate::tree(random, &ranks, nodes, 4_096, growth);
        // filled up by symbols of rank 1 on top
        let more = random.pick(&[4_095, 4_096, 4_096, 4_097, 4_098]);
        tree.splice(0..0, vec![1; more.max(tree.len()) - tree.len()]);
        let written = WRITE.run(&stock_of(&ranks), &tree, LONGEST_XML);
        if tree.len() > 4_096 {
            assert_eq!(written, Err(11));
            over += 1;
            continue;
        }
        let text = written.expect("it is a plan");
        assert!(READ.run(&stock_of(&ranks), &text, tree.len()) == Ok(tree));
        full += 1;
    }
    assert!(full > 50 && over > 20, "{full} {over}");
}

/// Each symbol under each number of output symbols: known exactly if it is below.
#[test]
fn every_code() {
    let (mut known, mut unknown) = (0, 0);
    for outputs in 1..=64 {
        let stock = stock_of(&vec![0; outputs]);
        for symbol in 0..=255 {
            let text = format!("<{}/>", code(symbol % 64)).into_bytes();
            let expected = if usize::from(symbol) < outputs { Ok(text.clone()) } else { Err(11) };
            assert_eq!(WRITE.run(&stock, &[symbol], 5), expected);
            if symbol < 64 {
                let expected = if usize::from(symbol) < outputs { Ok(vec![symbol]) } else { Err(11) };
                assert_eq!(READ.run(&stock, &text, 1), expected);
            }
            *(if expected.is_ok() { &mut known } else { &mut unknown }) += 1;
        }
        // every two bytes in the place of a code
        if matches!(outputs, 1 | 9 | 63 | 64) {
            let mut read = 0;
            for [letter, digit] in (0..=65_535u16).map(u16::to_be_bytes) {
                let mut area = [99];
                read += usize::from(slices::read_xml(&stock, &[b'<', letter, digit, b'/', b'>'], &mut area) == Ok(1));
            }
            assert_eq!(read, outputs);
        }
    }
    assert_eq!((known, unknown), (64 * 65 / 2, 64 * 256 - 64 * 65 / 2));
    // symbol 63 over symbol 0, and symbol 0 over symbol 63
    for (top, leaf, text) in [(63, 0, "<H8><A1/></H8>"), (0, 63, "<A1><H8/></A1>")] {
        let mut ranks = vec![0; 64];
        ranks[top] = 1;
        assert_eq!(WRITE.run(&stock_of(&ranks), &[top as u8, leaf], 14).as_deref(), Ok(text.as_bytes()));
        assert_eq!(READ.run(&stock_of(&ranks), text.as_bytes(), 2), Ok(vec![top as u8, leaf]));
    }
}

/// The types: what they read and write, also of output trees that a transducer gives.
#[test]
fn types() {
    let alphabets = Alphabets::read(S).unwrap();
    let transducer = Transducer::read(&alphabets, T).unwrap();
    let output = |levels: usize| {
        let tree = InputTree::read(&alphabets, &[vec![0; levels - 1], vec![1]].concat()).unwrap();
        transducer.translate(&tree, usize::MAX).unwrap()
    };
    assert_eq!(output(2).to_xml().as_deref(), Ok("<A1><A1><A2/><A2/></A1><A1><A2/><A2/></A1></A1>"));
    for levels in 1..=11 {
        let tree = output(levels);
        let text = tree.to_xml().unwrap();
        assert_eq!(text, text_of(&[2, 0], &mut tree.as_bytes().iter().copied()));
        assert_eq!(OutputTree::from_xml(&alphabets, text.as_bytes()).as_ref(), Ok(&tree));
        assert_eq!(OutputTree::read(&alphabets, tree.as_bytes()).as_ref(), Ok(&tree));
    }
    // 8,191 symbols
    assert_eq!(output(12).to_xml(), Err(Refusal::BadOutput));
    assert_eq!(OutputTree::read(&alphabets, output(12).as_bytes()), Err(Refusal::BadOutput));
    for wrong in ["", "<A2/>\n", "<A1/>", "<A3/>"] {
        assert_eq!(OutputTree::from_xml(&alphabets, wrong.as_bytes()), Err(Refusal::BadOutput));
    }
    for wrong in [&[][..], &[0, 1], &[1, 1], &[2]] {
        assert_eq!(OutputTree::read(&alphabets, wrong), Err(Refusal::BadOutput));
    }
    let (unary, (tree, text)) = (Alphabets::new(&[0], &[1, 0]).unwrap(), chain(OutputTree::MOST_READ));
    let deep = OutputTree::from_xml(&unary, &text).unwrap();
    assert_eq!((deep.as_bytes(), deep.nodes(), deep.alphabets()), (&tree[..], 4_096, &unary));
    assert_eq!(deep.to_xml().map(String::into_bytes), Ok(text));
}

/// Expat's start tags of each text, given as hexadecimal lines: levels and names in a line, or `no`. It reads all before
/// it prints, so that neither side waits for the other.
const EXPAT: &str = r#"
import sys
from xml.parsers import expat
for line in sys.stdin.buffer.read().decode().split("\n")[:-1]:
    tags, depth = [], [0]
    def start(name, attributes):
        depth[0] += 1
        tags.append("%d%s" % (depth[0], name))
    def end(name):
        depth[0] -= 1
    parser = expat.ParserCreate()
    parser.StartElementHandler, parser.EndElementHandler = start, end
    parser.CharacterDataHandler = lambda data: tags.append("text")
    try:
        parser.Parse(bytes.fromhex(line), True)
        print(" ".join(tags))
    except expat.ExpatError:
        print("no")
"#;

/// The levels and codes of an output tree, in preorder.
fn levels_and_codes(ranks: &[u8], tree: &[u8]) -> String {
    let mut levels = vec![1];
    let line = |&symbol: &u8| {
        let level: usize = levels.pop().expect("the tree is whole");
        levels.extend(vec![level + 1; ranks[usize::from(symbol)].into()]);
        format!("{level}{}", code(symbol))
    };
    tree.iter().map(line).collect::<Vec<_>>().join(" ")
}

/// Texts, each with the line that Expat has to give if the library reads it.
fn texts_for_expat() -> Vec<(Vec<u8>, Option<String>)> {
    let mut texts = Vec::new();
    let mut add = |stock: &[u8], text: Vec<u8>| {
        let ranks = independent::read_alphabets(stock).expect("it is a stock").outputs;
        let mut area = vec![0; MOST_XML_SYMBOLS];
        let read = slices::read_xml(stock, &text, &mut area).ok();
        texts.push((text, read.map(|length| levels_and_codes(ranks, &area[..length]))));
    };
    add(&stock_of(&[1, 0]), chain(4_096).1);
    for left in [true, false] {
        add(&stock_of(&[2, 0]), comb(2_047, left).1);
    }
    for seed in 0..700 {
        let random = &mut Random::new(seed + 84_000_000);
        let alphabets = generate::Alphabets::random(random);
        if alphabets.outputs.contains(&0) {
            let tree = output_tree(random, &alphabets.outputs);
            if let Ok(text) = WRITE.run(&alphabets.file(), &tree, LONGEST_XML) {
                add(&alphabets.file(), text);
            }
        }
        let (stock, _, text) = small_text(random);
        for Damage { damage, .. } in &DAMAGES {
            if let Some(damaged) = damage(random, tags_of(&text)) {
                add(&stock, damaged.concat());
            }
        }
        add(&stock, text);
    }
    texts
}

/// Expat, of Python, finds the elements of the tree in every text that is read, at the same levels; and what it does not
/// find well-formed is refused.
#[test]
fn expat() {
    let folder = Folder::new();
    let program = ["python3", "/usr/bin/python3"].into_iter().find(|program| {
        let tried = std::process::Command::new(program).args(["-c", "import xml.parsers.expat"]).output();
        tried.is_ok_and(|tried| tried.status.success())
    });
    let Some(program) = program else {
        println!("there is no python3 with Expat: no comparison with it");
        return;
    };
    let texts = texts_for_expat();
    let hexadecimal = |text: &[u8]| text.iter().map(|byte| format!("{byte:02x}")).collect::<String>() + "\n";
    let input: String = texts.iter().map(|(text, _)| hexadecimal(text)).collect();
    let ended = folder.run(Path::new(program), &["-c", EXPAT], input.as_bytes());
    assert_eq!((ended.status, &ended.err[..]), (Some(0), ""));
    assert_eq!(ended.text().lines().count(), texts.len());
    let (mut read, mut well_formed, mut neither) = (0, 0, 0);
    for (found, (text, tags)) in ended.text().lines().zip(&texts) {
        match tags {
            Some(tags) => assert!(found == tags, "{}: {found}, not {tags}", text.escape_ascii()),
            None => *(if found == "no" { &mut neither } else { &mut well_formed }) += 1,
        }
        read += usize::from(tags.is_some());
    }
    println!("{read} texts read, {well_formed} refused that are well-formed, {neither} that are not");
    assert!(read > 1_500 && well_formed > 1_000 && neither > 3_000);
}
