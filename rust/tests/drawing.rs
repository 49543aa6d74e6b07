//! Holds drawings against a second, recursive way to draw small trees, and reads pictures back.
mod generate;

use caplune::drawing::{origin, short, svg, Drawn};
use caplune::{Address, Alphabets, Comparison, Difference, InputTree, Mark, Refusal, Transducer};
use generate::alike::{chain, chain_alphabets, small_alphabets, small_transducer};
use generate::rows::{row_alphabets, Row};
use generate::samples::{S, T, U};
use generate::{address_of, Growth, Random};
use std::collections::BTreeSet;
use std::time::{Duration, Instant};

fn names(names: &[&str]) -> Vec<String> {
    names.iter().map(|name| name.to_string()).collect()
}

fn address(text: &str) -> Address {
    text.parse().expect("it is an address")
}

/// The transducers of two files, and their difference.
fn difference(stock: &[u8], files: [&[u8]; 2]) -> ([Transducer; 2], Difference) {
    let alphabets = Alphabets::read(stock).expect("they are alphabets");
    let both = files.map(|file| Transducer::read(&alphabets, file).expect("it is a transducer"));
    let Ok(Comparison::Differ(shown)) = both[0].compare(&both[1]) else { panic!("they differ") };
    (both, shown)
}

/// The sample T, and the input tree of so many a over e.
fn sample(height: usize) -> (Transducer, InputTree) {
    let alphabets = Alphabets::read(S).expect("they are alphabets");
    let tree = InputTree::read(&alphabets, &[vec![0; height], vec![1]].concat()).expect("it is a tree");
    (Transducer::read(&alphabets, T).expect("it is a transducer"), tree)
}

/// How many nodes, "…" with what is folded, and marks a text has, without the line of the address.
fn counts(drawn: &Drawn) -> [usize; 3] {
    let text = drawn.to_text();
    let lines = text.lines().filter(|line| !line.contains("(place "));
    let (left_out, nodes): (Vec<&str>, Vec<&str>) =
        lines.partition(|line| line.ends_with('…') || line.ends_with(" parts)"));
    [nodes.len(), left_out.len(), nodes.iter().filter(|line| line.ends_with(" <==")).count()]
}

/// How many nodes a text tells that it has folded.
fn folded(drawn: &Drawn) -> usize {
    let told = |line: &str| line.split_once("… (")?.1.strip_suffix(" parts)")?.parse::<usize>().ok();
    drawn.to_text().lines().filter_map(told).sum()
}

#[test]
fn samples() {
    let (both, shown) = difference(S, [T, U]);
    assert_eq!(Drawn::input_tree(&shown.tree, &names(&["a", "e"]), 100, &[]).to_text(), "e\n");
    let origins: Vec<Address> = both.iter().filter_map(|one| origin(one, &shown.tree, &shown.address)).collect();
    assert_eq!(origins, [Address::ROOT, Address::ROOT]);
    assert_eq!(Drawn::input_tree(&shown.tree, &names(&["a", "e"]), 100, &origins).to_text(), "e <==\n");
    let drawn = |number: usize, distance| {
        let transducer: &Transducer = &both[number];
        Drawn::around(transducer, &shown.tree, &shown.address, &names(&["f", "e"]), distance)
            .map(|drawn| drawn.to_text())
    };
    assert_eq!(drawn(0, 3).as_deref(), Ok("f\n├─ e <==\n└─ e\n"));
    assert_eq!(drawn(0, 1).as_deref(), Ok("f\n├─ e <==\n└─ …\n"));
    assert_eq!(drawn(0, 0).as_deref(), Ok("… (place 1)\ne <==\n"));
    assert_eq!(drawn(1, 3).as_deref(), Ok("f\n├─ f <==\n│  ├─ e\n│  └─ e\n└─ f\n   ├─ e\n   └─ e\n"));
    assert_eq!(drawn(1, 2).as_deref(), Ok("f\n├─ f <==\n│  ├─ e\n│  └─ e\n└─ f\n   └─ …\n"));
    assert_eq!(drawn(1, 0).as_deref(), Ok("… (place 1)\nf <==\n└─ …\n"));
}

#[test]
fn cut_above_and_below() {
    let (transducer, tree) = sample(5);
    let drawn = Drawn::around(&transducer, &tree, &address("1.2.1.2"), &[], 1).expect("it is drawn");
    let text = "… (place 1.2.1)\n0\n├─ …\n└─ 0 <==\n   ├─ 0\n   │  └─ …\n   └─ 0\n      └─ …\n";
    assert_eq!((drawn.to_text().as_str(), drawn.top(), drawn.left_out()), (text, &address("1.2.1"), 0));
}

#[test]
fn addresses_shortened() {
    let twelve = Address::from(vec![1; 12]);
    assert_eq!([short(&twelve), short(&Address::ROOT)], [twelve.to_string(), "-".to_string()]);
    assert_eq!(short(&Address::from((1..=13).collect::<Vec<u8>>())), "1.2.3.….12.13 (13 numbers)");
}

#[test]
fn no_such_address_or_tree() {
    let (transducer, tree) = sample(0);
    let drawn = |at: &str, distance| {
        Drawn::around(&transducer, &tree, &address(at), &names(&["f", "e"]), distance).map(|drawn| drawn.to_text())
    };
    assert_eq!(drawn("3", 1).as_deref(), Ok("f\n└─ …\n"));
    assert_eq!(drawn("0.1.255", 4).as_deref(), Ok("f\n├─ e\n└─ e\n"));
    assert_eq!(drawn("2.1", 1).as_deref(), Ok("… (place 2)\ne\n"));
    assert_eq!(drawn("1.1.1.1", 1).as_deref(), Ok("… (place 1.1.1)\n…\n"));
    let other = Alphabets::new(&[0, 0, 0], &[0]).expect("they are alphabets");
    let tree = InputTree::read(&other, &[2]).expect("it is a tree");
    assert_eq!(Drawn::around(&transducer, &tree, &Address::ROOT, &[], 3), Err(Refusal::BadTree));
}

/// A difference far down: a few nodes around it are drawn, at once.
fn deep(alphabets: &generate::Alphabets, files: [Vec<u8>; 2], numbers: usize) -> Vec<(String, Drawn)> {
    let (both, shown) = difference(&alphabets.file(), [&files[0], &files[1]]);
    assert!(shown.address.as_bytes().len() >= numbers, "{}", shown.address.as_bytes().len());
    let (inputs, outputs) = (names(&["u", "e"]), names(&["g", "c", "d"]));
    let start = Instant::now();
    let marked: Vec<Address> = both.iter().filter_map(|one| origin(one, &shown.tree, &shown.address)).collect();
    let design = Drawn::input_tree(&shown.tree, &inputs, 30, &marked);
    let ends = marked.iter().map(|address| address.as_bytes().len() + 1).max().expect("a part");
    assert!(shown.tree.levels() - ends <= 1, "what is laid last is laid at the end of the chain");
    assert!(!marked.is_empty() && design.to_text().lines().any(|line| line.ends_with("e <==")), "{}", design.to_text());
    let mut drawn = vec![("design".to_string(), design)];
    for (transducer, symbol) in both.iter().zip([shown.first, shown.second]) {
        let around = Drawn::around(transducer, &shown.tree, &shown.address, &outputs, 4).expect("it is drawn");
        let above = shown.address.as_bytes().len() - 4;
        assert_eq!(around.top().as_bytes(), &shown.address.as_bytes()[..above]);
        let text = around.to_text();
        let marked = text.lines().find_map(|line| line.strip_suffix(" <==")).expect("it is marked");
        assert!(marked.ends_with(&outputs[usize::from(symbol)]), "{text}");
        assert!(text.starts_with(&format!("… (place 1.1.1.….1.1 ({above} numbers))\n")), "{text}");
        assert!(counts(&around)[0] <= 9 && counts(&around)[2] == 1, "{text}");
        drawn.push((format!("symbol {symbol}"), around));
    }
    assert_picture(&drawn);
    assert!(start.elapsed() < Duration::from_secs(2), "{:?}", start.elapsed());
    let (design, [nodes, ..]) = (&drawn[0].1, counts(&drawn[0].1));
    assert_eq!(nodes + folded(design) + design.left_out(), shown.tree.nodes());
    assert!(nodes <= 30 && folded(design) > shown.tree.nodes() - 40, "{}", design.to_text());
    drawn
}

#[test]
fn deep_differences() {
    deep(&chain_alphabets(), [1, 2].map(|last| chain(128, 3, last).file()), 381);
    let rows = [Row::last_marked(126, 1), Row::last_marked(126, 0)];
    deep(&row_alphabets(1), rows.each_ref().map(|row| row.telling(1, 30).file()), 3_000);
    deep(&row_alphabets(4), rows.each_ref().map(|row| row.long().file()), 8_000);
}

#[test]
fn immense_output_tree() {
    let (transducer, tree) = sample(511);
    let at = Address::from([1, 2, 2].repeat(100));
    let start = Instant::now();
    let drawn = Drawn::around(&transducer, &tree, &at, &[], 4).expect("it is drawn");
    assert!(start.elapsed() < Duration::from_secs(2), "{:?}", start.elapsed());
    // below it 2 + 4 + 8 + 16; above it 4; beside the path 1 + 2 + 4, 1 + 2, 1
    assert_eq!(counts(&drawn), [1 + 30 + 4 + 11, 16 + 4 + 2 + 1 + 1, 1]);
    let most = Drawn::around(&transducer, &tree, &at, &[], usize::MAX).expect("it is drawn");
    assert_eq!((counts(&most)[0], counts(&most)[2]), (Drawn::MOST_NODES, 1));
    assert!(most.top().as_bytes().len() < 300 - 8, "the nearest nodes are drawn, above it too");
}

/// A tree, built for the second way to draw.
struct Built {
    symbol: u8,
    address: Vec<u8>,
    children: Vec<Built>,
}

impl Built {
    fn of(symbols: &mut std::slice::Iter<u8>, ranks: &[u8], address: Vec<u8>) -> Self {
        let symbol = *symbols.next().expect("the tree is whole");
        let below = |child| Built::of(symbols, ranks, [&address[..], &[child]].concat());
        let children = (1..=ranks[usize::from(symbol)]).map(below).collect();
        Built { symbol, address, children }
    }

    fn addresses(&self) -> Vec<Vec<u8>> {
        std::iter::once(self.address.clone()).chain(self.children.iter().flat_map(Built::addresses)).collect()
    }

    fn nodes(&self) -> usize {
        1 + self.children.iter().map(Built::nodes).sum::<usize>()
    }

    fn piece(&self, names: &[String], children: Vec<Piece>) -> Piece {
        let (label, address) = (names[usize::from(self.symbol)].clone(), self.address.clone());
        Piece { label, address, stands_for: 1, children }
    }

    /// As it is.
    fn whole(&self, names: &[String]) -> Piece {
        self.piece(names, self.children.iter().map(|child| child.whole(names)).collect())
    }

    /// The nodes from this one on that have one child each which is no leaf, and the node behind them. What is marked,
    /// or has a marked leaf, ends it.
    fn chain(&self, marked: &[Vec<u8>]) -> Vec<&Built> {
        let ends = self.address_of_leaves().chain([&self.address]).any(|address| marked.contains(address));
        let inner: Vec<&Built> = self.children.iter().filter(|child| !child.children.is_empty()).collect();
        let below = if ends || inner.len() != 1 { Vec::new() } else { inner[0].chain(marked) };
        [vec![self], below].concat()
    }

    fn address_of_leaves(&self) -> impl Iterator<Item = &Vec<u8>> {
        self.children.iter().filter(|child| child.children.is_empty()).map(|child| &child.address)
    }

    /// With long chains folded, from their ends up.
    fn folded(&self, names: &[String], marked: &[Vec<u8>]) -> Piece {
        let chain = self.chain(marked);
        let (end, before) = chain.split_last().unwrap();
        let mut below = end.piece(names, end.children.iter().map(|child| child.folded(names, marked)).collect());
        for (index, node) in before.iter().enumerate().rev() {
            if chain.len() >= 10 && index >= 3 && index < chain.len() - 3 {
                if index == 3 {
                    let stands_for = node.nodes() - chain[chain.len() - 3].nodes();
                    let label = format!("… ({stands_for} parts)");
                    below = Piece { label, address: node.address.clone(), stands_for, children: vec![below] };
                }
                continue;
            }
            let mut next = Some(below);
            let child =
                |child: &Built| if child.children.is_empty() { child.whole(names) } else { next.take().unwrap() };
            below = node.piece(names, node.children.iter().map(child).collect());
        }
        below
    }

    fn at(&self, address: &[u8]) -> &Built {
        address.iter().fold(self, |node, &child| &node.children[usize::from(child) - 1])
    }
}

/// A tree as it is drawn, before any of it is left out.
struct Piece {
    label: String,
    address: Vec<u8>,
    stands_for: usize,
    children: Vec<Piece>,
}

impl Piece {
    /// Its pieces in breadth-first order: the address of each, and how many nodes it stands for.
    fn breadth_first(&self) -> Vec<(Vec<u8>, usize)> {
        let (mut level, mut all) = (vec![self], Vec::new());
        while !level.is_empty() {
            all.extend(level.iter().map(|piece| (piece.address.clone(), piece.stands_for)));
            level = level.into_iter().flat_map(|piece| &piece.children).collect();
        }
        all
    }

    /// The lines of this node and those below that are kept.
    fn lines(&self, kept: &BTreeSet<Vec<u8>>, marked: &[Vec<u8>]) -> Vec<String> {
        let mut blocks: Vec<Vec<String>> = Vec::new();
        for child in &self.children {
            if kept.contains(&child.address) {
                blocks.push(child.lines(kept, marked));
            } else if blocks.last().is_none_or(|block| block[0] != "…") {
                blocks.push(vec!["…".to_string()]);
            }
        }
        let mark = if marked.contains(&self.address) { " <==" } else { "" };
        let mut lines = vec![format!("{}{mark}", self.label)];
        let count = blocks.len();
        for (number, block) in blocks.into_iter().enumerate() {
            let [first, other] = if number + 1 == count { ["└─ ", "   "] } else { ["├─ ", "│  "] };
            let guides = std::iter::once(first).chain(std::iter::repeat(other));
            lines.extend(block.into_iter().zip(guides).map(|(line, guide)| format!("{guide}{line}")));
        }
        lines
    }

    fn text(&self, kept: &BTreeSet<Vec<u8>>, marked: &[Vec<u8>]) -> String {
        self.lines(kept, marked).join("\n") + "\n"
    }
}

/// The steps between two nodes.
fn steps(one: &[u8], two: &[u8]) -> usize {
    let shared = one.iter().zip(two).take_while(|(one, two)| one == two).count();
    one.len() + two.len() - 2 * shared
}

/// Names of many lengths, some of which need escapes.
fn odd_names(random: &mut Random) -> Vec<String> {
    let some = ["f", "e", "<&\"'>", "a long name of a symbol", "W", "</text>", "ünïcödé", "漢字", "&amp;", "-->"];
    (0..64).map(|number| format!("{}{number}", random.pick(&some))).collect()
}

/// Trees of many shapes, with none to two nodes marked, cut and folded.
#[test]
fn input_trees_cut() {
    let mut random = Random::new(1);
    let (mut folds, mut cuts, mut further) = (0, 0, 0);
    for round in 0..600 {
        let alphabets = generate::Alphabets::random(&mut random);
        let growth = random.pick(&[Growth::Right, Growth::Left, Growth::Even(9), Growth::Even(14)]);
        let (nodes, levels) = random.pick(&[(60, 20), (200, 70), (400, 200)]);
        let file = generate::tree(&mut random, &alphabets.inputs, nodes, levels, growth);
        let tree =
            InputTree::read(&Alphabets::read(&alphabets.file()).expect("they are"), &file).expect("it is a tree");
        let names = odd_names(&mut random);
        let built = Built::of(&mut file.iter(), &alphabets.inputs, vec![]);
        let addresses = built.addresses();
        let marked: Vec<Vec<u8>> =
            (0..random.below(3)).map(|_| addresses[random.below(addresses.len())].clone()).collect();
        let most = random.range(1, 70);
        let given: Vec<Address> = marked.iter().cloned().map(Address::from).collect();
        let drawn = Drawn::input_tree(&tree, &names, most, &given);
        let pieces = built.folded(&names, &marked);
        let leads = |address: &Vec<u8>| marked.iter().any(|marked| marked.starts_with(address));
        let (first, others): (Vec<_>, Vec<_>) = pieces.breadth_first().into_iter().partition(|(at, _)| leads(at));
        let room = most.saturating_sub(first.len());
        let left_out: usize = others.iter().skip(room).map(|(_, stands_for)| stands_for).sum();
        let kept = first.iter().chain(others.iter().take(room)).map(|(at, _)| at.clone()).collect();
        assert_eq!(drawn.to_text(), pieces.text(&kept, &marked), "{round}");
        assert_eq!((drawn.left_out(), drawn.top()), (left_out, &Address::ROOT));
        assert_eq!(counts(&drawn)[0] + folded(&drawn) + left_out, file.len());
        assert_picture(&[("a <design>".to_string(), drawn.clone())]);
        folds += usize::from(folded(&drawn) > 0);
        cuts += usize::from(left_out > 0);
        further += usize::from(first.len() > most);
    }
    println!("{folds} with folded chains, {cuts} cut, {further} with more on the way to what is marked");
    assert!(folds > 50 && cuts > 100 && further > 5, "{folds} {cuts} {further}");
}

/// Chains of just so many nodes, their ends, and what is marked within them.
#[test]
fn folded_chains() {
    let alphabets = Alphabets::new(&[1, 0], &[0]).expect("they are alphabets");
    let names = names(&["a", "e"]);
    let drawn = |nodes: usize, marked: &[usize]| {
        let tree = InputTree::read(&alphabets, &[vec![0; nodes - 1], vec![1]].concat()).expect("it is a tree");
        let marked: Vec<Address> = marked.iter().map(|above| Address::from(vec![1; *above])).collect();
        Drawn::input_tree(&tree, &names, 60, &marked)
    };
    let labels = |drawn: &Drawn| -> Vec<String> {
        let text = drawn.to_text();
        text.lines().map(|line| line.trim_start_matches([' ', '└', '─']).to_string()).collect()
    };
    assert_eq!(labels(&drawn(1, &[])), ["e"]);
    // nine over the last one, which are not folded, and ten
    assert_eq!(labels(&drawn(10, &[])).concat(), "aaaaaaaaae");
    assert_eq!(labels(&drawn(11, &[])), ["a", "a", "a", "… (4 parts)", "a", "a", "a", "e"]);
    let longest = drawn(512, &[]);
    assert_eq!(labels(&longest), ["a", "a", "a", "… (505 parts)", "a", "a", "a", "e"]);
    assert_eq!(longest.left_out(), 0);
    assert_eq!(labels(&drawn(512, &[511])).last().map(String::as_str), Some("e <=="));
    let middle =
        ["a", "a", "a", "… (195 parts)", "a", "a", "a <==", "a", "a", "a", "… (304 parts)", "a", "a", "a", "e"];
    assert_eq!(labels(&drawn(512, &[200])), middle);
    // a picture of it is no higher than these levels
    let picture = svg(&[("design".to_string(), drawn(512, &[200, 511]))]);
    let [height] = elements(&picture)[0].numbers(["height"]);
    assert!(height < 1000.0 && picture.contains(">… (195 parts)</text>"), "{picture}");
}

/// A small transducer, with its alphabets and an input tree; nothing where the one that was drawn is refused.
fn small_case(random: &mut Random) -> Option<(generate::Alphabets, Transducer, InputTree)> {
    let alphabets = small_alphabets(random);
    let read = Alphabets::read(&alphabets.file()).expect("they are alphabets");
    let sheet = small_transducer(random, &alphabets, 4, 7).file();
    let transducer = Transducer::read(&read, &sheet).ok()?;
    let file = generate::tree(random, &alphabets.inputs, 12, 8, Growth::Even(14));
    let tree = InputTree::read(&read, &file).expect("it is a tree");
    Some((alphabets, transducer, tree))
}

/// Where a symbol of an output tree comes from, held against a translation that tells it.
#[test]
fn origins() {
    let mut random = Random::new(4);
    let (mut opened, mut found) = (0, 0);
    for round in 0..300 {
        let Some((alphabets, transducer, tree)) = small_case(&mut random) else { continue };
        if transducer.translate(&tree, 500).is_err() {
            continue;
        }
        let built = Built::of(&mut tree.as_bytes().iter(), &alphabets.inputs, vec![]);
        let written = written(&transducer, &transducer.initial_term(), None, &built);
        let symbols: Vec<u8> = written.iter().map(|(symbol, _)| *symbol).collect();
        for (node, (_, from)) in written.iter().enumerate() {
            let at = address_of(&symbols, &alphabets.outputs, node);
            let from = from.clone().map(Address::from);
            assert_eq!(origin(&transducer, &tree, &Address::from(at.clone())), from, "{round}");
            opened += usize::from(from.is_none());
            found += usize::from(from.is_some());
            let beyond = [&at[..], &[1 + alphabets.outputs[usize::from(symbols[node])]]].concat();
            assert_eq!(origin(&transducer, &tree, &Address::from(beyond)), None, "{round}");
        }
    }
    assert!(opened > 100 && found > 1000, "{opened} {found}");
}

/// The symbols that a term gives on a node, or in the initial term on the whole tree, and the nodes that they come from.
fn written(transducer: &Transducer, term: &[Mark], node: Option<&Built>, tree: &Built) -> Vec<(u8, Option<Vec<u8>>)> {
    let mark = |mark: &Mark| match *mark {
        Mark::Symbol(symbol) => vec![(symbol, node.map(|node| node.address.clone()))],
        Mark::Call { child, state } => {
            let below = node.map_or(tree, |node| &node.children[usize::from(child) - 1]);
            let term = transducer.right_hand_side(state.into(), below.symbol.into()).expect("it is total");
            written(transducer, &term, Some(below), tree)
        }
    };
    term.iter().flat_map(mark).collect()
}

#[test]
fn largest_input_trees() {
    for (growth, levels) in [(Growth::Right, 512), (Growth::Left, 512), (Growth::Even(16), 7)] {
        let alphabets = Alphabets::new(&[4, 0], &[0]).expect("they are alphabets");
        let file = generate::tree(&mut Random::new(2), alphabets.input_ranks(), 4_096, levels, growth);
        let tree = InputTree::read(&alphabets, &file).expect("it is a tree");
        let whole = Drawn::input_tree(&tree, &[], usize::MAX, &[]);
        let [nodes, ..] = counts(&whole);
        assert_eq!((nodes + folded(&whole), whole.left_out()), (file.len(), 0));
        assert_eq!(nodes < file.len(), levels == 512);
        assert_eq!((Drawn::input_tree(&tree, &[], 0, &[]).to_text().as_str(), file.len() > 2_000), ("…\n", true));
        assert_eq!(svg(&[("whole".to_string(), whole)]).matches("<rect ").count(), 1 + nodes);
    }
}

#[test]
fn output_trees_around() {
    let mut random = Random::new(3);
    let (mut cut_above, mut cut_below) = (0, 0);
    for round in 0..600 {
        let Some((alphabets, transducer, tree)) = small_case(&mut random) else { continue };
        let Ok(output) = transducer.translate(&tree, 2_000) else { continue };
        let built = Built::of(&mut output.as_bytes().iter(), &alphabets.outputs, vec![]);
        let marked = address_of(output.as_bytes(), &alphabets.outputs, random.below(output.nodes()));
        let (names, distance) = (odd_names(&mut random), random.below(6));
        let drawn = Drawn::around(&transducer, &tree, &Address::from(marked.clone()), &names, distance).expect("drawn");
        let kept = built.addresses().into_iter().filter(|at| steps(at, &marked) <= distance).collect();
        let top = &marked[..marked.len().saturating_sub(distance)];
        let first = if top.is_empty() { String::new() } else { format!("… (place {})\n", short(drawn.top())) };
        let expected = first + &built.at(top).whole(&names).text(&kept, std::slice::from_ref(&marked));
        assert_eq!((drawn.to_text(), drawn.top().as_bytes()), (expected, top), "{round}");
        cut_above += usize::from(!top.is_empty());
        cut_below += usize::from(counts(&drawn)[1] > 0);
        assert_picture(&[
            ("one".to_string(), drawn.clone()),
            ("a title that is longer than the tree".to_string(), drawn),
        ]);
    }
    assert!(cut_above > 50 && cut_below > 50, "{cut_above} {cut_below}");
}

#[test]
fn names_that_need_escapes() {
    let (transducer, tree) = sample(0);
    let names = names(&["<&\"'>", "a\u{1}\u{ffff}\u{fffe}\n\u{1b}"]);
    let drawn = Drawn::around(&transducer, &tree, &address("1"), &names, 2).expect("it is drawn");
    let text = "<&\"'>\n├─ a\u{fffd}\u{fffd}\u{fffd}\u{fffd}\u{fffd} <==\n";
    assert!(drawn.to_text().replace(['\u{fffe}', '\u{ffff}'], "\u{fffd}").starts_with(text), "{}", drawn.to_text());
    let picture = svg(&[("T & <U>\u{0}".to_string(), drawn)]);
    let texts: Vec<String> = elements(&picture).into_iter().filter(|e| e.name == "text").map(|e| e.text).collect();
    let second = "a\u{fffd}\u{fffd}\u{fffd}\n\u{fffd}";
    assert_eq!(texts, ["T & <U>\u{fffd}", "<&\"'>", second, second]);
    assert!(picture.contains(">&lt;&amp;&quot;&apos;&gt;</text>"));
}

#[test]
fn pictures_of_nothing() {
    assert_picture(&[]);
    assert_eq!(svg(&[]).matches("<rect ").count(), 1);
}

/// An element of a picture.
#[derive(Debug)]
struct Element {
    name: String,
    attributes: Vec<(String, String)>,
    text: String,
}

impl Element {
    fn get(&self, name: &str) -> Option<&str> {
        self.attributes.iter().find(|(other, _)| other == name).map(|(_, value)| value.as_str())
    }

    fn numbers<const N: usize>(&self, names: [&str; N]) -> [f64; N] {
        names.map(|name| self.get(name).expect("it is there").parse().expect("it is a number"))
    }
}

/// The text of XML without its escapes; panics at any character that XML does not allow there.
fn unescaped(text: &str) -> String {
    let mut parts = text.split('&');
    let mut plain = parts.next().unwrap_or("").to_string();
    for part in parts {
        let (entity, rest) = part.split_once(';').expect("an escape ends");
        let found = [("amp", '&'), ("lt", '<'), ("gt", '>'), ("quot", '"'), ("apos", '\'')];
        plain.push(found.iter().find(|(name, _)| *name == entity).expect("an escape of XML").1);
        plain += rest;
    }
    assert!(!text.contains(['<', '>', '"']), "{text}");
    let allowed =
        |c: char| matches!(c, '\t' | '\n' | '\r' | ' '..='\u{d7ff}' | '\u{e000}'..='\u{fffd}' | '\u{10000}'..);
    assert!(text.chars().all(allowed), "{text:?}");
    plain
}

/// The elements of a well-formed picture, in the order of their first tags; panics if it is not well formed.
fn elements(picture: &str) -> Vec<Element> {
    let body = picture.strip_prefix("<?xml version=\"1.0\" encoding=\"UTF-8\"?>\n").expect("it begins as XML");
    let (mut elements, mut open): (Vec<Element>, Vec<usize>) = (Vec::new(), Vec::new());
    let mut tags = body.split('<');
    assert_eq!(tags.next(), Some(""));
    for part in tags {
        let (tag, text) = part.split_once('>').expect("a tag ends");
        if let Some(name) = tag.strip_prefix('/') {
            let ended = open.pop().expect("a tag that is open");
            assert_eq!(elements[ended].name, name);
        } else {
            let (tag, ends) = tag.strip_suffix('/').map_or((tag, false), |tag| (tag, true));
            let (name, rest) = tag.split_once(' ').unwrap_or((tag, ""));
            assert!(!open.is_empty() || elements.is_empty(), "one element holds all");
            if !ends {
                open.push(elements.len());
            }
            elements.push(Element { name: name.to_string(), attributes: attributes(rest), text: String::new() });
        }
        match open.last() {
            Some(&element) => elements[element].text += &unescaped(text),
            None => assert_eq!(text.trim(), ""),
        }
    }
    assert!(open.is_empty());
    elements
}

fn attributes(mut rest: &str) -> Vec<(String, String)> {
    let mut attributes: Vec<(String, String)> = Vec::new();
    while !rest.is_empty() {
        let (name, behind) = rest.split_once("=\"").expect("a value in quotes");
        let (value, behind) = behind.split_once('"').expect("a value that ends");
        assert!(name.chars().all(|c| c.is_ascii_alphanumeric() || c == '-'), "{name}");
        assert!(attributes.iter().all(|(other, _)| other != name), "{name} twice");
        attributes.push((name.to_string(), unescaped(value)));
        assert!(behind.is_empty() || behind.starts_with(' '), "{behind}");
        rest = behind.trim_start();
    }
    attributes
}

/// Reads the picture back: it is well formed, holds the nodes of the texts, no two boxes overlap, and parents are in
/// the middle.
fn assert_picture(pictures: &[(String, Drawn)]) {
    let picture = svg(pictures);
    let elements = elements(&picture);
    let [width, height] = elements[0].numbers(["width", "height"]);
    let [w, h] = ["width", "height"].map(|name| elements[0].get(name).expect("it is there"));
    assert_eq!((elements[0].name.as_str(), elements[0].get("viewBox")), ("svg", Some(format!("0 0 {w} {h}").as_str())));
    let decimals =
        |value: &str| value.parse::<f64>().is_err() || value.split_once('.').is_none_or(|(_, d)| d.len() == 1);
    assert!(elements.iter().flat_map(|e| &e.attributes[..]).all(|(name, v)| name == "version" || decimals(v)));
    let boxes: Vec<&Element> = elements.iter().filter(|e| e.name == "rect" && e.get("rx").is_some()).collect();
    let mut totals = [0; 3];
    for (_, drawn) in pictures {
        let above = usize::from(drawn.top() != &Address::ROOT);
        totals.iter_mut().zip(counts(drawn)).for_each(|(total, count)| *total += count);
        totals[1] += above;
    }
    let marked = boxes.iter().filter(|e| e.get("fill") == Some("#d62728")).count();
    let texts = elements.iter().filter(|e| e.name == "text").count();
    assert_eq!([boxes.len(), texts - boxes.len() - pictures.len(), marked], totals, "{picture}");
    let rects: Vec<[f64; 4]> = boxes.iter().map(|e| e.numbers(["x", "y", "width", "height"])).collect();
    let inside = |[x, y, w, h]: [f64; 4]| x > 0.0 && y > 0.0 && x + w < width && y + h < height;
    assert!(rects.iter().all(|&rect| inside(rect)), "{picture}");
    for (number, [x, y, w, h]) in rects.iter().enumerate() {
        let apart = |[x2, y2, w2, h2]: &[f64; 4]| x + w < *x2 || x2 + w2 < *x || y + h < *y2 || y2 + h2 < *y;
        assert!(rects[..number].iter().all(apart), "{picture}");
    }
    assert_lines(&elements, &rects, totals[0] + totals[1], pictures.len());
}

/// The lines of a picture: one to each node but the first, and those between trees.
fn assert_lines(elements: &[Element], rects: &[[f64; 4]], nodes: usize, trees: usize) {
    let lines = elements.iter().filter(|e| e.name == "line");
    let (edges, dividers): (Vec<&Element>, Vec<&Element>) = lines.partition(|e| e.get("stroke") == Some("#555555"));
    assert_eq!((edges.len(), dividers.len()), (nodes - trees, trees.saturating_sub(1)));
    for divider in dividers {
        let [x] = divider.numbers(["x1"]);
        assert!(rects.iter().all(|[left, _, w, _]| left + w < x || *left > x));
    }
    let mut groups: Vec<([f64; 2], Vec<f64>)> = Vec::new();
    for edge in edges {
        let [x1, y1, x2, y2] = edge.numbers(["x1", "y1", "x2", "y2"]);
        assert!(y1 < y2);
        match groups.iter_mut().find(|(parent, _)| *parent == [x1, y1]) {
            Some((_, children)) => children.push(x2),
            None => groups.push(([x1, y1], vec![x2])),
        }
    }
    for ([x, _], children) in groups {
        let (first, last) = (children[0], children[children.len() - 1]);
        assert!(children.is_sorted() && ((first + last) / 2.0 - x).abs() <= 0.11, "{x} {children:?}");
    }
}
