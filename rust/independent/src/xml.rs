//! Output trees as XML (the paper: plans as XML, of document 02).
//!
//! The writer builds the tree, its nodes pointing to their children, and walks it. The reader is a parser of one
//! element: it goes from tag to tag with the elements that are open.
use crate::{read_alphabets, MAX_RANK, NOT_AN_OUTPUT, TARGET_TOO_SHORT};

/// The most nodes of an output tree as XML.
pub const MAX_XML_NODES: usize = 4096;

/// The longest text of one: nodes with one child have two tags of 4 and 5 bytes, and the leaf below them one of 5.
pub const MAX_XML: usize = 9 * (MAX_XML_NODES - 1) + 5;

/// Writes the output tree `tree` as XML to the start of `area`, and answers its length. Refuses by 2, by 11 what is no
/// output tree of at most 4,096 nodes, and by 12 an area shorter than the text.
pub fn write_xml(stock: &[u8], tree: &[u8], area: &mut [u8]) -> Result<usize, u32> {
    let outputs = read_alphabets(stock)?.outputs;
    let tree = Built::new(outputs, tree).ok_or(NOT_AN_OUTPUT)?;
    put(&tree.text(), area)
}

/// Reads the output tree of the XML `text`, writes it to the start of `area`, and answers how many nodes it has. Refuses
/// by 2, by 11 what [`write_xml`] does not write, and by 12 an area shorter than the tree.
pub fn read_xml(stock: &[u8], text: &[u8], area: &mut [u8]) -> Result<usize, u32> {
    let outputs = read_alphabets(stock)?.outputs;
    let tree = Parser { outputs, rest: text }.document().ok_or(NOT_AN_OUTPUT)?;
    put(&tree, area)
}

/// Copies a result to the start of `area`, if there is room.
fn put(result: &[u8], area: &mut [u8]) -> Result<usize, u32> {
    area.get_mut(..result.len()).ok_or(TARGET_TOO_SHORT)?.copy_from_slice(result);
    Ok(result.len())
}

/// A node of a tree in memory.
struct Node {
    symbol: u8,
    rank: u8,
    /// The indices of its children; as many as its rank.
    children: [u16; MAX_RANK as usize],
}

/// A tree in memory. Its root is the last node.
struct Built(Vec<Node>);

impl Built {
    /// The tree of these symbols in preorder, if they are one. Read from the last symbol on, each takes its children from
    /// the trees that stand behind it.
    fn new(outputs: &[u8], symbols: &[u8]) -> Option<Self> {
        if symbols.len() > MAX_XML_NODES {
            return None;
        }
        let mut nodes = Vec::with_capacity(symbols.len());
        let mut trees: Vec<u16> = Vec::new();
        for &symbol in symbols.iter().rev() {
            let rank = *outputs.get(usize::from(symbol))?;
            let mut children = [0; MAX_RANK as usize];
            for child in &mut children[..usize::from(rank)] {
                *child = trees.pop()?;
            }
            trees.push(nodes.len() as u16);
            nodes.push(Node { symbol, rank, children });
        }
        (trees.len() == 1).then_some(Built(nodes))
    }

    fn text(&self) -> Vec<u8> {
        enum Step {
            Element(u16),
            End(u8),
        }
        let mut text = Vec::with_capacity(9 * self.0.len());
        let mut steps = vec![Step::Element(self.0.len() as u16 - 1)];
        while let Some(step) = steps.pop() {
            match step {
                Step::End(symbol) => {
                    let [letter, digit] = code(symbol);
                    text.extend_from_slice(&[b'<', b'/', letter, digit, b'>']);
                }
                Step::Element(node) => {
                    let Node { symbol, rank, children } = &self.0[usize::from(node)];
                    let [letter, digit] = code(*symbol);
                    if *rank == 0 {
                        text.extend_from_slice(&[b'<', letter, digit, b'/', b'>']);
                        continue;
                    }
                    text.extend_from_slice(&[b'<', letter, digit, b'>']);
                    steps.push(Step::End(*symbol));
                    steps.extend(children[..usize::from(*rank)].iter().rev().map(|&child| Step::Element(child)));
                }
            }
        }
        text
    }
}

/// The code of a symbol.
fn code(symbol: u8) -> [u8; 2] {
    [b'A' + symbol / 8, b'1' + symbol % 8]
}

/// A tag, with its symbol.
enum Tag {
    Start(u8),
    End(u8),
    Empty(u8),
}

/// What is left of a text.
struct Parser<'a> {
    outputs: &'a [u8],
    rest: &'a [u8],
}

impl Parser<'_> {
    /// One element and nothing behind it: its symbols in preorder.
    fn document(mut self) -> Option<Vec<u8>> {
        let symbols = self.element()?;
        self.rest.is_empty().then_some(symbols)
    }

    /// One element, with those within it.
    fn element(&mut self) -> Option<Vec<u8>> {
        let mut symbols = Vec::new();
        // The elements that are open: the symbol of each, and how many children it has had.
        let mut open: Vec<(u8, usize)> = Vec::new();
        while symbols.len() <= MAX_XML_NODES {
            match self.tag()? {
                Tag::Start(symbol) => {
                    symbols.push(symbol);
                    open.push((symbol, 0));
                    continue;
                }
                Tag::Empty(symbol) if self.rank(symbol) == 0 => symbols.push(symbol),
                Tag::End(symbol) if self.rank(symbol) > 0 && open.pop()? == (symbol, self.rank(symbol)) => {}
                _ => return None,
            }
            match open.last_mut() {
                Some((_, children)) => *children += 1,
                None => return (symbols.len() <= MAX_XML_NODES).then_some(symbols),
            }
        }
        None
    }

    fn rank(&self, symbol: u8) -> usize {
        usize::from(self.outputs[usize::from(symbol)])
    }

    /// The next tag.
    fn tag(&mut self) -> Option<Tag> {
        self.skip(b'<')?;
        let ends = self.skip(b'/').is_some();
        let symbol = self.symbol()?;
        let empty = !ends && self.skip(b'/').is_some();
        self.skip(b'>')?;
        Some(match (ends, empty) {
            (true, _) => Tag::End(symbol),
            (_, true) => Tag::Empty(symbol),
            _ => Tag::Start(symbol),
        })
    }

    /// The symbol of a code.
    fn symbol(&mut self) -> Option<u8> {
        let (&[letter, digit], rest) = self.rest.split_first_chunk()?;
        self.rest = rest;
        let [row, column] = [letter.checked_sub(b'A')?, digit.checked_sub(b'1')?];
        let known = row < 8 && column < 8 && usize::from(8 * row + column) < self.outputs.len();
        known.then(|| 8 * row + column)
    }

    /// Passes this byte, if it is the next one.
    fn skip(&mut self, byte: u8) -> Option<()> {
        self.rest = self.rest.strip_prefix(&[byte])?;
        Some(())
    }
}
