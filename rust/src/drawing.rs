//! Trees drawn as text and as pictures.
//!
//! An output tree is never built for its drawing: [`Drawn::around`] asks for the symbols near one address only.
//!
//! ```
//! use caplune::drawing::{svg, Drawn};
//! use caplune::{Address, Alphabets, InputTree, Refusal, Transducer};
//! let alphabets = Alphabets::new(&[1, 0], &[2, 0])?;
//! // q(a(x1)) = f(q(x1), q(x1)), q(e) = e, with the initial term f(q(x1), q(x1))
//! let file = [1, 0, 3, 0, 3, 0, 1, 0, 0, 1, 0, 1, 0, 0, 0, 1, 0, 1, 0, 0, 1];
//! let transducer = Transducer::read(&alphabets, &file)?;
//! let tree = InputTree::read(&alphabets, &[0, 1])?;
//! let names = ["f".to_string(), "e".to_string()];
//! let drawn = Drawn::around(&transducer, &tree, &Address::from(vec![1]), &names, 2)?;
//! assert_eq!(drawn.to_text(), "f\n├─ f <==\n│  ├─ e\n│  └─ e\n└─ f\n   └─ …\n");
//! assert!(svg(&[("first".to_string(), drawn)]).contains("#d62728"));
//! # Ok::<(), Refusal>(())
//! ```
use crate::{Address, InputTree, Mark, Refusal, Transducer};
use std::collections::{BTreeMap, HashSet, VecDeque};
use std::fmt::Write;

/// A tree to draw: the nodes that are drawn, in preorder, a "…" for each run of children that are left out, and a line
/// for each chain that is folded.
#[must_use]
#[derive(Clone, Debug, PartialEq, Eq)]
pub struct Drawn {
    nodes: Vec<Node>,
    top: Address,
    left_out: usize,
}

#[derive(Clone, Debug, PartialEq, Eq)]
struct Node {
    /// How many nodes of the drawing are above it.
    level: usize,
    label: String,
    kind: Kind,
}

#[derive(Clone, Copy, Debug, PartialEq, Eq)]
enum Kind {
    Plain,
    Marked,
    /// Not a node: it stands for adjacent children that are left out, or for all that is above the first node.
    LeftOut,
    /// Not a node: it stands for the middle of a chain.
    Folded,
}

impl Node {
    fn left_out(level: usize) -> Self {
        Node { level, label: "…".to_string(), kind: Kind::LeftOut }
    }

    /// The middle of a chain, of so many nodes.
    fn folded(level: usize, count: usize) -> Self {
        Node { level, label: format!("… ({count} parts)"), kind: Kind::Folded }
    }

    /// The node of a symbol. A symbol without a name has its number as its label.
    fn of(level: usize, symbol: u8, names: &[String], marked: bool) -> Self {
        let name = names.get(usize::from(symbol)).filter(|name| !name.is_empty());
        let kind = if marked { Kind::Marked } else { Kind::Plain };
        Node { level, label: name.cloned().unwrap_or_else(|| symbol.to_string()), kind }
    }
}

impl Drawn {
    /// The most nodes that [`around`](Self::around) draws, whatever the distance: as many as the largest input tree
    /// has.
    pub const MOST_NODES: usize = 4_096;

    /// An input tree (the paper: a design), in which long chains are folded: of a chain the first and the last three
    /// nodes are drawn, and one line tells how many are between. A chain goes on from a node to its one child that is no
    /// leaf. If more than `most` nodes are left, the first ones in breadth-first order are drawn, and "…" in place of
    /// the children that are left out. The nodes at the addresses `marked` are marked and always drawn, as are those on
    /// the way to them, but for chains, which are folded. `names` are those of the input symbols.
    ///
    /// ```
    /// use caplune::drawing::Drawn;
    /// use caplune::{Address, Alphabets, InputTree, Refusal};
    /// let alphabets = Alphabets::new(&[2, 0], &[0])?;
    /// let tree = InputTree::read(&alphabets, &[0, 0, 1, 1, 1])?;
    /// let drawn = Drawn::input_tree(&tree, &["a".to_string()], 3, &[]);
    /// assert_eq!((drawn.to_text().as_str(), drawn.left_out()), ("a\n├─ a\n│  └─ …\n└─ 1\n", 2));
    /// // 100 nodes of rank 2, each over the next one and a leaf
    /// let tree = InputTree::read(&alphabets, &[vec![0; 100], vec![1; 101]].concat())?;
    /// let text = Drawn::input_tree(&tree, &[], 60, &[]).to_text();
    /// assert!(text.contains("─ … (188 parts)\n") && text.lines().count() == 14);
    /// # Ok::<(), Refusal>(())
    /// ```
    pub fn input_tree(tree: &InputTree, names: &[String], most: usize, marked: &[Address]) -> Drawn {
        let shape = Shape::of(ranks_of(tree));
        let marked: Vec<usize> = marked.iter().filter_map(|address| shape.at(address)).collect();
        let entries = shape.folded(&marked);
        let drawn = shape.first(&entries, most, &marked);
        let mut nodes = Vec::new();
        // By level: whether the node that was met last is drawn.
        let mut above: Vec<bool> = Vec::new();
        for entry in &entries {
            above.truncate(entry.level);
            let (is_drawn, below_drawn) = (drawn.contains(&entry.node), above.last().is_none_or(|drawn| *drawn));
            above.push(is_drawn);
            match (is_drawn, entry.stands_for) {
                (true, 1) => {
                    let (symbol, is_marked) = (tree.as_bytes()[entry.node], marked.contains(&entry.node));
                    nodes.push(Node::of(entry.level, symbol, names, is_marked));
                }
                (true, count) => nodes.push(Node::folded(entry.level, count)),
                (false, _) if below_drawn => nodes.push(Node::left_out(entry.level)),
                (false, _) => {}
            }
        }
        let left_out = entries.iter().filter(|entry| !drawn.contains(&entry.node)).map(|entry| entry.stands_for).sum();
        Drawn { nodes: joined(nodes.into_iter()), top: Address::ROOT, left_out }
    }

    /// The output tree of a transducer (the paper: a plan) around an address: all nodes at most `distance` steps from
    /// it, up and down, the node at the address marked; where children are left out stands "…". `names` are those of
    /// the output symbols.
    ///
    /// If there are more than [`MOST_NODES`](Self::MOST_NODES) such nodes, the nearest ones are drawn. If the output
    /// tree has no such address, no node is marked. Refuses as [`symbol_at`](Transducer::symbol_at) does.
    pub fn around(
        transducer: &Transducer,
        tree: &InputTree,
        address: &Address,
        names: &[String],
        distance: usize,
    ) -> Result<Drawn, Refusal> {
        let distance = distance.min(Self::MOST_NODES);
        let numbers = address.as_bytes();
        let (above, path) = numbers.split_at(numbers.len().saturating_sub(distance));
        let symbol_at = |below: &[u8]| transducer.symbol_at(tree, &Address::from([above, below].concat()));
        let kept = nearest(symbol_at, transducer.alphabets().output_ranks(), path, distance)?;
        let top = kept.keys().next().cloned().unwrap_or_default();
        let level = |at: &[u8]| at.len().saturating_sub(top.len());
        let entries = with_left_out(&kept, transducer.alphabets().output_ranks());
        let nodes = entries.iter().map(|(at, symbol)| match symbol {
            Some(symbol) => Node::of(level(at), *symbol, names, at == path),
            None => Node::left_out(level(at)),
        });
        Ok(Drawn { nodes: joined(nodes), top: Address::from([above, &top].concat()), left_out: 0 })
    }

    /// The address of the first node drawn: the root, unless [`around`](Self::around) left out nodes above it.
    pub fn top(&self) -> &Address {
        &self.top
    }

    /// How many nodes [`input_tree`](Self::input_tree) left out, without those that it folded. It is not known of an output tree, and 0 then.
    #[must_use]
    pub fn left_out(&self) -> usize {
        self.left_out
    }

    /// As text, a node a line, the marked one with ` <==` behind it. If the first node is not the root, its address is
    /// in a line before it. A control character in a name is written as U+FFFD.
    #[must_use]
    pub fn to_text(&self) -> String {
        let mut text = String::new();
        if self.top != Address::ROOT {
            text += &format!("… (place {})\n", short(&self.top));
        }
        // For each level above but the first: what stands there on a line, a bar if more children follow.
        let mut bars: Vec<&str> = Vec::new();
        for (node, last) in self.nodes.iter().zip(last_children(&self.nodes)) {
            if let Some(above) = node.level.checked_sub(1) {
                bars.truncate(above);
                text.extend(bars.iter().copied());
                text += if last { "└─ " } else { "├─ " };
                bars.push(if last { "   " } else { "│  " });
            }
            text.extend(node.label.chars().map(|c| if c.is_control() { '\u{fffd}' } else { c }));
            text += if node.kind == Kind::Marked { " <==\n" } else { "\n" };
        }
        text
    }

    /// The nodes of a picture: those drawn, below a "…" if the first is not the root.
    fn pictured(&self) -> Vec<Node> {
        let cut = self.top != Address::ROOT;
        let below = self.nodes.iter().map(|node| Node { level: node.level + usize::from(cut), ..node.clone() });
        cut.then(|| Node::left_out(0)).into_iter().chain(below).collect()
    }
}

/// An address as text; one of over 12 numbers without those in the middle.
///
/// ```
/// use caplune::drawing::short;
/// use caplune::Address;
/// assert_eq!(short(&Address::from(vec![1, 2, 1])), "1.2.1");
/// assert_eq!(short(&Address::from([[1, 2], [1, 1], [2, 2]].concat().repeat(64))), "1.2.1.….2.2 (384 numbers)");
/// ```
#[must_use]
pub fn short(address: &Address) -> String {
    match address.as_bytes() {
        [first, second, third, middle @ .., before, last] if middle.len() + 5 > 12 => {
            format!("{first}.{second}.{third}.….{before}.{last} ({} numbers)", middle.len() + 5)
        }
        _ => address.to_string(),
    }
}

/// The rank of a symbol.
fn rank(ranks: &[u8], symbol: u8) -> u8 {
    ranks.get(usize::from(symbol)).copied().unwrap_or(0)
}

/// The ranks of the nodes of an input tree, in preorder.
fn ranks_of(tree: &InputTree) -> impl DoubleEndedIterator<Item = u8> + '_ {
    tree.as_bytes().iter().map(|&symbol| rank(tree.alphabets().input_ranks(), symbol))
}

/// The address of the node at which a transducer writes the symbol at an address of its output tree (the paper: the part
/// at which a sheet lays the block at a place). `None` where the initial term has that symbol, and where there is no such
/// address.
///
/// ```
/// use caplune::drawing::origin;
/// use caplune::{Address, Alphabets, InputTree, Refusal, Transducer};
/// let alphabets = Alphabets::new(&[1, 0], &[2, 0])?;
/// // q(a(x1)) = f(q(x1), q(x1)), q(e) = e, with the initial term f(q(x1), q(x1))
/// let file = [1, 0, 3, 0, 3, 0, 1, 0, 0, 1, 0, 1, 0, 0, 0, 1, 0, 1, 0, 0, 1];
/// let (transducer, tree) = (Transducer::read(&alphabets, &file)?, InputTree::read(&alphabets, &[0, 1])?);
/// let origin = |at: &[u8]| origin(&transducer, &tree, &Address::from(at.to_vec())).map(|found| found.to_string());
/// assert_eq!([origin(&[]), origin(&[2]), origin(&[2, 1])], [None, Some("-".to_string()), Some("1".to_string())]);
/// # Ok::<(), Refusal>(())
/// ```
#[must_use]
pub fn origin(transducer: &Transducer, tree: &InputTree, address: &Address) -> Option<Address> {
    let input = Shape::of(ranks_of(tree));
    let output_ranks = transducer.alphabets().output_ranks();
    let mut numbers = address.as_bytes().iter();
    // Where in the input tree the right-hand side is read; nowhere yet in the initial term.
    let (mut path, mut node): (Option<Vec<u8>>, usize) = (None, 0);
    let (mut term, mut at) = (transducer.initial_term(), 0);
    loop {
        match *term.get(at)? {
            Mark::Symbol(_) => {
                let Some(&number) = numbers.next() else { return path.map(Address::from) };
                at = Shape::of(term.iter().map(|mark| mark_rank(*mark, output_ranks))).child(at, number)?;
            }
            Mark::Call { child, state } => {
                if path.is_some() {
                    node = input.child(node, child)?;
                }
                path = Some(path.map_or(Vec::new(), |path| child_of(&path, child)));
                term = transducer.right_hand_side(state.into(), tree.as_bytes()[node].into())?;
                at = 0;
            }
        }
    }
}

/// The rank of a mark: that of its symbol, and 0 of a call.
fn mark_rank(mark: Mark, ranks: &[u8]) -> u8 {
    match mark {
        Mark::Symbol(symbol) => rank(ranks, symbol),
        Mark::Call { .. } => 0,
    }
}

/// How many nodes of a chain are drawn at either end.
const ENDS: usize = 3;
/// The longest chain that is not folded.
const LONGEST_CHAIN: usize = 9;

/// The nodes of a tree, in preorder.
struct Shape {
    /// How many nodes are above each.
    levels: Vec<usize>,
    /// How many are at and below each.
    sizes: Vec<usize>,
}

/// A node that is not folded, or the first of those that are.
struct Entry {
    node: usize,
    /// How many entries are above it.
    level: usize,
    /// How many nodes it stands for: 1 where nothing is folded.
    stands_for: usize,
}

impl Shape {
    /// Of the tree of nodes with these ranks.
    fn of(ranks: impl DoubleEndedIterator<Item = u8>) -> Self {
        let mut sizes = Vec::new();
        // From the end on: the sizes of the sub-trees whose parent is not reached yet.
        let mut waiting: Vec<usize> = Vec::new();
        for rank in ranks.rev() {
            let children = waiting.len().saturating_sub(rank.into());
            let size = 1 + waiting.drain(children..).sum::<usize>();
            waiting.push(size);
            sizes.push(size);
        }
        sizes.reverse();
        let mut levels = vec![0; sizes.len()];
        for (node, size) in sizes.iter().enumerate() {
            levels[node + 1..node + size].iter_mut().for_each(|level| *level += 1);
        }
        Shape { levels, sizes }
    }

    fn children(&self, node: usize) -> impl Iterator<Item = usize> + '_ {
        let end = node + self.sizes[node];
        let next = move |child: &usize| self.sizes.get(*child).map(|size| child + size);
        std::iter::successors(Some(node + 1), next).take_while(move |child| *child < end)
    }

    /// The child of this number, from 1 on.
    fn child(&self, node: usize, number: u8) -> Option<usize> {
        self.children(node).nth(usize::from(number).checked_sub(1)?)
    }

    /// The node at an address.
    fn at(&self, address: &Address) -> Option<usize> {
        address.as_bytes().iter().try_fold(0, |node, &number| self.child(node, number))
    }

    /// Where a chain goes on behind a node: its one child that is no leaf. There is none if it has more of them, or it
    /// or one of its leaves is marked.
    fn next(&self, node: usize, marked: &[usize]) -> Option<usize> {
        let (leaves, others): (Vec<usize>, Vec<usize>) = self.children(node).partition(|&child| self.sizes[child] == 1);
        let hides = leaves.iter().chain([&node]).any(|node| marked.contains(node));
        match others[..] {
            [next] if !hides => Some(next),
            _ => None,
        }
    }

    /// What is folded: from the first of the nodes of a chain that are not drawn up to the next one that is.
    fn folds(&self, marked: &[usize]) -> Vec<(usize, usize)> {
        let mut folds = Vec::new();
        let mut chained = vec![false; self.sizes.len()];
        for node in 0..self.sizes.len() {
            if chained[node] {
                continue;
            }
            let chain: Vec<usize> = std::iter::successors(Some(node), |node| self.next(*node, marked)).collect();
            chain.iter().for_each(|node| chained[*node] = true);
            if chain.len() > LONGEST_CHAIN {
                folds.push((chain[ENDS], chain[chain.len() - ENDS]));
            }
        }
        folds
    }

    /// The entries of the tree in preorder, with its long chains folded.
    fn folded(&self, marked: &[usize]) -> Vec<Entry> {
        let mut levels = self.levels.clone();
        let mut stands_for = vec![1; levels.len()];
        for (first, end) in self.folds(marked) {
            let behind = end + self.sizes[end];
            stands_for[first..end].fill(0);
            stands_for[behind..first + self.sizes[first]].fill(0);
            stands_for[first] = self.sizes[first] - self.sizes[end];
            let passed = self.levels[end] - self.levels[first] - 1;
            levels[end..behind].iter_mut().for_each(|level| *level -= passed);
        }
        let entries = levels.into_iter().zip(stands_for).enumerate();
        let entry = |(node, (level, stands_for))| Entry { node, level, stands_for };
        entries.map(entry).filter(|entry| entry.stands_for > 0).collect()
    }

    /// The nodes of the entries that are drawn: those on the way to a node that is marked, and the first ones in
    /// breadth-first order, up to `most`.
    fn first(&self, entries: &[Entry], most: usize, marked: &[usize]) -> HashSet<usize> {
        let leads = |node: usize| marked.iter().any(|marked| (node..node + self.sizes[node]).contains(marked));
        let mut order: Vec<_> = entries.iter().map(|entry| (!leads(entry.node), entry.level, entry.node)).collect();
        order.sort_unstable();
        let least = order.iter().filter(|(aside, ..)| !aside).count();
        order.into_iter().take(most.max(least)).map(|(_, _, node)| node).collect()
    }
}

/// The symbols at most `distance` steps from `path`, by address, and at most [`Drawn::MOST_NODES`] of them: the nearest
/// ones.
fn nearest(
    symbol_at: impl Fn(&[u8]) -> Result<Option<u8>, Refusal>,
    ranks: &[u8],
    path: &[u8],
    distance: usize,
) -> Result<BTreeMap<Vec<u8>, u8>, Refusal> {
    let mut kept = BTreeMap::new();
    let mut reached = VecDeque::from([(path.to_vec(), 0)]);
    while let Some((at, steps)) = reached.pop_front() {
        // A child of a node on the path may have been reached from below.
        if kept.contains_key(&at) {
            continue;
        }
        if kept.len() == Drawn::MOST_NODES {
            break;
        }
        let symbol = symbol_at(&at)?;
        if steps < distance {
            let parent = at.split_last().filter(|_| path.starts_with(&at)).map(|(_, parent)| parent.to_vec());
            let children = (1..=symbol.map_or(0, |symbol| rank(ranks, symbol))).map(|child| child_of(&at, child));
            reached.extend(parent.into_iter().chain(children).map(|next| (next, steps + 1)));
        }
        symbol.and_then(|symbol| kept.insert(at, symbol));
    }
    Ok(kept)
}

fn child_of(address: &[u8], child: u8) -> Vec<u8> {
    [address, &[child]].concat()
}

/// These symbols, and `None` for each of their children that is not among them; in preorder, which is the order of
/// addresses. Without any symbol, `None` for the whole tree.
fn with_left_out(kept: &BTreeMap<Vec<u8>, u8>, ranks: &[u8]) -> BTreeMap<Vec<u8>, Option<u8>> {
    let mut entries = BTreeMap::new();
    for (at, &symbol) in kept {
        entries.extend((1..=rank(ranks, symbol)).map(|child| (child_of(at, child), None)));
    }
    entries.extend(kept.iter().map(|(at, &symbol)| (at.clone(), Some(symbol))));
    if entries.is_empty() {
        entries.insert(Vec::new(), None);
    }
    entries
}

/// These nodes in preorder, with one "…" for adjacent children that are left out.
fn joined(nodes: impl Iterator<Item = Node>) -> Vec<Node> {
    let mut joined: Vec<Node> = nodes.collect();
    // Between children of two nodes stands the second of these, so that equal neighbours have one parent.
    joined.dedup_by(|next, node| next.kind == Kind::LeftOut && *next == *node);
    joined
}

/// Whether each of these nodes in preorder is the last child of its parent.
fn last_children(nodes: &[Node]) -> Vec<bool> {
    // By level, from the end on: whether a node with the same parent follows.
    let mut follows: Vec<bool> = Vec::new();
    let last = |node: &Node| {
        follows.resize(node.level + 1, false);
        follows.last_mut().is_some_and(|follows| !std::mem::replace(follows, true))
    };
    let mut last: Vec<bool> = nodes.iter().rev().map(last).collect();
    last.reverse();
    last
}

// Lengths of a picture, in pixels.
const MARGIN: f64 = 20.0;
const TITLE_HEIGHT: f64 = 40.0;
const BOX_HEIGHT: f64 = 26.0;
const LEVEL_HEIGHT: f64 = 56.0;
const BETWEEN_BOXES: f64 = 14.0;
const BETWEEN_TREES: f64 = 60.0;
/// From the middle of a line of text to the line that its letters stand on.
const TEXT_DROP: f64 = 5.0;

/// A picture (SVG 1.1) of several trees side by side, each with a title.
///
/// ```
/// use caplune::drawing::{svg, Drawn};
/// use caplune::{Alphabets, InputTree, Refusal};
/// let tree = InputTree::read(&Alphabets::new(&[2, 0], &[0])?, &[0, 1, 1])?;
/// let drawn = Drawn::input_tree(&tree, &["a & b".to_string()], 10, &[]);
/// let picture = svg(&[("first".to_string(), drawn)]);
/// assert!(picture.starts_with("<?xml") && picture.contains(">a &amp; b</text>"));
/// # Ok::<(), Refusal>(())
/// ```
#[must_use]
pub fn svg(pictures: &[(String, Drawn)]) -> String {
    let (mut body, mut dividers) = (String::new(), Vec::new());
    let (mut right, mut bottom) = (MARGIN, MARGIN);
    for (number, (title, drawn)) in pictures.iter().enumerate() {
        if number > 0 {
            dividers.push(right + BETWEEN_TREES / 2.0);
            right += BETWEEN_TREES;
        }
        let layout = Layout::of(drawn);
        // Titles are bold, and so a little wider.
        let width = layout.width.max(1.15 * text_width(title));
        write_title(&mut body, title, right + width / 2.0);
        layout.write(&mut body, right + (width - layout.width) / 2.0);
        right += width;
        bottom = bottom.max(MARGIN + TITLE_HEIGHT + layout.height);
    }
    let (width, height) = (pixels(right + MARGIN), pixels(bottom + MARGIN));
    let mut picture = format!(
        "<?xml version=\"1.0\" encoding=\"UTF-8\"?>\n\
         <svg xmlns=\"http://www.w3.org/2000/svg\" version=\"1.1\" width=\"{width}\" height=\"{height}\" \
         viewBox=\"0 0 {width} {height}\" font-family=\"sans-serif\" font-size=\"14\" text-anchor=\"middle\">\n\
         <rect width=\"{width}\" height=\"{height}\" fill=\"#ffffff\"/>\n"
    );
    dividers.iter().for_each(|&x| write_line(&mut picture, (x, MARGIN), (x, bottom), "#cccccc"));
    picture + &body + "</svg>\n"
}

/// The nodes of a picture with their positions, from the left edge and the upper edge of the tree.
struct Layout {
    nodes: Vec<Placed>,
    width: f64,
    height: f64,
}

struct Placed {
    node: Node,
    /// The middle of its box.
    centre: (f64, f64),
    /// That of its parent.
    parent: Option<(f64, f64)>,
}

/// The width that a node and all below it take.
struct Span {
    width: f64,
    /// From the left edge to the middle of the node.
    centre: f64,
    /// From the left edge to that of the first child's span.
    children: f64,
}

impl Layout {
    fn of(drawn: &Drawn) -> Self {
        let nodes = drawn.pictured();
        let spans = spans(&nodes);
        let width = spans.first().map_or(0.0, |span| span.width);
        let deepest = nodes.iter().map(|node| node.level).max().unwrap_or(0);
        // By level: where the next span starts, and the middle of the node that was placed last.
        let (mut starts, mut centres) = (vec![0.0], Vec::new());
        let mut placed = Vec::with_capacity(nodes.len());
        for (node, span) in nodes.into_iter().zip(spans) {
            starts.truncate(node.level + 1);
            centres.truncate(node.level);
            let left = starts.pop().unwrap_or(0.0);
            let centre = (left + span.centre, BOX_HEIGHT / 2.0 + LEVEL_HEIGHT * node.level as f64);
            placed.push(Placed { node, centre, parent: centres.last().copied() });
            starts.extend([left + span.width + BETWEEN_BOXES, left + span.children]);
            centres.push(centre);
        }
        Layout { nodes: placed, width, height: BOX_HEIGHT + LEVEL_HEIGHT * deepest as f64 }
    }

    /// Writes the tree with its left edge at `left`: all lines first, so that no line is over a box.
    fn write(&self, body: &mut String, left: f64) {
        let moved = |(x, y): (f64, f64)| (left + x, MARGIN + TITLE_HEIGHT + y);
        for placed in &self.nodes {
            if let Some(parent) = placed.parent {
                let ((x1, y1), (x2, y2)) = (moved(parent), moved(placed.centre));
                write_line(body, (x1, y1 + BOX_HEIGHT / 2.0), (x2, y2 - BOX_HEIGHT / 2.0), "#555555");
            }
        }
        self.nodes.iter().for_each(|placed| write_node(body, &placed.node, moved(placed.centre)));
    }
}

/// The span of each of these nodes in preorder. A node is in the middle over its first and last child; spans of
/// neighbours do not overlap, and each box is within its span.
fn spans(nodes: &[Node]) -> Vec<Span> {
    // By level, from the end on: width and middle of the spans whose parent is not reached yet.
    let mut waiting: Vec<Vec<(f64, f64)>> = Vec::new();
    let mut spans = Vec::with_capacity(nodes.len());
    for node in nodes.iter().rev() {
        waiting.resize(node.level + 2, Vec::new());
        let children = waiting.pop().unwrap_or_default();
        let row = children.iter().map(|(width, _)| width + BETWEEN_BOXES).sum::<f64>() - BETWEEN_BOXES;
        let middle = match (children.last(), children.first()) {
            (Some(first), Some(last)) => (first.1 + row - last.0 + last.1) / 2.0,
            _ => 0.0,
        };
        let half = box_width(node) / 2.0;
        let centre = middle.max(half);
        let span = Span { width: (row + centre - middle).max(centre + half), centre, children: centre - middle };
        if let Some(siblings) = waiting.last_mut() {
            siblings.push((span.width, span.centre));
        }
        spans.push(span);
    }
    spans.reverse();
    spans
}

fn box_width(node: &Node) -> f64 {
    (text_width(&node.label) + 16.0).max(30.0)
}

/// About how wide a text is in letters of 14 pixels: hardly less than common sans-serif types take.
fn text_width(text: &str) -> f64 {
    let width = |c: char| match c {
        'i' | 'j' | 'l' | 'I' | 'f' | 't' | 'r' | '.' | ',' | ':' | ';' | '|' | '!' | '\'' | ' ' | '(' | ')' => 6.0,
        'm' | 'M' | 'W' | '@' | '%' => 14.0,
        'w' | 'A'..='Z' | '<' | '>' | '=' | '+' | '~' | '#' | '&' | '^' => 12.0,
        '\0'..='\u{2ff}' => 9.0,
        '\u{300}'..='\u{10ff}' => 12.0,
        _ => 18.0,
    };
    text.chars().map(width).sum()
}

fn write_title(body: &mut String, title: &str, middle: f64) {
    let y = MARGIN + BOX_HEIGHT / 2.0 + TEXT_DROP;
    write_text(body, title, (middle, y), "fill=\"#000000\" font-weight=\"bold\"");
}

fn write_node(body: &mut String, node: &Node, (x, y): (f64, f64)) {
    let (fill, stroke, letters) = match node.kind {
        Kind::Plain => ("#f2f5f9", "#555555", "#000000"),
        Kind::Marked => ("#d62728", "#d62728", "#ffffff"),
        // Its dots stand on the line of the letters, which is the middle of the level here.
        Kind::LeftOut => return write_text(body, &node.label, (x, y), "fill=\"#000000\""),
        Kind::Folded => return write_text(body, &node.label, (x, y + TEXT_DROP), "fill=\"#000000\""),
    };
    let width = box_width(node);
    let [left, top, width, height] = [x - width / 2.0, y - BOX_HEIGHT / 2.0, width, BOX_HEIGHT].map(pixels);
    let extent = format!("x=\"{left}\" y=\"{top}\" width=\"{width}\" height=\"{height}\"");
    let _ = writeln!(body, "<rect {extent} rx=\"6\" fill=\"{fill}\" stroke=\"{stroke}\"/>");
    write_text(body, &node.label, (x, y + TEXT_DROP), &format!("fill=\"{letters}\""));
}

fn write_text(body: &mut String, text: &str, (x, y): (f64, f64), style: &str) {
    let _ = writeln!(body, "<text x=\"{}\" y=\"{}\" {style}>{}</text>", pixels(x), pixels(y), escaped(text));
}

fn write_line(body: &mut String, from: (f64, f64), to: (f64, f64), stroke: &str) {
    let [x1, y1, x2, y2] = [from.0, from.1, to.0, to.1].map(pixels);
    let _ = writeln!(body, "<line x1=\"{x1}\" y1=\"{y1}\" x2=\"{x2}\" y2=\"{y2}\" stroke=\"{stroke}\"/>");
}

/// A length with at most one decimal.
fn pixels(length: f64) -> String {
    let text = format!("{length:.1}");
    text.strip_suffix(".0").unwrap_or(&text).to_string()
}

/// The text in XML, with U+FFFD for characters that XML 1.0 does not allow.
fn escaped(text: &str) -> String {
    let mut escaped = String::with_capacity(text.len());
    for c in text.chars() {
        match c {
            '&' => escaped += "&amp;",
            '<' => escaped += "&lt;",
            '>' => escaped += "&gt;",
            '"' => escaped += "&quot;",
            '\'' => escaped += "&apos;",
            '\t' | '\n' | '\r' | ' '..='\u{fffd}' | '\u{10000}'.. => escaped.push(c),
            _ => escaped.push('\u{fffd}'),
        }
    }
    escaped
}
