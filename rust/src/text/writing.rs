//! Writes texts.
use super::{fitted, output_codes, state_codes, Names, StateNames, Symbols};
use crate::{Alphabets, InputTree, Mark, OutputTree, Transducer};
use std::borrow::Cow;
use std::convert::Infallible;
use std::io;

/// How many bytes of an output tree are gathered before they are written.
const GATHERED: usize = 1 << 16;

/// The text of two alphabets (the paper: a stock).
///
/// ```
/// use caplune::{text, Alphabets};
/// let alphabets = Alphabets::new(&[1, 0], &[2, 0])?;
/// let text = text::write_alphabets(&alphabets, &text::Names::codes(&alphabets));
/// assert_eq!(text, "stock\nparts  a1/1 a2/0\nblocks A1/2 A2/0\n");
/// # Ok::<(), caplune::Refusal>(())
/// ```
#[must_use]
pub fn write_alphabets(alphabets: &Alphabets, names: &Names) -> String {
    let entries = |symbols: Symbols| -> String {
        symbols.names.iter().zip(symbols.ranks).map(|(name, rank)| format!(" {name}/{rank}")).collect()
    };
    let (inputs, outputs) = (Symbols::inputs(alphabets, names), Symbols::outputs(alphabets, names));
    format!("stock\nparts {}\nblocks{}\n", entries(inputs), entries(outputs))
}

/// The text of an input tree (the paper: a design).
#[must_use]
pub fn write_input_tree(tree: &InputTree, names: &Names) -> String {
    let symbols = Symbols::inputs(tree.alphabets(), names);
    format!("design {}\n", tree_text(tree.as_bytes().iter().map(|&symbol| node(&symbols, symbol))))
}

/// Writes the text of an output tree (the paper: a plan), piece by piece.
pub fn write_output_tree(tree: &OutputTree, names: &Names, to: &mut impl io::Write) -> io::Result<()> {
    let symbols = Symbols::outputs(tree.alphabets(), names);
    let mut gathered = b"plan ".to_vec();
    write_tree(tree.as_bytes().iter().map(|&symbol| node(&symbols, symbol)), |piece| {
        gathered.extend(piece.bytes());
        if gathered.len() >= GATHERED {
            to.write_all(&gathered)?;
            gathered.clear();
        }
        io::Result::Ok(())
    })?;
    gathered.push(b'\n');
    to.write_all(&gathered)
}

/// The text of a transducer (the paper: a sheet): a line for each state and input symbol.
#[must_use]
pub fn write_transducer(transducer: &Transducer, names: &Names, states: &StateNames) -> String {
    let alphabets = transducer.alphabets();
    let (inputs, outputs) = (Symbols::inputs(alphabets, names), Symbols::outputs(alphabets, names));
    let states = fitted(&states.0, transducer.states(), state_codes);
    let term = |marks: Vec<Mark>| {
        tree_text(marks.into_iter().map(|mark| match mark {
            Mark::Symbol(symbol) => node(&outputs, symbol),
            Mark::Call { child, state } => {
                let state = states.get(usize::from(state)).map_or("", |name| name);
                (format!("{state}(x{child})").into(), 0)
            }
        }))
    };
    let mut text = format!("sheet\nopening {}\n", term(transducer.initial_term()));
    for (state, name) in states.iter().enumerate() {
        for symbol in (0..).take(inputs.ranks.len()) {
            let left = left_side(name, inputs.name(symbol), inputs.rank(symbol));
            let right = term(transducer.right_hand_side(state, symbol.into()).unwrap_or_default());
            text.extend([&left, " -> ", &right, "\n"]);
        }
    }
    text
}

/// The text of the names of symbols.
#[must_use]
pub fn write_names(names: &Names) -> String {
    format!("names\nparts{}\nblocks{}\n", spaced(&names.inputs), spaced(&names.outputs))
}

/// The text of the names of states.
#[must_use]
pub fn write_state_names(states: &StateNames) -> String {
    format!("names\npasses{}\n", spaced(&states.0))
}

/// The card of codes (the paper: of all blocks): those of the 64 output symbols in their order, eight to a line.
///
/// ```
/// assert!(caplune::text::write_card().starts_with("A1 A2 A3 A4 A5 A6 A7 A8\nB1 B2 "));
/// ```
#[must_use]
pub fn write_card() -> String {
    output_codes(64).chunks(8).map(|row| row.join(" ") + "\n").collect()
}

/// Each name with a space before it.
fn spaced(names: &[String]) -> String {
    names.iter().flat_map(|name| [" ", name]).collect()
}

/// The left-hand side of a rule.
pub(super) fn left_side(state: &str, symbol: &str, rank: u8) -> String {
    let variables = (1..=rank).map(|child| (format!("x{child}").into(), 0));
    format!("{state}({})", tree_text(std::iter::once((symbol.into(), rank)).chain(variables)))
}

/// The name and the rank of a symbol.
fn node<'a>(symbols: &'a Symbols, symbol: u8) -> (Cow<'a, str>, u8) {
    (symbols.name(symbol).into(), symbols.rank(symbol))
}

fn tree_text<'a>(nodes: impl Iterator<Item = (Cow<'a, str>, u8)>) -> String {
    let mut text = String::new();
    let Ok(()) = write_tree(nodes, |piece| {
        text.push_str(piece);
        Ok::<(), Infallible>(())
    });
    text
}

/// Gives the pieces of the text of a tree, whose nodes come in preorder, by name and rank.
fn write_tree<'a, E>(
    nodes: impl Iterator<Item = (Cow<'a, str>, u8)>,
    mut put: impl FnMut(&str) -> Result<(), E>,
) -> Result<(), E> {
    // How many sub-trees of each node above are not whole yet.
    let mut above: Vec<u8> = Vec::new();
    for (name, rank) in nodes {
        put(&name)?;
        if rank > 0 {
            put("(")?;
            above.push(rank);
            continue;
        }
        while let Some(left) = above.last_mut() {
            *left -= 1;
            if *left > 0 {
                put(", ")?;
                break;
            }
            put(")")?;
            above.pop();
        }
    }
    Ok(())
}
