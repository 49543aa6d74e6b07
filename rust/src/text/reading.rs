//! Reads texts.
use super::reader::{as_there_are, Node, Reader};
use super::rules::Rules;
use super::words::Words;
use super::{Error, Kind, Names, StateNames, Symbols};
use crate::{Alphabets, InputTree, OutputTree, Transducer};

/// What a text says it is by its first word.
///
/// ```
/// use caplune::text::{kind, Kind};
/// assert_eq!(kind(b"# a comment\ndesign e"), Ok(Kind::InputTree));
/// let error = kind(b"book e").unwrap_err();
/// assert_eq!(error.to_string(), "1:1: expected `stock`, `sheet`, `design`, `plan` or `names`, found `book`");
/// ```
pub fn kind(text: &[u8]) -> Result<Kind, Error> {
    let word = Words::new(text)?.next();
    match word.text {
        "stock" => Ok(Kind::Alphabets),
        "sheet" => Ok(Kind::Transducer),
        "design" => Ok(Kind::InputTree),
        "plan" => Ok(Kind::OutputTree),
        "names" => Ok(Kind::Names),
        _ => Err(word.error("`stock`, `sheet`, `design`, `plan` or `names`")),
    }
}

/// Reads two alphabets (the paper: a stock) with the names of their symbols.
///
/// ```
/// use caplune::text::read_alphabets;
/// let (alphabets, names) = read_alphabets(b"stock\nparts  a/1 e/0\nblocks f/2 e/0\n")?;
/// assert_eq!((alphabets.input_ranks(), names.outputs()), (&[1, 0][..], &["f".to_string(), "e".to_string()][..]));
/// # Ok::<(), caplune::text::Error>(())
/// ```
pub fn read_alphabets(text: &[u8]) -> Result<(Alphabets, Names), Error> {
    let mut reader = Reader::new(text, "stock")?;
    reader.expect("parts")?;
    let (inputs, input_ranks) = reader.entries(Alphabets::MOST_INPUTS, "parts", "`blocks`", Reader::is_at_blocks)?;
    reader.expect("blocks")?;
    let (outputs, output_ranks) =
        reader.entries(Alphabets::MOST_OUTPUTS, "blocks", "the end of the file", Reader::is_at_end)?;
    Ok((Alphabets::new(&input_ranks, &output_ranks)?, Names { inputs, outputs }))
}

/// Reads an input tree (the paper: a design).
pub fn read_input_tree(text: &[u8], alphabets: &Alphabets, names: &Names) -> Result<InputTree, Error> {
    let file = read_tree(text, "design", &Symbols::inputs(alphabets, names))?;
    Ok(InputTree::read(alphabets, &file)?)
}

/// Reads an output tree (the paper: a plan), as [`write_output_tree`](super::write_output_tree) writes it, of at most
/// [`OutputTree::MOST_READ`] symbols.
///
/// ```
/// use caplune::text::{read_alphabets, read_output_tree};
/// let (alphabets, names) = read_alphabets(b"stock parts a/1 e/0 blocks f/2 e/0")?;
/// assert_eq!(read_output_tree(b"plan f(e, e)", &alphabets, &names)?.as_bytes(), [0, 1, 1]);
/// let error = read_output_tree(b"plan f(e)", &alphabets, &names).unwrap_err();
/// assert_eq!(error.to_string(), "1:9: expected 2 sub-trees of `f`, as it has 2 places, found `)`");
/// # Ok::<(), caplune::text::Error>(())
/// ```
pub fn read_output_tree(text: &[u8], alphabets: &Alphabets, names: &Names) -> Result<OutputTree, Error> {
    let file = read_tree(text, "plan", &Symbols::outputs(alphabets, names))?;
    Ok(OutputTree::read(alphabets, &file)?)
}

/// The symbols of a tree in preorder, from a text with this first word.
fn read_tree(text: &[u8], first: &str, symbols: &Symbols) -> Result<Vec<u8>, Error> {
    let mut reader = Reader::new(text, first)?;
    let mut file = Vec::new();
    reader.tree(symbols, 0, |_, node| {
        if let Node::Symbol(symbol) = node {
            file.push(symbol);
        }
        Ok(())
    })?;
    reader.expect_end("the end of the file")?;
    Ok(file)
}

/// Reads a transducer (the paper: a sheet) with the names of its states, which are numbered by their first rules.
pub fn read_transducer(text: &[u8], alphabets: &Alphabets, names: &Names) -> Result<(Transducer, StateNames), Error> {
    let (inputs, outputs) = (Symbols::inputs(alphabets, names), Symbols::outputs(alphabets, names));
    let mut reader = Reader::new(text, "sheet")?;
    reader.expect("opening")?;
    let initial_term = reader.term(&outputs, 1)?;
    let mut rules = Rules::default();
    while !reader.is_at_end() {
        reader.rule(&inputs, &outputs, &mut rules)?;
    }
    let initial_term = rules.marks(&initial_term)?;
    let right_hand_sides = rules.right_hand_sides(&inputs, reader.word)?;
    let transducer = Transducer::new(alphabets, rules.states.len(), &initial_term, &right_hand_sides)?;
    Ok((transducer, StateNames(rules.states.into_iter().map(String::from).collect())))
}

/// Reads the names of the symbols of two alphabets: as many as there are symbols.
///
/// ```
/// use caplune::{text::read_names, Alphabets};
/// let alphabets = Alphabets::new(&[1, 0], &[2, 0])?;
/// let names = read_names(b"names parts a e blocks f e", &alphabets)?;
/// assert_eq!(names.inputs(), ["a", "e"]);
/// let error = read_names(b"names parts a e blocks f", &alphabets).unwrap_err();
/// assert_eq!(error.to_string(), "1:25: expected the names of 2 block kinds, found the end of the file");
/// # Ok::<(), Box<dyn std::error::Error>>(())
/// ```
pub fn read_names(text: &[u8], alphabets: &Alphabets) -> Result<Names, Error> {
    let mut reader = Reader::new(text, "names")?;
    reader.expect("parts")?;
    let inputs = reader.names(alphabets.input_ranks().len(), "part kind")?;
    if reader.word.text != "blocks" {
        return Err(reader.word.error(format!("`blocks`, {}", as_there_are(inputs.len(), "part kind"))));
    }
    reader.take();
    let outputs = reader.names(alphabets.output_ranks().len(), "block kind")?;
    reader.expect_end(&format!("the end of the file, {}", as_there_are(outputs.len(), "block kind")))?;
    Ok(Names { inputs, outputs })
}

/// Reads the names of so many states.
pub fn read_state_names(text: &[u8], states: usize) -> Result<StateNames, Error> {
    let mut reader = Reader::new(text, "names")?;
    reader.expect("passes")?;
    let names = reader.names(states, "pass")?;
    reader.expect_end(&format!("the end of the file, {}", as_there_are(states, "pass")))?;
    Ok(StateNames(names))
}
