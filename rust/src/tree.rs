//! Input trees, output trees and addresses.
use crate::{slices, Alphabets, Refusal};
use std::fmt;
use std::str::FromStr;

/// An input tree (the paper: a design).
///
/// ```
/// use caplune::{Alphabets, InputTree, Refusal};
/// let alphabets = Alphabets::new(&[1, 0], &[2, 0])?;
/// let tree = InputTree::read(&alphabets, &[0, 0, 1])?;
/// assert_eq!((tree.nodes(), tree.levels()), (3, 3));
/// assert_eq!(InputTree::read(&alphabets, &[0]), Err(Refusal::BadTree));
/// # Ok::<(), Refusal>(())
/// ```
#[doc(alias = "design")]
#[must_use]
#[derive(Clone, Debug, PartialEq, Eq, Hash)]
pub struct InputTree {
    alphabets: Alphabets,
    file: Vec<u8>,
    levels: usize,
}

impl InputTree {
    /// Reads the file of an input tree: its symbols in preorder. Refuses by 3 what is not one tree over the input
    /// symbols or has more than 4,096 nodes or 512 levels.
    pub fn read(alphabets: &Alphabets, file: &[u8]) -> Result<Self, Refusal> {
        let size = slices::read_tree(alphabets.as_bytes(), file)?;
        Ok(InputTree { alphabets: alphabets.clone(), file: file.to_vec(), levels: size.levels })
    }

    /// The alphabets it was read under.
    pub fn alphabets(&self) -> &Alphabets {
        &self.alphabets
    }

    /// The file: the symbol of each node, in preorder.
    #[must_use]
    pub fn as_bytes(&self) -> &[u8] {
        &self.file
    }

    /// The number of its nodes, 1 to 4,096.
    #[must_use]
    pub fn nodes(&self) -> usize {
        self.file.len()
    }

    /// The nodes of its longest path, 1 to 512.
    #[must_use]
    pub fn levels(&self) -> usize {
        self.levels
    }
}

/// An output tree (the paper: a plan).
///
/// [`Transducer::translate`](crate::Transducer::translate) gives output trees of at most 256 levels and many symbols;
/// one that is read, from its file or from XML, has at most [`MOST_READ`](Self::MOST_READ) symbols and any number of
/// levels. Only those of at most as many symbols can be written as XML.
///
/// ```
/// use caplune::{Alphabets, OutputTree, Refusal};
/// let alphabets = Alphabets::new(&[1, 0], &[2, 0])?;
/// let tree = OutputTree::read(&alphabets, &[0, 1, 1])?;
/// assert_eq!(tree.to_xml()?, "<A1><A2/><A2/></A1>");
/// assert_eq!(OutputTree::from_xml(&alphabets, b"<A1><A2/><A2/></A1>")?, tree);
/// assert_eq!(OutputTree::from_xml(&alphabets, b"<A1> <A2/><A2/></A1>"), Err(Refusal::BadOutput));
/// # Ok::<(), Refusal>(())
/// ```
#[doc(alias = "plan")]
#[must_use]
#[derive(Clone, Debug, PartialEq, Eq, Hash)]
pub struct OutputTree {
    alphabets: Alphabets,
    symbols: Vec<u8>,
}

impl OutputTree {
    /// The most symbols of an output tree that is read, and of one that is written as XML.
    pub const MOST_READ: usize = slices::MOST_XML_SYMBOLS;

    pub(crate) fn new(alphabets: &Alphabets, symbols: Vec<u8>) -> Self {
        OutputTree { alphabets: alphabets.clone(), symbols }
    }

    /// Reads the file of an output tree: its symbols in preorder. Refuses by 11 what is not one tree over the output
    /// symbols, or has more than [`MOST_READ`](Self::MOST_READ).
    pub fn read(alphabets: &Alphabets, file: &[u8]) -> Result<Self, Refusal> {
        // just such a tree can be written as XML
        xml(alphabets, file)?;
        Ok(Self::new(alphabets, file.to_vec()))
    }

    /// The tree as XML: an element for each symbol, named by its code, with no space between. Refuses by 11 a tree of
    /// more than [`MOST_READ`](Self::MOST_READ) symbols.
    pub fn to_xml(&self) -> Result<String, Refusal> {
        Ok(xml(&self.alphabets, &self.symbols)?.into_iter().map(char::from).collect())
    }

    /// Reads the XML of an output tree. Refuses by 11 every text that [`to_xml`](Self::to_xml) does not give for some
    /// tree under these alphabets.
    pub fn from_xml(alphabets: &Alphabets, text: &[u8]) -> Result<Self, Refusal> {
        let mut area = vec![0; Self::MOST_READ];
        let length = slices::read_xml(alphabets.as_bytes(), text, &mut area)?;
        area.truncate(length);
        Ok(Self::new(alphabets, area))
    }

    /// The alphabets that it was read under, or those of its transducer.
    pub fn alphabets(&self) -> &Alphabets {
        &self.alphabets
    }

    /// The symbol of each node, in preorder.
    #[must_use]
    pub fn as_bytes(&self) -> &[u8] {
        &self.symbols
    }

    /// The number of its nodes.
    #[must_use]
    pub fn nodes(&self) -> usize {
        self.symbols.len()
    }
}

/// The XML of an output tree, in an area in which there is room for the longest.
fn xml(alphabets: &Alphabets, tree: &[u8]) -> Result<Vec<u8>, Refusal> {
    let mut text = vec![0; slices::LONGEST_XML];
    let length = slices::write_xml(alphabets.as_bytes(), tree, &mut text)?;
    text.truncate(length);
    Ok(text)
}

/// An address (the paper: a place): the number of a child at each step from the root, the leftmost being 1.
///
/// As text its numbers stand apart by dots, and the root is `-`.
///
/// ```
/// use caplune::Address;
/// let address: Address = "1.2".parse()?;
/// assert_eq!(address, Address::from(vec![1, 2]));
/// assert_eq!((address.to_string(), Address::ROOT.to_string()), ("1.2".into(), "-".into()));
/// assert!("1.256".parse::<Address>().is_err());
/// # Ok::<(), caplune::NoAddress>(())
/// ```
#[doc(alias = "place")]
#[must_use]
#[derive(Clone, Debug, Default, PartialEq, Eq, Hash, PartialOrd, Ord)]
pub struct Address(Vec<u8>);

impl Address {
    /// The root.
    pub const ROOT: Address = Address(Vec::new());

    /// The numbers, from the root on.
    #[must_use]
    pub fn as_bytes(&self) -> &[u8] {
        &self.0
    }
}

impl From<Vec<u8>> for Address {
    fn from(numbers: Vec<u8>) -> Self {
        Address(numbers)
    }
}

impl fmt::Display for Address {
    fn fmt(&self, f: &mut fmt::Formatter) -> fmt::Result {
        let Some((first, rest)) = self.0.split_first() else { return f.write_str("-") };
        write!(f, "{first}")?;
        rest.iter().try_for_each(|number| write!(f, ".{number}"))
    }
}

impl FromStr for Address {
    type Err = NoAddress;

    fn from_str(text: &str) -> Result<Self, NoAddress> {
        match text {
            "-" => Ok(Address::ROOT),
            _ if text.starts_with('+') || text.contains(".+") => Err(NoAddress),
            _ => text
                .split('.')
                .map(|number| number.parse().map_err(|_| NoAddress))
                .collect::<Result<_, _>>()
                .map(Address),
        }
    }
}

/// A text that is no address.
#[derive(Clone, Copy, Debug, PartialEq, Eq)]
pub struct NoAddress;

impl fmt::Display for NoAddress {
    fn fmt(&self, f: &mut fmt::Formatter) -> fmt::Result {
        f.write_str("a place is `-` for the top or numbers from 0 to 255 with dots between, as in 1.2")
    }
}

impl std::error::Error for NoAddress {}
