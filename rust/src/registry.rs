//! Registries of normal forms, in memory and as the bytes of a file.
use crate::slices::{self, Head, Record, RECORDS};
use crate::text::{self, Names};
use crate::{Alphabets, Refusal, Transducer};

mod earlier;
mod file;

pub use earlier::{EarlierRegistry, NotCarried};
pub(crate) use file::LONGEST_FILE;
pub use file::{DamagedRegistry, StoredRegistry};

/// A registry of the normal forms of transducers over the same alphabets (the paper: a book). It owns its head, its
/// records and its area, and the names of the symbols.
///
/// ```
/// use caplune::{Alphabets, Refusal, Registry, Transducer};
/// let alphabets = Alphabets::new(&[1, 0], &[2, 0])?;
/// let one = Transducer::read(&alphabets, &[1, 0, 3, 0, 3, 0, 1, 0, 0, 1, 0, 1, 0, 0, 0, 1, 0, 1, 0, 0, 1])?;
/// let alike = Transducer::read(&alphabets, &[1, 0, 1, 0, 3, 0, 3, 1, 0, 0, 0, 1, 0, 1, 0, 0, 0, 0, 1, 0, 1])?;
/// let mut registry = Registry::new(&alphabets, 60)?;
/// assert_eq!((registry.enter(&one)?, registry.enter(&alike)?), (1, 1));
/// assert_eq!((registry.held(), registry.answered()), (1, 2));
/// assert_eq!((registry.normal_form(1), registry.count(1)), (Some(one), Some(2)));
/// assert_eq!((registry.normal_form(2), registry.count(2)), (None, None));
/// // what is written is read again
/// assert_eq!(Registry::from_bytes(&registry.to_bytes()), Ok(registry));
/// # Ok::<(), Refusal>(())
/// ```
#[doc(alias = "book")]
#[must_use]
#[derive(Clone, Debug, PartialEq, Eq)]
pub struct Registry {
    alphabets: Alphabets,
    names: Names,
    head: Head,
    records: [Record; RECORDS],
    area: Vec<u8>,
}

impl Registry {
    /// The length of an area that has room for the longest alphabets and the longest normal forms: more is never used.
    pub const LONGEST_AREA: usize =
        2 + Alphabets::MOST_INPUTS + Alphabets::MOST_OUTPUTS + (RECORDS - 1) * Transducer::LONGEST_FILE;

    /// The most normal forms that a registry holds.
    pub const MOST_HELD: usize = RECORDS - 1;

    /// The make of the file that is written.
    pub const MAKE: u64 = file::CURRENT.number;

    /// A registry that holds no normal form, with an area of so many bytes, at most
    /// [`LONGEST_AREA`](Self::LONGEST_AREA). Its symbols have their codes as names. Refuses by 8 an area that is
    /// shorter than the file of the alphabets.
    pub fn new(alphabets: &Alphabets, area: usize) -> Result<Self, Refusal> {
        let mut registry = Registry {
            alphabets: alphabets.clone(),
            names: Names::codes(alphabets),
            head: Head::default(),
            records: [Record::default(); RECORDS],
            area: vec![0; area.min(Self::LONGEST_AREA)],
        };
        let Registry { head, records, area, .. } = &mut registry;
        slices::make_registry(head, records, area, alphabets.as_bytes())?;
        Ok(registry)
    }

    /// The registry with these names of its symbols. `None` where there are not as many as symbols.
    ///
    /// ```
    /// use caplune::{text::Names, Alphabets, Registry};
    /// let alphabets = Alphabets::new(&[1, 0], &[2, 0])?;
    /// let strings = |names: &[&str]| names.iter().map(|name| name.to_string()).collect();
    /// let [two, three] = [&["f", "e"][..], &["f", "e", "g"]].map(|of| Names::new(strings(&["a", "e"]), strings(of)));
    /// let named = Registry::new(&alphabets, 60)?.with_names(two.unwrap());
    /// assert_eq!(named.unwrap().names().outputs(), ["f", "e"]);
    /// assert!(Registry::new(&alphabets, 60)?.with_names(three.unwrap()).is_none());
    /// # Ok::<(), caplune::Refusal>(())
    /// ```
    #[must_use]
    pub fn with_names(self, names: Names) -> Option<Self> {
        let [inputs, outputs] = [self.alphabets.input_ranks().len(), self.alphabets.output_ranks().len()];
        let fit = names.inputs().len() == inputs && names.outputs().len() == outputs;
        fit.then_some(Registry { names, ..self })
    }

    /// Enters a transducer: the number, from 1 on, under which its normal form is held, which is the next number if it
    /// was not held before. So two transducers get one number exactly if they are equivalent. Refuses by 4 and 5 what
    /// is no transducer under these alphabets, by 7, by 8, and by 9 where 18,446,744,073,709,551,615 entries are
    /// answered; nothing has changed then.
    pub fn enter(&mut self, transducer: &Transducer) -> Result<usize, Refusal> {
        slices::enter(&mut self.head, &mut self.records, &mut self.area, transducer.as_bytes())
    }

    /// Asks which number an entry of a transducer would get, and for its normal form (the paper: looks before entering).
    /// The registry stays as it is. Refuses as [`enter`](Self::enter) would.
    ///
    /// ```
    /// use caplune::{Alphabets, Refusal, Registry, Transducer};
    /// let alphabets = Alphabets::new(&[1, 0], &[2, 0])?;
    /// let one = Transducer::read(&alphabets, &[1, 0, 3, 0, 3, 0, 1, 0, 0, 1, 0, 1, 0, 0, 0, 1, 0, 1, 0, 0, 1])?;
    /// let alike = Transducer::read(&alphabets, &[1, 0, 1, 0, 3, 0, 3, 1, 0, 0, 0, 1, 0, 1, 0, 0, 0, 0, 1, 0, 1])?;
    /// let mut registry = Registry::new(&alphabets, 60)?;
    /// assert_eq!(registry.question(&alike)?, (1, one.clone()));
    /// assert_eq!((registry.held(), registry.answered()), (0, 0));
    /// // another transducer takes the number before it is claimed
    /// let constant = Transducer::read(&alphabets, &[0, 0, 1, 0, 1])?;
    /// assert_eq!((registry.enter(&constant)?, registry.commit(&alike, 1)), (1, Err(Refusal::OtherNumber)));
    /// assert_eq!(registry.question(&alike)?, (2, one.clone()));
    /// assert_eq!((registry.commit(&alike, 2)?, registry.normal_form(2)), (2, Some(one)));
    /// # Ok::<(), Refusal>(())
    /// ```
    pub fn question(&self, transducer: &Transducer) -> Result<(usize, Transducer), Refusal> {
        let mut out = vec![0; Transducer::LONGEST_FILE];
        let asked = slices::question(&self.head, &self.records, &self.area, transducer.as_bytes(), &mut out)?;
        Ok((asked.number, Transducer::read(&self.alphabets, &out[..asked.length])?))
    }

    /// Enters a transducer as [`enter`](Self::enter) does, if its number is this one, which a
    /// [`question`](Self::question) answered; with no other change of the registry between, it is. Refuses as
    /// [`enter`](Self::enter) does, and last by 13 where the number would be another; nothing has changed then.
    pub fn commit(&mut self, transducer: &Transducer, number: usize) -> Result<usize, Refusal> {
        slices::commit(&mut self.head, &mut self.records, &mut self.area, transducer.as_bytes(), number)
    }

    /// The normal form of this number; `None` for 0 and for a number that is not held.
    #[must_use]
    pub fn normal_form(&self, number: usize) -> Option<Transducer> {
        Transducer::read(&self.alphabets, slices::body(&self.head, &self.records, &self.area, number)).ok()
    }

    /// How many entries were answered with this number; `None` for 0 and for a number that is not held.
    #[must_use]
    pub fn count(&self, number: usize) -> Option<u64> {
        let is_held = (1..=self.head.held).contains(&number);
        self.records.get(number).filter(|_| is_held).map(|record| record.count)
    }

    /// Its alphabets.
    pub fn alphabets(&self) -> &Alphabets {
        &self.alphabets
    }

    /// The names of their symbols.
    pub fn names(&self) -> &Names {
        &self.names
    }

    /// How many normal forms it holds, 0 to 32.
    #[must_use]
    pub fn held(&self) -> usize {
        self.head.held
    }

    /// How many bytes of its area are used.
    #[must_use]
    pub fn used(&self) -> usize {
        self.head.used
    }

    /// The length of its area.
    #[must_use]
    pub fn area(&self) -> usize {
        self.area.len()
    }

    /// How many entries it has answered.
    #[must_use]
    pub fn answered(&self) -> u64 {
        self.head.answered
    }

    /// The bytes of its file (docs/FORMATS.md).
    #[must_use]
    pub fn to_bytes(&self) -> Vec<u8> {
        let numbers = [self.area.len() as u64, self.head.held as u64, self.head.used as u64, self.head.answered];
        let names = text::write_names(&self.names);
        let records = self.records.iter().flat_map(|record| [record.start as u64, record.size as u64, record.count]);
        let numbers = numbers.into_iter().chain([names.len() as u64]).chain(records);
        file::written(numbers, &[&self.area[..self.head.used], names.as_bytes()])
    }

    /// Whether bytes begin as the file of a registry does, of this make or another.
    ///
    /// ```
    /// use caplune::Registry;
    /// assert!(Registry::is_begun(b"caplune book 2\n") && !Registry::is_begun(b"caplune"));
    /// ```
    #[must_use]
    pub fn is_begun(bytes: &[u8]) -> bool {
        file::is_begun(bytes)
    }

    /// Reads the bytes of a file of the make that [`to_bytes`](Self::to_bytes) writes. Whatever they are, the answer is
    /// a registry as [`new`](Self::new) and [`enter`](Self::enter) make them, whose bytes are these, or why they are
    /// none.
    pub fn from_bytes(bytes: &[u8]) -> Result<Self, DamagedRegistry> {
        match StoredRegistry::from_bytes(bytes)? {
            StoredRegistry::Current(registry) => Ok(registry),
            StoredRegistry::Earlier(earlier) => Err(DamagedRegistry::EarlierMake(earlier.make())),
        }
    }

    /// The registry of this head, these records and this area, if it is one, holds different normal forms and has
    /// answered an entry with each. Its symbols have their codes as names.
    fn whole(mut head: Head, mut records: [Record; RECORDS], mut area: Vec<u8>) -> Option<Self> {
        // What is not a registry is refused by 9 before the empty file is looked at, which then is refused by 4.
        if slices::enter(&mut head, &mut records, &mut area, &[]) != Err(Refusal::BadContents) {
            return None;
        }
        let alphabets = Alphabets::read(&area[..records[0].size]).ok()?;
        let names = Names::codes(&alphabets);
        let registry = Registry { alphabets, names, head, records, area };
        let held: Option<Vec<_>> = (1..=head.held).map(|number| registry.normal_form(number)).collect();
        let held = held?;
        let clean = held.iter().all(|form| form.normal_form().as_ref() == Ok(form));
        let different = held.iter().enumerate().all(|(index, form)| !held[..index].contains(form));
        // 9 does not ask this of a lent registry, but no entry leaves less
        let counted = (1..=head.held).all(|number| registry.count(number) > Some(0));
        (clean && different && counted).then_some(registry)
    }

    /// The registry with the names of a table, which must be just as [`text::write_names`] writes it.
    fn with_table(self, table: &[u8]) -> Option<Self> {
        let names = text::read_names(table, &self.alphabets).ok()?;
        (text::write_names(&names).as_bytes() == table).then(|| self.with_names(names)).flatten()
    }
}
