//! Two ranked alphabets.
use crate::{slices, Refusal};

/// Two ranked alphabets (the paper: a stock): input symbols (part kinds) and output symbols (block kinds), each with
/// its rank (its places). Symbols count from 0.
///
/// ```
/// use caplune::Alphabets;
/// // a of rank 1 and e of rank 0; f of rank 2 and e of rank 0
/// let alphabets = Alphabets::new(&[1, 0], &[2, 0])?;
/// assert_eq!(alphabets.as_bytes(), [2, 1, 0, 2, 2, 0]);
/// assert_eq!(alphabets, Alphabets::read(&[2, 1, 0, 2, 2, 0])?);
/// # Ok::<(), caplune::Refusal>(())
/// ```
#[doc(alias = "stock")]
#[must_use]
#[derive(Clone, Debug, PartialEq, Eq, Hash)]
pub struct Alphabets {
    file: Vec<u8>,
    inputs: usize,
}

impl Alphabets {
    /// The most input symbols.
    pub const MOST_INPUTS: usize = 16;
    /// The most output symbols.
    pub const MOST_OUTPUTS: usize = 64;
    /// The highest rank of a symbol.
    pub const HIGHEST_RANK: u8 = 4;

    /// Reads the file of two alphabets. Refuses by 2.
    pub fn read(file: &[u8]) -> Result<Self, Refusal> {
        let symbols = slices::read_alphabets(file)?;
        Ok(Alphabets { file: file.to_vec(), inputs: symbols.inputs })
    }

    /// The alphabets of these ranks. Refuses by 2: there are 1 to 16 input symbols, one of them of rank 0, and 1 to 64
    /// output symbols, and no rank is over 4.
    pub fn new(input_ranks: &[u8], output_ranks: &[u8]) -> Result<Self, Refusal> {
        let count = |ranks: &[u8]| u8::try_from(ranks.len()).map_err(|_| Refusal::BadAlphabets);
        let (inputs, outputs) = (count(input_ranks)?, count(output_ranks)?);
        Self::read(&[&[inputs], input_ranks, &[outputs], output_ranks].concat())
    }

    /// The alphabets of the composition of a transducer under these and one under `second`: the input symbols of these,
    /// the output symbols of the second. Refuses by 16 where the output symbols of these are not the input symbols of
    /// the second.
    pub fn joined(&self, second: &Alphabets) -> Result<Self, Refusal> {
        if self.output_ranks() != second.input_ranks() {
            return Err(Refusal::OtherAlphabet);
        }
        Self::new(self.input_ranks(), second.output_ranks())
    }

    /// The file.
    #[must_use]
    pub fn as_bytes(&self) -> &[u8] {
        &self.file
    }

    /// The rank of each input symbol.
    #[must_use]
    pub fn input_ranks(&self) -> &[u8] {
        &self.file[1..1 + self.inputs]
    }

    /// The rank of each output symbol.
    #[must_use]
    pub fn output_ranks(&self) -> &[u8] {
        &self.file[2 + self.inputs..]
    }
}
