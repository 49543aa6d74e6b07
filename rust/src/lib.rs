//! Top-down tree transducers over the proved library.
//!
//! The proved library is `target/staticlib/libexports.a` of the repository, which `tools/build exports` writes. What
//! it answers is proved for every input (docs/PROMISES.md); this crate hands it memory and gives its answers types.
//! [`slices`] has its functions over lent memory, [`ffi`] the C functions themselves and the only `unsafe` code.
//! [`text`] is the text form of the files, [`store`] keeps a registry on disk, and [`drawing`] draws trees.
//!
//! The paper's words, and the types here:
//!
//! | the paper | here |
//! |---|---|
//! | stock | [`Alphabets`] |
//! | design, plan, place | [`InputTree`], [`OutputTree`], [`Address`] |
//! | sheet, pass, line, opening | [`Transducer`], state, right-hand side, initial term |
//! | sew, clean, join | [`Transducer::translate`], [`Transducer::normal_form`], [`Transducer::then`] |
//! | alike, or the design and place that differ | [`Comparison`], [`Difference`] |
//! | book, and one of an earlier make | [`Registry`], [`EarlierRegistry`] |
//! | enter; look before entering | [`Registry::enter`]; [`Registry::question`] and then [`Registry::commit`] |
//! | codes of blocks, card | [`text::Names::codes`], [`text::write_card`], [`slices::write_codes`] |
//! | plans as XML | [`OutputTree::to_xml`], [`OutputTree::from_xml`] |
//!
//! ```
//! use caplune::{Alphabets, Comparison, Refusal, Transducer};
//! let alphabets = Alphabets::read(&[2, 1, 0, 2, 2, 0])?;
//! let one = Transducer::read(&alphabets, &[1, 0, 3, 0, 3, 0, 1, 0, 0, 1, 0, 1, 0, 0, 0, 1, 0, 1, 0, 0, 1])?;
//! let two = Transducer::read(&alphabets, &[1, 0, 3, 0, 3, 0, 3, 0, 0, 1, 0, 1, 0, 0, 0, 1, 0, 1, 0, 0, 0, 0, 1, 0, 1])?;
//! let Comparison::Differ(shown) = one.compare(&two)? else { panic!("they differ") };
//! assert_eq!((shown.tree.as_bytes(), shown.address.to_string()), (&[1][..], "1".to_string()));
//! assert_eq!(one.symbol_at(&shown.tree, &shown.address)?, Some(shown.first));
//! assert_eq!(two.symbol_at(&shown.tree, &shown.address)?, Some(shown.second));
//! # Ok::<(), Refusal>(())
//! ```
//!
//! # Threads and stack
//!
//! The library has no state of its own and allocates nothing: calls from several threads at once do not touch each
//! other, and every type here can be sent to another thread and shared. Work memory is on the stack: measured on
//! x86-64, a call takes at most 176,615 bytes ([`Transducer::translate`] on 512 levels; [`Transducer::shorter`]
//! 128,991, [`Registry::commit`] 127,743, [`Registry::enter`] 127,727, [`Registry::question`] 127,695,
//! [`Transducer::compare`] 111,327, [`Transducer::normal_form`] 107,055, [`Transducer::symbol_at`] 69,863,
//! [`Transducer::earliest_form`] 68,703, [`InputTree::read`] 57,463, [`Transducer::then`] 54,887,
//! [`OutputTree::from_xml`] 12,591, [`OutputTree::to_xml`] 8,511;
//! docs/AREAS.md). A thread of Rust's usual 2 MiB is long enough; one of 512 KiB is too.

mod alphabets;
pub mod drawing;
pub mod ffi;
mod refusal;
mod registry;
pub mod slices;
pub mod store;
pub mod text;
mod transducer;
mod tree;

pub use alphabets::Alphabets;
pub use refusal::Refusal;
pub use registry::{DamagedRegistry, EarlierRegistry, NotCarried, Registry, StoredRegistry};
pub use transducer::{Comparison, Difference, Mark, Transducer};
pub use tree::{Address, InputTree, NoAddress, OutputTree};

/// The bytes of a type's file, or the numbers of an address, where bytes are asked for.
macro_rules! as_ref {
    ($($name:ident),*) => {
        $(impl AsRef<[u8]> for $name {
            fn as_ref(&self) -> &[u8] {
                self.as_bytes()
            }
        })*
    };
}

as_ref!(Alphabets, InputTree, OutputTree, Address, Transducer);
