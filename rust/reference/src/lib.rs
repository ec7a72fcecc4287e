//! Paper 01 in plain Rust: the word reader and writer, the parcel, the check; and of paper 02
//! the maker of notes, special constants as pairs, the rows of an opcode, the comparison of two
//! parcels, the stray bit, the safer fresh record, the halves of registers with version 2 of the
//! parcel, and the replay against a trace; and the text of an instruction, with paper 002's names
//! in the syntax of Mesa's disassembler.
//!
//! Written from the papers alone, with tables of its own, so that it can stand beside the
//! verified library in differential tests and as a baseline for its speed. Nothing here
//! allocates but the maker, the comparison, the replay and the text.
//!
//! What the paper calls a record is an [`Instruction`] here.

mod check;
mod codec;
mod differences;
mod enumerations;
mod infer;
mod layout;
mod parcel;
mod refusal;
mod replay;
mod rows;
mod sets;
mod text;
mod version;

pub use check::{Verdict, check};
pub use codec::{Instruction, fresh, read, write};
pub use differences::{Difference, Side, Unread, What, differences};
pub use enumerations::Enumeration;
pub use infer::{Fault, Narrowed, infer, narrow};
pub use parcel::Parcel;
pub use refusal::Refusal;
pub use replay::{NotRun, Registers, Replayed, record, replay};
pub use rows::{MODIFIER_BITS, MODIFIERS, Modifier, ROW_COUNT, ROWS, Role, Row, Secondary, row_of};
pub use sets::Half;
pub use text::text;
pub use version::{Format, Version};
