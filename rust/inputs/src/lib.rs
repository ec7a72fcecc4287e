//! Words, instructions and parcels for tests and benchmarks, the same for the same seed.
//!
//! What an instruction reads, releases and fills is worked out here from the decoded fields,
//! apart from the reference's check.

mod instruction;
mod mesa;
mod number;
mod parcel;
mod program;
mod replayed;
mod rng;
mod set;
mod tiny;

pub use instruction::{BRANCH, assigned, encode, instruction, misfit, on_r0, pack, refused_word, source};
pub use mesa::mesa;
pub use number::{near_tie, number, numbers};
pub use parcel::{parcel, parcel_2, parcel_of, with_version, with_word};
pub use program::{Program, Shape};
pub use replayed::{as_replayed, is_replayed, replayed_rows};
pub use rng::Rng;
pub use set::Set;
pub use tiny::{Tiny, all_notes, tiny_programs, union_of_accepted};

/// Makes tests of functions that take the kind of set: in `version_1` with registers, in
/// `version_2` with halves of registers.
#[macro_export]
macro_rules! both_versions {
    ($($test:ident)*) => {
        mod version_1 {
            $(#[test]
            fn $test() {
                super::$test::<u64>();
            })*
        }

        mod version_2 {
            $(#[test]
            fn $test() {
                super::$test::<u128>();
            })*
        }
    };
}
