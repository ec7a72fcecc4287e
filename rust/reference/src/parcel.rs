//! The parcel: header, words, notes.

use crate::sets::Set;
use crate::{Refusal, Version};

const MARK: &[u8] = b"VSP";
/// Mark, version, zero byte and count, and 8 bytes of the entry set: what every version has.
const START: usize = 16;
/// Where the entry set stands.
const ENTRY: usize = 8;

/// An opened parcel, as parts of the caller's bytes.
#[derive(Clone, Copy, Debug)]
pub struct Parcel<'a> {
    pub version: Version,
    /// What is held before instruction 0: low halves and high halves of registers. In version 1
    /// the one set stands for both.
    pub entry: [u64; 2],
    words: &'a [[u8; 8]],
    notes: &'a [u8],
}

/// What the check looks at, with sets of one version.
pub(crate) struct Contents<'a, S: Set> {
    pub entry: S,
    pub words: &'a [[u8; 8]],
    pub notes: &'a [S::Bytes],
}

impl<'a> Parcel<'a> {
    /// Opens a parcel. Looks at no word and no note.
    pub fn open(bytes: &'a [u8]) -> Result<Self, Refusal> {
        let start = bytes.first_chunk::<START>().ok_or(Refusal::Size)?;
        if !start.starts_with(MARK) {
            return Err(Refusal::Mark);
        }
        let number = u16::from_le_bytes([start[3], start[4]]);
        let version = Version::numbered(number.into()).ok_or(Refusal::Version)?;
        if start[5] != 0 {
            return Err(Refusal::ReservedByte);
        }
        let format = version.format();
        let count = usize::from(u16::from_le_bytes([start[6], start[7]]));
        if !format.allows(count) || bytes.len() != format.length(count) {
            return Err(Refusal::Size);
        }
        let (header, rest) = bytes.split_at(format.header);
        let (words, notes) = rest.split_at(8 * count);
        Ok(Parcel { version, entry: halves(&header[ENTRY..]), words: words.as_chunks().0, notes })
    }

    /// How many instructions there are.
    #[inline]
    pub fn count(&self) -> usize {
        self.words.len()
    }

    /// The words in order.
    #[inline]
    pub fn words(&self) -> impl Iterator<Item = u64> + 'a {
        self.words.iter().map(|word| u64::from_le_bytes(*word))
    }

    /// The bytes of the word at an index.
    pub fn word(&self, index: usize) -> Result<&'a [u8; 8], Refusal> {
        self.words.get(index).ok_or(Refusal::Index)
    }

    /// The notes in order, as low halves and high halves: what counts as held before each
    /// instruction. In version 1 the one set stands for both.
    pub fn note_halves(&self) -> impl Iterator<Item = [u64; 2]> + 'a {
        self.notes.chunks_exact(self.version.format().note).map(halves)
    }

    /// The caller's bytes where the notes stand.
    pub fn notes(&self) -> &'a [u8] {
        self.notes
    }

    /// The contents, for sets of the parcel's version.
    #[inline]
    pub(crate) fn contents<S: Set>(&self) -> Contents<'a, S> {
        Contents { entry: S::from_halves(self.entry), words: self.words, notes: S::split(self.notes) }
    }
}

impl<S: Set> Contents<'_, S> {
    /// The words in order, with their indexes.
    #[inline]
    pub fn words(&self) -> impl Iterator<Item = (usize, u64)> {
        self.words.iter().map(|word| u64::from_le_bytes(*word)).enumerate()
    }

    /// The note at an index, if there is one.
    #[inline]
    pub fn note(&self, index: usize) -> Option<S> {
        self.notes.get(index).map(S::load)
    }
}

/// The low and the high halves that a set's bytes name; in version 1 the one set is both.
#[inline]
fn halves(bytes: &[u8]) -> [u64; 2] {
    let sets = bytes.as_chunks().0;
    [sets[0], sets[sets.len() - 1]].map(u64::from_le_bytes)
}
