//! The versions of the parcel's format.

/// A version that is known.
#[derive(Clone, Copy, Debug, PartialEq, Eq)]
pub enum Version {
    /// A set has registers, each of them whole.
    One = 1,
    /// A set is two: the low halves of registers, then the high ones.
    Two = 2,
}

/// The lengths that a version fixes.
#[derive(Clone, Copy, Debug, PartialEq, Eq)]
pub struct Format {
    /// The length of the header, which ends with the entry set.
    pub header: usize,
    /// The length of a note, and of the entry set.
    pub note: usize,
    /// The largest count of instructions.
    pub most: usize,
}

impl Version {
    /// The version with this number.
    pub const fn numbered(number: u64) -> Option<Version> {
        match number {
            1 => Some(Version::One),
            2 => Some(Version::Two),
            _ => None,
        }
    }

    pub const fn number(self) -> u64 {
        self as u64
    }

    pub const fn format(self) -> Format {
        match self {
            Version::One => Format { header: 16, note: 8, most: 2048 },
            Version::Two => Format { header: 24, note: 16, most: 2048 },
        }
    }
}

impl Format {
    /// Whether there can be so many instructions.
    pub fn allows(&self, count: usize) -> bool {
        (1..=self.most).contains(&count)
    }

    /// The length of a parcel with so many instructions.
    pub const fn length(&self, count: usize) -> usize {
        self.header + (8 + self.note) * count
    }
}
