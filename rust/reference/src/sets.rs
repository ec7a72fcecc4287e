//! Sets of what can be held: registers in version 1, halves of registers in version 2.

use crate::Version;
use std::ops::{BitAnd, BitOr, Not};

/// A half of a register.
#[derive(Clone, Copy, Debug, PartialEq, Eq)]
pub enum Half {
    Low,
    High,
}

/// A set as a number: a bit for each thing that can be held.
pub(crate) trait Set:
    Copy + PartialEq + BitAnd<Output = Self> + BitOr<Output = Self> + Not<Output = Self>
{
    /// The version whose sets these are.
    const VERSION: Version;
    const NONE: Self;
    const ALL: Self;
    /// The set as it stands in a parcel.
    type Bytes: AsRef<[u8]>;

    fn load(bytes: &Self::Bytes) -> Self;
    fn store(self) -> Self::Bytes;
    /// The sets that stand one after the other.
    fn split(bytes: &[u8]) -> &[Self::Bytes];
    /// From sets of low and of high halves.
    fn from_halves(halves: [u64; 2]) -> Self;
    /// What a write fills, by the destination's byte: the half mask above the register.
    fn written(destination: u8) -> Self;
    /// The lowest register in the set and its half, the low one first; of no register 64.
    fn lowest(self) -> (u8, Option<Half>);

    /// All that there is of these registers.
    #[inline]
    fn whole(registers: u64) -> Self {
        Self::from_halves([registers; 2])
    }
}

/// Bit r is register r.
impl Set for u64 {
    const VERSION: Version = Version::One;
    const NONE: u64 = 0;
    const ALL: u64 = u64::MAX;
    type Bytes = [u8; 8];

    #[inline]
    fn load(bytes: &[u8; 8]) -> u64 {
        u64::from_le_bytes(*bytes)
    }

    fn store(self) -> [u8; 8] {
        self.to_le_bytes()
    }

    fn split(bytes: &[u8]) -> &[[u8; 8]] {
        bytes.as_chunks().0
    }

    /// The one set stands where the low halves do.
    #[inline]
    fn from_halves([low, _]: [u64; 2]) -> u64 {
        low
    }

    /// A half write fills nothing.
    #[inline]
    fn written(destination: u8) -> u64 {
        u64::from(destination >> 6 == 3) << (destination % 64)
    }

    fn lowest(self) -> (u8, Option<Half>) {
        (self.trailing_zeros() as u8, (self != 0).then_some(Half::Low))
    }
}

/// Bit r is the low half of register r, bit 64 + r its high half.
impl Set for u128 {
    const VERSION: Version = Version::Two;
    const NONE: u128 = 0;
    const ALL: u128 = u128::MAX;
    type Bytes = [u8; 16];

    #[inline]
    fn load(bytes: &[u8; 16]) -> u128 {
        u128::from_le_bytes(*bytes)
    }

    fn store(self) -> [u8; 16] {
        self.to_le_bytes()
    }

    fn split(bytes: &[u8]) -> &[[u8; 16]] {
        bytes.as_chunks().0
    }

    #[inline]
    fn from_halves([low, high]: [u64; 2]) -> u128 {
        u128::from(low) | u128::from(high) << 64
    }

    #[inline]
    fn written(destination: u8) -> u128 {
        let [low, high] = [destination >> 6 & 1, destination >> 7].map(|half| u64::from(half) << (destination % 64));
        u128::from_halves([low, high])
    }

    fn lowest(self) -> (u8, Option<Half>) {
        let (low, high) = (self as u64, (self >> 64) as u64);
        let register = (low | high).trailing_zeros() as u8;
        let half = if low.trailing_zeros() <= high.trailing_zeros() { Half::Low } else { Half::High };
        (register, (self != 0).then_some(half))
    }
}
