use crate::Rng;
use reference::Half;
use std::fmt::{Debug, UpperHex};
use std::ops::{BitAnd, BitOr, BitXor, Not};

/// A set of what can be held, a bit for each: registers in version 1, halves of registers in
/// version 2.
pub trait Set:
    Copy
    + Debug
    + UpperHex
    + Ord
    + BitAnd<Output = Self>
    + BitOr<Output = Self>
    + BitXor<Output = Self>
    + Not<Output = Self>
{
    /// The version whose sets these are.
    const VERSION: u8;
    /// The lengths of a header and of a set.
    const HEADER: usize;
    const BYTES: usize;
    const NONE: Self;
    const ALL: Self;

    /// From low halves and high halves; in version 1 they are the same.
    fn from_halves(halves: [u64; 2]) -> Self;
    /// The low halves and the high halves; in version 1 each register has both.
    fn halves(self) -> [u64; 2];
    /// What a write to a register with a half mask fills.
    fn filled(register: u8, half_mask: u8) -> Self;
    /// Writes the set as it stands in a parcel; the bytes are as many as it has.
    fn store(self, bytes: &mut [u8]);
    fn load(bytes: &[u8]) -> Self;
    /// Each in one of two cases.
    fn random(rng: &mut Rng) -> Self;
    /// One of a set that isn't empty.
    fn member(self, rng: &mut Rng) -> Self;

    /// The set as it stands in a parcel.
    fn bytes(self) -> Vec<u8> {
        let mut bytes = vec![0; Self::BYTES];
        self.store(&mut bytes);
        bytes
    }

    /// All that there is of a register.
    fn register(register: u8) -> Self {
        Self::from_halves([1 << register; 2])
    }

    /// The registers that are in the set with all that there is of them.
    fn whole(self) -> u64 {
        let [low, high] = self.halves();
        low & high
    }

    /// What a refusal says of a set that isn't empty: the lowest register of which a half is in
    /// it, and the low half where that is.
    fn lowest(self) -> (u8, Option<Half>) {
        let [low, high] = self.halves();
        let register = (0..64).find(|r| (low | high) >> r & 1 != 0).unwrap();
        let half = if low >> register & 1 != 0 { Half::Low } else { Half::High };
        (register, Some(half))
    }
}

/// Bit r is register r.
impl Set for u64 {
    const VERSION: u8 = 1;
    const HEADER: usize = 16;
    const BYTES: usize = 8;
    const NONE: u64 = 0;
    const ALL: u64 = u64::MAX;

    fn from_halves([low, high]: [u64; 2]) -> u64 {
        assert_eq!(low, high);
        low
    }

    fn halves(self) -> [u64; 2] {
        [self, self]
    }

    fn filled(register: u8, half_mask: u8) -> u64 {
        if half_mask == 3 { 1 << register } else { 0 }
    }

    fn store(self, bytes: &mut [u8]) {
        bytes.copy_from_slice(&self.to_le_bytes());
    }

    fn load(bytes: &[u8]) -> u64 {
        u64::from_le_bytes(bytes.try_into().unwrap())
    }

    fn random(rng: &mut Rng) -> u64 {
        rng.bits()
    }

    fn member(self, rng: &mut Rng) -> u64 {
        rng.member(self)
    }
}

/// Bit r is the low half of register r, bit 64 + r its high half.
impl Set for u128 {
    const VERSION: u8 = 2;
    const HEADER: usize = 24;
    const BYTES: usize = 16;
    const NONE: u128 = 0;
    const ALL: u128 = u128::MAX;

    fn from_halves([low, high]: [u64; 2]) -> u128 {
        u128::from(low) + (u128::from(high) << 64)
    }

    fn halves(self) -> [u64; 2] {
        [self as u64, (self >> 64) as u64]
    }

    fn filled(register: u8, half_mask: u8) -> u128 {
        match half_mask {
            1 => 1 << register,
            2 => 1 << (64 + register),
            3 => 1 << register | 1 << (64 + register),
            _ => 0,
        }
    }

    fn store(self, bytes: &mut [u8]) {
        let [low, high] = self.halves();
        low.store(&mut bytes[..8]);
        high.store(&mut bytes[8..]);
    }

    fn load(bytes: &[u8]) -> u128 {
        let (low, high) = bytes.split_at(8);
        u128::from_halves([u64::load(low), u64::load(high)])
    }

    fn random(rng: &mut Rng) -> u128 {
        u128::from_halves([rng.bits(), rng.bits()])
    }

    fn member(self, rng: &mut Rng) -> u128 {
        let number = rng.below(self.count_ones() as usize);
        (0..128).map(|bit| 1 << bit).filter(|bit| self & bit != 0).nth(number).unwrap()
    }
}
