//! The comparison of two parcels.

use crate::{Half, Instruction, MODIFIER_BITS, Parcel, Refusal, Version, read};

/// The raw bits of a branch offset.
const OFFSET_MASK: u64 = 0x7FF_FFFF;

/// What a line tells of.
#[derive(Clone, Copy, Debug, PartialEq, Eq)]
pub enum What {
    /// The versions of the parcels, which come first.
    Version,
    Row,
    Page,
    Flow,
    /// Bits 40-47 as one field.
    Destination,
    /// By its index.
    Source(u8),
    /// By its lowest bit; the branch offset counts as the one at bit 8.
    Modifier(u8),
    /// An instruction that only the second parcel has.
    Added,
    /// An instruction that only the first parcel has.
    Removed,
    /// The entry sets: of registers where both parcels are of version 1, else of these halves.
    Entry(Option<Half>),
    /// The notes of an instruction, likewise.
    Note(Option<Half>),
}

/// A line: what differs, at which instruction, and what each parcel has there.
#[derive(Clone, Copy, Debug, PartialEq, Eq)]
pub struct Difference {
    pub what: What,
    /// 0 for versions and entry sets.
    pub index: u16,
    pub first: u64,
    pub second: u64,
}

/// One of the two parcels.
#[derive(Clone, Copy, Debug, PartialEq, Eq)]
pub enum Side {
    First,
    Second,
}

/// The parcel that doesn't open or read.
#[derive(Clone, Copy, Debug, PartialEq, Eq)]
pub struct Unread {
    pub side: Side,
    pub refusal: Refusal,
    /// The lowest word that doesn't read, 0 where the parcel doesn't open.
    pub index: u16,
}

/// A parcel that opens and reads.
struct Program<'a> {
    parcel: Parcel<'a>,
    instructions: Vec<Instruction>,
}

/// Everything in which the second parcel differs from the first, in the paper's order.
pub fn differences(first: &[u8], second: &[u8]) -> Result<Vec<Difference>, Unread> {
    let first = Program::read(first, Side::First)?;
    let second = Program::read(second, Side::Second)?;
    let mut lines = Vec::new();
    versions(&first.parcel, &second.parcel, &mut lines);
    for (index, (a, b)) in first.instructions.iter().zip(&second.instructions).enumerate() {
        if a != b {
            fields(index, a, b, &mut lines);
        }
    }
    // One of the two has no more than both have.
    let shared = first.parcel.count().min(second.parcel.count());
    for (index, word) in first.parcel.words().enumerate().skip(shared) {
        lines.push(line(What::Removed, index, word, 0));
    }
    for (index, word) in second.parcel.words().enumerate().skip(shared) {
        lines.push(line(What::Added, index, 0, word));
    }
    sets(&first.parcel, &second.parcel, &mut lines);
    Ok(lines)
}

impl<'a> Program<'a> {
    /// Opens the parcel and reads its words.
    fn read(bytes: &'a [u8], side: Side) -> Result<Self, Unread> {
        let unread = |refusal, index: usize| Unread { side, refusal, index: index as u16 };
        let parcel = Parcel::open(bytes).map_err(|refusal| unread(refusal, 0))?;
        let mut instructions = Vec::with_capacity(parcel.count());
        for (index, word) in parcel.words().enumerate() {
            instructions.push(read(&word.to_le_bytes()).map_err(|refusal| unread(refusal, index))?);
        }
        Ok(Program { parcel, instructions })
    }
}

fn line(what: What, index: usize, first: u64, second: u64) -> Difference {
    Difference { what, index: index as u16, first, second }
}

fn versions(first: &Parcel, second: &Parcel, lines: &mut Vec<Difference>) {
    if first.version != second.version {
        lines.push(line(What::Version, 0, first.version.number(), second.version.number()));
    }
}

/// The entry sets, then the notes that both have: a line for registers, or one for each half.
fn sets(first: &Parcel, second: &Parcel, lines: &mut Vec<Difference>) {
    let halves: &[(Option<Half>, usize)] = match (first.version, second.version) {
        (Version::One, Version::One) => &[(None, 0)],
        _ => &[(Some(Half::Low), 0), (Some(Half::High), 1)],
    };
    let mut compare = |what: fn(Option<Half>) -> What, index, a: [u64; 2], b: [u64; 2]| {
        for &(half, at) in halves {
            if a[at] != b[at] {
                lines.push(line(what(half), index, a[at], b[at]));
            }
        }
    };
    compare(What::Entry, 0, first.entry, second.entry);
    for (index, (a, b)) in first.note_halves().zip(second.note_halves()).enumerate() {
        compare(What::Note, index, a, b);
    }
}

/// The fields in which two instructions differ.
fn fields(index: usize, first: &Instruction, second: &Instruction, lines: &mut Vec<Difference>) {
    let mut compare = |what, a: u64, b: u64| {
        if a != b {
            lines.push(line(what, index, a, b));
        }
    };
    compare(What::Row, first.row.into(), second.row.into());
    compare(What::Page, first.page.into(), second.page.into());
    compare(What::Flow, first.flow.into(), second.flow.into());
    compare(What::Destination, destination(first), destination(second));
    for (k, (a, b)) in first.sources.into_iter().zip(second.sources).enumerate() {
        compare(What::Source(k as u8), a.into(), b.into());
    }
    for (low, (a, b)) in MODIFIER_BITS.into_iter().zip(modifiers(first).into_iter().zip(modifiers(second))) {
        compare(What::Modifier(low), a, b);
    }
}

/// Bits 40-47, 0 on a row without a destination.
fn destination(instruction: &Instruction) -> u64 {
    u64::from(instruction.register) | u64::from(instruction.half_mask) << 6
}

/// The modifiers, with the branch offset at bit 8: no row has both, and what a row lacks is 0.
fn modifiers(instruction: &Instruction) -> [u64; MODIFIER_BITS.len()] {
    let mut modifiers = instruction.modifiers.map(u64::from);
    modifiers[0] |= instruction.offset as u64 & OFFSET_MASK;
    modifiers
}
