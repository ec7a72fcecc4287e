//! Words and instructions.

use crate::Refusal;
use crate::layout::{Layout, find, layout};
use crate::rows::{MODIFIER_BITS, MODIFIERS, ROWS};

/// Bit f is 1 where flow f is reserved.
const RESERVED_FLOWS: u32 = 1 << 11 | 1 << 12 | 1 << 14;
/// The source byte for constant entry 0, which reads as 0.
const ENTRY_0: u8 = 192;
/// The first source byte for a word of a special constant: 192 + 32.
const FIRST_SPECIAL: u8 = 224;
/// By page, bit i is 1 where value i is not reserved. Its low word is entry 32 + 2i, its high word entry 33 + 2i.
const SPECIALS: [u32; 4] = [
    // warp_id, framebuffer_size, atest_datum, sample, blend_descriptor_0 to 7
    1 << 2 | 1 << 4 | 1 << 5 | 1 << 6 | 0xFF << 8,
    // thread_local_pointer, workgroup_local_pointer, resource_table_pointer
    1 << 1 | 1 << 3 | 1 << 7,
    0,
    // lane_id, core_id, program_counter
    1 << 1 | 1 << 3 | 1 << 15,
];
/// The offsets of a branch: 27 bits, signed.
const OFFSETS: core::ops::RangeInclusive<i32> = -67_108_864..=67_108_863;

/// A decoded instruction (the paper's record). What its row has no place for is 0.
#[derive(Clone, Copy, Debug, Default, PartialEq, Eq)]
pub struct Instruction {
    pub row: u8,
    pub page: u8,
    pub flow: u8,
    /// The destination's register.
    pub register: u8,
    /// The destination's half mask: 1 low, 2 high, 3 full.
    pub half_mask: u8,
    /// Each source as its byte.
    pub sources: [u8; 4],
    /// The modifiers, in the order of [`MODIFIER_BITS`].
    pub modifiers: [u8; MODIFIERS],
    /// The branch offset, counted from the next instruction.
    pub offset: i32,
}

/// Reads a word of 8 little-endian bytes.
pub fn read(bytes: &[u8]) -> Result<Instruction, Refusal> {
    let bytes: [u8; 8] = bytes.try_into().map_err(|_| Refusal::WordLength)?;
    let word = u64::from_le_bytes(bytes);
    let layout = validate(word)?;
    Ok(decode(word, layout))
}

/// Writes an instruction as a word; a refusal leaves the buffer as it was.
pub fn write(instruction: &Instruction, buffer: &mut [u8]) -> Result<(), Refusal> {
    let buffer: &mut [u8; 8] = buffer.try_into().map_err(|_| Refusal::BufferLength)?;
    let layout = layout(instruction.row).ok_or(Refusal::NoRow)?;
    if !fits(instruction, layout) {
        return Err(Refusal::FieldRange);
    }
    let word = encode(instruction, layout);
    legal(word, layout)?;
    *buffer = word.to_le_bytes();
    Ok(())
}

/// The fresh instruction of a row: each of its sources is constant entry 0.
pub fn fresh(row: u64) -> Result<Instruction, Refusal> {
    let number = u8::try_from(row).map_err(|_| Refusal::NoRow)?;
    let row = ROWS.get(number as usize).ok_or(Refusal::NoRow)?;
    let mut sources = [0; 4];
    sources[..row.sources].fill(ENTRY_0);
    Ok(Instruction {
        row: number,
        half_mask: if row.destination { 3 } else { 0 },
        sources,
        modifiers: row.modifiers.map(|modifier| modifier.fresh),
        ..Instruction::default()
    })
}

/// The layout of a word that reads, else the first refusal in the reader's order.
#[inline(always)]
pub(crate) fn validate(word: u64) -> Result<&'static Layout, Refusal> {
    let layout = find(word).ok_or(Refusal::NoRow)?;
    let stray = word & !layout.assigned;
    if stray != 0 {
        return Err(Refusal::UnassignedBit(stray.trailing_zeros() as u8));
    }
    legal(word, layout)?;
    Ok(layout)
}

/// Refusals 4 to 7, for a word whose set bits are all assigned.
#[inline(always)]
fn legal(word: u64, layout: &Layout) -> Result<(), Refusal> {
    if RESERVED_FLOWS >> flow(word) & 1 != 0 {
        return Err(Refusal::ReservedFlow);
    }
    if layout.destination & (half_mask(word) == 0) {
        return Err(Refusal::EmptyHalfMask);
    }
    for limit in &layout.limits {
        if limit.legal >> ((word >> limit.low) as u8 & limit.mask) & 1 == 0 {
            return Err(Refusal::Modifier(limit.low));
        }
    }
    let sources = word as u32 & layout.sources;
    // A byte from 224 up has its top three bits set; most words have none.
    if sources & sources << 1 & sources << 2 & 0x8080_8080 != 0 {
        return legal_specials(sources, page(word));
    }
    Ok(())
}

/// Whether the special constants among the sources exist on the page. Absent sources are 0.
#[cold]
fn legal_specials(sources: u32, page: u8) -> Result<(), Refusal> {
    for (index, byte) in sources.to_le_bytes().into_iter().enumerate() {
        if byte >= FIRST_SPECIAL && SPECIALS[page as usize] >> ((byte - FIRST_SPECIAL) / 2) & 1 == 0 {
            return Err(Refusal::Source(index as u8));
        }
    }
    Ok(())
}

#[inline]
fn page(word: u64) -> u8 {
    (word >> 57) as u8 & 3
}

#[inline]
pub(crate) fn flow(word: u64) -> u8 {
    (word >> 59) as u8 & 15
}

#[inline]
fn register(word: u64) -> u8 {
    (word >> 40) as u8 & 63
}

#[inline]
fn half_mask(word: u64) -> u8 {
    (word >> 46) as u8 & 3
}

/// Bits 8-34 with their sign.
#[inline]
pub(crate) fn offset(word: u64) -> i32 {
    ((word << 29) as i64 >> 37) as i32
}

/// The fields of a word that reads with this layout.
#[inline]
fn decode(word: u64, layout: &Layout) -> Instruction {
    let mut modifiers = [0; MODIFIERS];
    for ((value, low), mask) in modifiers.iter_mut().zip(MODIFIER_BITS).zip(layout.masks) {
        *value = (word >> low) as u8 & mask;
    }
    Instruction {
        row: layout.row,
        page: page(word),
        flow: flow(word),
        // Without a destination these bits are 0.
        register: register(word),
        half_mask: half_mask(word),
        sources: (word as u32 & layout.sources).to_le_bytes(),
        modifiers,
        offset: if layout.offset { offset(word) } else { 0 },
    }
}

/// Whether every number fits its field; a place that the row doesn't use fits 0 only.
fn fits(instruction: &Instruction, layout: &Layout) -> bool {
    let sources = u32::from_le_bytes(instruction.sources);
    let destination = (instruction.register, instruction.half_mask);
    instruction.page <= 3
        && instruction.flow <= 15
        && if layout.destination { destination.0 <= 63 && destination.1 <= 3 } else { destination == (0, 0) }
        && sources & !layout.sources == 0
        && instruction.modifiers.iter().zip(&layout.masks).all(|(value, mask)| value <= mask)
        && if layout.offset { OFFSETS.contains(&instruction.offset) } else { instruction.offset == 0 }
}

/// The word of an instruction whose numbers all fit.
fn encode(instruction: &Instruction, layout: &Layout) -> u64 {
    let mut word = layout.fixed
        | u64::from(u32::from_le_bytes(instruction.sources))
        | u64::from(instruction.register) << 40
        | u64::from(instruction.half_mask) << 46
        | u64::from(instruction.page) << 57
        | u64::from(instruction.flow) << 59
        | (instruction.offset as u64 & 0x7FF_FFFF) << 8;
    for (value, low) in instruction.modifiers.into_iter().zip(MODIFIER_BITS) {
        word |= u64::from(value) << low;
    }
    word
}
