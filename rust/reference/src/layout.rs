//! Tables for the hot path, computed from the rows at compile time.

use crate::rows::{MODIFIER_BITS, MODIFIERS, ROW_COUNT, ROWS, Row};

/// Bits that every row owns: opcode, page and flow.
const COMMON_BITS: u64 = 0x7FFF << 48;
const DESTINATION_BITS: u64 = 0xFF << 40;
const OFFSET_BITS: u64 = 0x7FF_FFFF << 8;

/// At most this many modifiers of a row have illegal values.
const MAX_LIMITS: usize = 3;

/// A modifier with illegal values.
#[derive(Clone, Copy)]
pub struct Limit {
    pub low: u8,
    pub mask: u8,
    /// Bit v is 1 where value v is legal.
    pub legal: u16,
}

/// A row as masks over the word.
#[derive(Clone, Copy)]
pub struct Layout {
    pub row: u8,
    /// Every bit that some field owns.
    pub assigned: u64,
    /// Opcode and secondary opcode in their places.
    pub fixed: u64,
    /// The bits of the sources that the row has.
    pub sources: u32,
    pub destination: bool,
    pub offset: bool,
    /// The largest number that each modifier place can hold, 0 where the row has none.
    pub masks: [u8; MODIFIERS],
    /// The modifiers with illegal values, lowest bit first, filled up with ones that pass.
    pub limits: [Limit; MAX_LIMITS],
}

/// Where an opcode's secondary is, and its part of `ROW_BY_SECONDARY`.
#[derive(Clone, Copy)]
struct Opcode {
    low: u8,
    mask: u8,
    start: u8,
}

const OPCODES: usize = 512;
const NO_ROW: u8 = u8::MAX;
/// The sum of 2^width over the opcodes' secondaries, and one cell for all other opcodes.
const CELLS: usize = 187;

static LAYOUTS: [Layout; ROW_COUNT] = layouts();
static BY_OPCODE: [Opcode; OPCODES] = index().0;
static ROW_BY_SECONDARY: [u8; CELLS] = index().1;

/// The layout of a row.
#[inline]
pub fn layout(row: u8) -> Option<&'static Layout> {
    LAYOUTS.get(row as usize)
}

/// The layout of the row whose opcode and secondary opcode the word has.
#[inline]
pub fn find(word: u64) -> Option<&'static Layout> {
    let opcode = &BY_OPCODE[(word >> 48) as usize % OPCODES];
    let secondary = (word >> opcode.low) as u8 & opcode.mask;
    layout(ROW_BY_SECONDARY[opcode.start as usize + secondary as usize])
}

const fn mask(width: u8) -> u8 {
    ((1u16 << width) - 1) as u8
}

const fn layouts() -> [Layout; ROW_COUNT] {
    let mut all = [layout_of(0); ROW_COUNT];
    let mut row = 1;
    while row < ROW_COUNT {
        all[row] = layout_of(row);
        row += 1;
    }
    all
}

const fn layout_of(number: usize) -> Layout {
    let row = &ROWS[number];
    let sources = ((1u64 << (8 * row.sources)) - 1) as u32;
    let mut assigned = COMMON_BITS | sources as u64;
    let mut fixed = (row.opcode as u64) << 48;
    if row.destination {
        assigned |= DESTINATION_BITS;
    }
    if row.offset {
        assigned |= OFFSET_BITS;
    }
    if let Some(secondary) = row.secondary {
        assigned |= (mask(secondary.width) as u64) << secondary.low;
        fixed |= (secondary.value as u64) << secondary.low;
    }
    let mut masks = [0; MODIFIERS];
    let mut k = 0;
    while k < MODIFIERS {
        masks[k] = mask(row.modifiers[k].width);
        assigned |= (masks[k] as u64) << MODIFIER_BITS[k];
        k += 1;
    }
    Layout {
        row: number as u8,
        assigned,
        fixed,
        sources,
        destination: row.destination,
        offset: row.offset,
        masks,
        limits: limits_of(row),
    }
}

const fn limits_of(row: &Row) -> [Limit; MAX_LIMITS] {
    let mut limits = [Limit { low: 0, mask: 0, legal: 1 }; MAX_LIMITS];
    let mut count = 0;
    let mut k = 0;
    while k < MODIFIERS {
        let modifier = row.modifiers[k];
        let all = ((1u32 << (mask(modifier.width) as u32 + 1)) - 1) as u16;
        if modifier.legal != all {
            let mask = mask(modifier.width);
            limits[count] = Limit { low: MODIFIER_BITS[k], mask, legal: modifier.legal };
            count += 1;
        }
        k += 1;
    }
    limits
}

/// The rows by opcode and secondary opcode. Cell 0 is for opcodes without a row.
const fn index() -> ([Opcode; OPCODES], [u8; CELLS]) {
    let mut opcodes = [Opcode { low: 0, mask: 0, start: 0 }; OPCODES];
    let mut cells = [NO_ROW; CELLS];
    let mut used = 1;
    let mut row = 0;
    while row < ROW_COUNT {
        let (low, width, value) = match ROWS[row].secondary {
            Some(secondary) => (secondary.low, secondary.width, secondary.value),
            None => (0, 0, 0),
        };
        let opcode = &mut opcodes[ROWS[row].opcode as usize];
        if opcode.start == 0 {
            *opcode = Opcode { low, mask: mask(width), start: used };
            used += 1 << width;
        }
        let cell = opcode.start as usize + value as usize;
        assert!(cells[cell] == NO_ROW, "two rows fit the same word");
        cells[cell] = row as u8;
        row += 1;
    }
    assert!(used as usize == CELLS);
    (opcodes, cells)
}
