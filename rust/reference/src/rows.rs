//! The 77 rows, as the paper lists them.

use crate::enumerations::{self as names, Enumeration};

/// How many rows there are.
pub const ROW_COUNT: usize = 77;

/// How many places for a modifier an instruction has.
pub const MODIFIERS: usize = 14;

/// The lowest bit of each modifier place.
pub const MODIFIER_BITS: [u8; MODIFIERS] = [8, 10, 11, 24, 26, 28, 30, 32, 34, 35, 36, 37, 38, 39];

/// What a modifier may hold. Width 0 is a place that the row doesn't use.
#[derive(Clone, Copy, Debug)]
pub struct Modifier {
    pub width: u8,
    /// Bit v is 1 where value v is legal.
    pub legal: u16,
    /// The value in a fresh instruction.
    pub fresh: u8,
    pub role: Role,
    /// The names of its values.
    pub values: Enumeration,
}

/// What a modifier changes.
#[derive(Clone, Copy, Debug, PartialEq, Eq)]
pub enum Role {
    /// Nothing: the row doesn't use the place.
    Absent,
    /// The instruction.
    Own,
    /// The sign of a source.
    Sign,
    /// Which part of a source is taken, and how.
    Swizzle,
}

/// One row: what a word must hold to be this instruction, and its fields.
#[derive(Clone, Copy, Debug)]
pub struct Row {
    pub name: &'static str,
    pub opcode: u16,
    pub secondary: Option<Secondary>,
    pub sources: usize,
    pub destination: bool,
    /// The branch offset in bits 8-34.
    pub offset: bool,
    pub modifiers: [Modifier; MODIFIERS],
}

/// A secondary opcode.
#[derive(Clone, Copy, Debug)]
pub struct Secondary {
    pub low: u8,
    pub width: u8,
    pub value: u8,
}

const fn own(width: u8, legal: u16, fresh: u8, values: Enumeration) -> Modifier {
    Modifier { width, legal, fresh, role: Role::Own, values }
}

const fn flag(values: Enumeration) -> Modifier {
    own(1, 0x3, 0, values)
}

const fn sign(values: Enumeration) -> Modifier {
    Modifier { role: Role::Sign, ..flag(values) }
}

const fn part(width: u8, legal: u16, fresh: u8, values: Enumeration) -> Modifier {
    Modifier { role: Role::Swizzle, ..own(width, legal, fresh, values) }
}

const ABSENT: Modifier = Modifier { role: Role::Absent, ..own(0, 1, 0, names::NONE) };
const NAN_MODE: Modifier = own(2, 0x7, 0, names::NAN_MODE);
const FTZ: Modifier = flag(names::FTZ);
const FLUSH_INF: Modifier = flag(names::FLUSH_INF);
const CONSERVATIVE: Modifier = flag(names::CONSERVATIVE);
const EQ: Modifier = flag(names::EQ);
const CLAMP: Modifier = own(2, 0xF, 0, names::CLAMP);
const MUX: Modifier = own(2, 0xF, 1, names::MUX);
const ROUND: Modifier = own(2, 0xF, 0, names::ROUND_MODE);
const RESULT: Modifier = own(2, 0xF, 0, names::RESULT_TYPE);
const SATURATE: Modifier = flag(names::SATURATE);
const CONDITION: Modifier = own(3, 0xFF, 0, names::CONDITION);
const INTEGER_CONDITION: Modifier = own(3, 0x3F, 0, names::CONDITION);
const NEGATE: Modifier = sign(names::NEG);
const ABSOLUTE: Modifier = sign(names::ABS);
const COMBINE: Modifier = part(3, 0x1F, 0, names::COMBINE);
const LANE_2: Modifier = part(1, 0x3, 0, names::LANE_16);
const LANE_4: Modifier = part(2, 0xF, 0, names::LANE_8);
const HALF_SWIZZLE: Modifier = part(4, 0xFFFF, 0, names::HALF_SWIZZLES_8);
/// F, the paper's "Widen".
const WIDEN: Modifier = part(2, 0x7, 0, names::WIDEN);
/// H, a swizzle of two halves.
const HALVES: Modifier = part(2, 0xF, 2, names::HALVES_16);
const W32: Modifier = part(4, 0xFD, 0, names::SWIZZLES_32);
const W16: Modifier = part(4, 0x3FFF, 2, names::SWIZZLES_16);
const W8: Modifier = part(4, 0xFFF, 0, names::SWIZZLES_8);

/// A row with a destination, plain sources and nothing else.
const fn row(name: &'static str, opcode: u16, sources: usize) -> Row {
    Row { name, opcode, secondary: None, sources, destination: true, offset: false, modifiers: [ABSENT; MODIFIERS] }
}

/// The place of a lowest bit in [`MODIFIER_BITS`].
pub(crate) const fn slot(lowest_bit: u8) -> usize {
    let mut k = 0;
    while MODIFIER_BITS[k] != lowest_bit {
        k += 1;
    }
    k
}

impl Row {
    const fn secondary(mut self, width: u8, value: u8) -> Row {
        let low = if self.sources == 3 { 24 } else { 16 };
        self.secondary = Some(Secondary { low, width, value });
        self
    }

    const fn no_destination(mut self) -> Row {
        self.destination = false;
        self
    }

    const fn branch_offset(mut self) -> Row {
        self.offset = true;
        self
    }

    const fn with(mut self, lowest_bit: u8, modifier: Modifier) -> Row {
        self.modifiers[slot(lowest_bit)] = modifier;
        self
    }

    /// N on the first sources.
    const fn negate(mut self, sources: u8) -> Row {
        let mut k = 0;
        while k < sources {
            self = self.with(38 - 2 * k, NEGATE).with(39 - 2 * k, ABSOLUTE);
            k += 1;
        }
        self
    }

    /// F or H on the first sources.
    const fn halves(mut self, sources: u8, modifier: Modifier) -> Row {
        let mut k = 0;
        while k < sources {
            self = self.with(28 - 2 * k, modifier);
            k += 1;
        }
        self
    }

    /// W32, W16 or W8 on source 0.
    const fn swizzle(self, modifier: Modifier) -> Row {
        self.with(36, modifier)
    }

    /// W32, W16 or W8 on sources 0 and 1.
    const fn swizzles(self, modifier: Modifier) -> Row {
        self.with(36, modifier).with(26, modifier)
    }

    const fn round(self) -> Row {
        self.with(30, ROUND)
    }
}

/// A conversion, opcode 0x90.
const fn convert(name: &'static str, secondary: u8) -> Row {
    row(name, 0x90, 1).secondary(5, secondary)
}

/// One source and a secondary opcode of 4 bits.
const fn unary(name: &'static str, opcode: u16, secondary: u8) -> Row {
    row(name, opcode, 1).secondary(4, secondary)
}

const fn flush(name: &'static str, secondary: u8) -> Row {
    unary(name, 0x98, secondary).negate(1).with(8, NAN_MODE).with(10, FTZ).with(11, FLUSH_INF)
}

const fn fadd(name: &'static str, opcode: u16) -> Row {
    row(name, opcode, 2).secondary(4, 0).negate(2).with(32, CLAMP)
}

const fn mux(name: &'static str, opcode: u16) -> Row {
    row(name, opcode, 3).with(32, MUX)
}

/// A comparison, with its condition and result type.
const fn compare(name: &'static str, opcode: u16, secondary: u8, condition: Modifier) -> Row {
    row(name, opcode, 3).secondary(2, secondary).with(32, condition).with(30, RESULT)
}

const fn icmp(name: &'static str, opcode: u16, secondary: u8, swizzle: Modifier) -> Row {
    compare(name, opcode, secondary, INTEGER_CONDITION).swizzles(swizzle)
}

const fn fcmp(name: &'static str, opcode: u16, secondary: u8, halves: Modifier) -> Row {
    compare(name, opcode, secondary, CONDITION).negate(2).halves(2, halves)
}

const OR: u8 = 0;
const AND: u8 = 1;

/// Stands for any row over 76 in a text: it has no fields.
pub(crate) static UNKNOWN: Row = row("?", 0, 0).no_destination();

/// The rows in the paper's order.
pub static ROWS: [Row; ROW_COUNT] = [
    row("NOP", 0x00, 0).no_destination(),
    row("BRANCHZ", 0x1F, 1).no_destination().branch_offset().with(35, CONSERVATIVE).with(36, EQ).with(37, COMBINE),
    row("DISCARD.f32", 0x20, 2).no_destination().negate(2).halves(2, WIDEN).with(32, CONDITION),
    row("CSEL.f32", 0x154, 4).with(32, CONDITION),
    row("CSEL.v2f16", 0x155, 4).with(32, CONDITION),
    convert("V2S16_TO_V2F16", 0x07).round().swizzle(W16),
    convert("V2U16_TO_V2F16", 0x17).round().swizzle(W16),
    convert("S32_TO_F32", 0x09).round().swizzle(W32),
    convert("U32_TO_F32", 0x19).round().swizzle(W32),
    convert("S16_TO_S32", 0x04).halves(1, HALVES),
    convert("S16_TO_F32", 0x05).halves(1, HALVES),
    convert("U16_TO_U32", 0x14).halves(1, HALVES),
    convert("U16_TO_F32", 0x15).halves(1, HALVES),
    convert("F32_TO_S32", 0x0C).round().negate(1),
    convert("F32_TO_U32", 0x1C).round().negate(1),
    convert("V2F16_TO_V2S16", 0x0E).round().negate(1).halves(1, HALVES),
    convert("V2F16_TO_V2U16", 0x1E).round().negate(1).halves(1, HALVES),
    convert("F16_TO_S32", 0x0A).round().negate(1).halves(1, HALVES),
    convert("F16_TO_U32", 0x1A).round().negate(1).halves(1, HALVES),
    convert("F16_TO_F32", 0x0B).round().negate(1).with(28, LANE_2),
    convert("S8_TO_S32", 0x00).with(28, LANE_4),
    convert("S8_TO_F32", 0x01).with(28, LANE_4),
    convert("U8_TO_U32", 0x10).with(28, LANE_4),
    convert("U8_TO_F32", 0x11).with(28, LANE_4),
    convert("V2S8_TO_V2S16", 0x02).with(36, HALF_SWIZZLE),
    convert("V2S8_TO_V2F16", 0x03).with(36, HALF_SWIZZLE),
    convert("V2U8_TO_V2U16", 0x12).with(36, HALF_SWIZZLE),
    convert("V2U8_TO_V2F16", 0x13).with(36, HALF_SWIZZLE),
    convert("FROUND.f32", 0x0D).round().negate(1).halves(1, WIDEN),
    convert("FROUND.v2f16", 0x0F).round().negate(1).halves(1, HALVES),
    unary("MOV.i32", 0x91, 0x0),
    unary("CLZ.u32", 0x91, 0x4),
    unary("CLZ.v2u16", 0x91, 0x5).halves(1, HALVES),
    unary("CLZ.v4u8", 0x91, 0x6),
    unary("IABS.s32", 0x91, 0x8).swizzle(W32),
    unary("IABS.v2s16", 0x91, 0x9).swizzle(W16),
    unary("IABS.v4s8", 0x91, 0xA),
    unary("POPCOUNT.i32", 0x91, 0xC),
    unary("BITREV.i32", 0x91, 0xD),
    unary("NOT_OLD.i32", 0x91, 0xE),
    flush("FLUSH.f32", 0).halves(1, WIDEN),
    flush("FLUSH.v2f16", 1).halves(1, HALVES),
    unary("FRCP.f32", 0x9C, 0).negate(1).halves(1, WIDEN),
    unary("FRSQ.f32", 0x9C, 2).negate(1).halves(1, WIDEN),
    unary("FLOGD.f32", 0x9C, 8).negate(1).halves(1, WIDEN),
    unary("FPCLASS.f32", 0x9C, 10).negate(1).halves(1, WIDEN),
    unary("FLOG_TABLE.f32", 0x9C, 12).negate(1).halves(1, WIDEN),
    unary("FRCP_APPROX.f32", 0x9C, 14).negate(1).halves(1, WIDEN),
    unary("FRSQ_APPROX.f32", 0x9C, 15).negate(1).halves(1, WIDEN),
    unary("FSIN_TABLE.u6", 0x9C, 4),
    unary("FCOS_TABLE.u6", 0x9C, 5),
    unary("FSINCOS_OFFSET.u6", 0x9C, 6),
    unary("FEXP_TABLE.u4", 0x9C, 13),
    fadd("FADD.f32", 0xA4).halves(2, WIDEN),
    fadd("FADD.v2f16", 0xA5).halves(2, HALVES),
    mux("MUX.i32", 0xB8),
    mux("MUX.v2i16", 0xB9).halves(3, HALVES),
    mux("MUX.v4i8", 0xBA),
    row("CUBE_SSEL", 0xBC, 3).secondary(4, 0).negate(2),
    row("CUBE_TSEL", 0xBC, 3).secondary(4, 1).negate(2),
    row("CUBEFACE1", 0xC0, 3).negate(3),
    row("CUBEFACE2_V9", 0xC1, 3).negate(3),
    row("IDP.v4s8", 0xC2, 3).secondary(4, 0).with(30, SATURATE),
    row("IDP.v4u8", 0xC2, 3).secondary(4, 1).with(30, SATURATE),
    icmp("ICMP_OR.u32", 0xF0, OR, W32),
    icmp("ICMP_OR.v2u16", 0xF1, OR, W16),
    icmp("ICMP_OR.v4u8", 0xF2, OR, W8),
    icmp("ICMP_AND.u32", 0xF0, AND, W32),
    icmp("ICMP_AND.v2u16", 0xF1, AND, W16),
    icmp("ICMP_AND.v4u8", 0xF2, AND, W8),
    fcmp("FCMP_OR.f32", 0xF4, OR, WIDEN),
    fcmp("FCMP_OR.v2f16", 0xF5, OR, HALVES),
    fcmp("FCMP_AND.f32", 0xF4, AND, WIDEN),
    fcmp("FCMP_AND.v2f16", 0xF5, AND, HALVES),
    icmp("ICMP_OR.s32", 0xF8, OR, W32),
    icmp("ICMP_OR.v2s16", 0xF9, OR, W16),
    icmp("ICMP_OR.v4s8", 0xFA, OR, W8),
];

/// The k-th row that has the opcode, counted from 0 in row order.
pub fn row_of(opcode: u64, k: u64) -> Option<u8> {
    let mut left = k;
    for (row, line) in ROWS.iter().enumerate() {
        if u64::from(line.opcode) != opcode {
            continue;
        }
        if left == 0 {
            return Some(row as u8);
        }
        left -= 1;
    }
    None
}
