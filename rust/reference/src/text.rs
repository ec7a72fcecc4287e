//! The text of an instruction, as Mesa's disassembler writes it.

use crate::Instruction;
use crate::enumerations::{Enumeration, FLOW, IMMEDIATES, SPECIALS, Written};
use crate::rows::{ROWS, Role, Row, UNKNOWN, slot};

/// The lowest bits of the instruction's own modifiers, in the order of the text.
const OWN: [u8; 7] = [8, 10, 11, 35, 36, 32, 30];
/// Of the negate and the absolute of each source.
const SIGNS: [&[u8]; 4] = [&[38, 39], &[36, 37], &[34, 35], &[]];
/// Of the widen, swizzle, lane or combine of each source: a row has one of them at most.
const SWIZZLES: [&[u8]; 4] = [&[28, 36, 37], &[26], &[24], &[]];

/// The text of any instruction, legal or not. A question mark stands where there is no name.
pub fn text(instruction: &Instruction) -> String {
    let row = ROWS.get(usize::from(instruction.row)).unwrap_or(&UNKNOWN);
    let mut text = String::from(row.name);
    push_modifiers(&mut text, instruction, row, Role::Own, &OWN);
    push_value(&mut text, &FLOW, instruction.flow);
    let operands = operands(instruction, row);
    if !operands.is_empty() {
        text.push(' ');
        text += &operands.join(", ");
    }
    text
}

fn operands(instruction: &Instruction, row: &Row) -> Vec<String> {
    let mut operands = Vec::new();
    if row.destination {
        operands.push(destination(instruction.register, instruction.half_mask));
    }
    operands.extend((0..row.sources).map(|k| source(instruction, row, k)));
    if row.offset {
        operands.push(format!("offset:{}", instruction.offset));
    }
    operands
}

fn destination(register: u8, half_mask: u8) -> String {
    let half = match half_mask {
        1 => ".h0",
        2 => ".h1",
        3 => "",
        _ => ".?",
    };
    format!("r{register}{half}")
}

/// Source k with its signs and its swizzle.
fn source(instruction: &Instruction, row: &Row, k: usize) -> String {
    let mut text = operand(instruction.sources[k], instruction.page);
    push_modifiers(&mut text, instruction, row, Role::Sign, SIGNS[k]);
    push_modifiers(&mut text, instruction, row, Role::Swizzle, SWIZZLES[k]);
    text
}

/// What a source byte stands for on a page.
fn operand(byte: u8, page: u8) -> String {
    match byte {
        0..64 => format!("r{byte}"),
        64..128 => format!("^r{}", byte - 64),
        128..192 => format!("u{}", u32::from(byte - 128) + 64 * u32::from(page)),
        192..224 => format!("0x{:X}", IMMEDIATES[usize::from(byte - 192)]),
        224.. => special(byte - 224, page).unwrap_or(String::from("?")),
    }
}

/// The word of a special constant at entry 32 + this: two for each value of the page.
fn special(word: u8, page: u8) -> Option<String> {
    let name = SPECIALS.get(usize::from(page))?.name(word / 2)?;
    Some(format!("{name}.w{}", word % 2))
}

/// The modifiers of this role that the row has at these lowest bits.
fn push_modifiers(text: &mut String, instruction: &Instruction, row: &Row, role: Role, lows: &[u8]) {
    for low in lows {
        let modifier = &row.modifiers[slot(*low)];
        if modifier.role == role {
            push_value(text, &modifier.values, instruction.modifiers[slot(*low)]);
        }
    }
}

fn push_value(text: &mut String, values: &Enumeration, value: u8) {
    let name = match values.written(value) {
        Written::Nothing => return,
        Written::Name(name) => name,
        Written::Unknown => "?",
    };
    text.push('.');
    text.push_str(name);
}
