//! Programs so small that every choice of notes can be tried.
//!
//! Version 1: their instructions name r0 and r1 only, and an entry set has all of the other
//! registers or none. Notes are made of the same three parts: r0, r1, all others together. That
//! is enough. The check asks of each register apart (20, 22 and 23 are about one register, 21 is
//! about none), so notes are accepted exactly if, for each register, what they say of it alone is.
//! So accepted notes stay accepted when they are cut down to r0 and r1, since nobody reads the
//! others. And of the others, which no instruction names, the check asks the same: what
//! accepted notes say of one of them is accepted when they say it of all.
//!
//! Version 2: the same with halves for registers. The parts are the two halves of r0, r1, all
//! others together. No instruction writes half of r1, so the check asks the same of its halves.

use crate::program::END;
use crate::{BRANCH, Program, Set};
use reference::{Instruction, ROWS};

/// What tiny programs of a version are made of.
pub trait Tiny: Set {
    /// The parts of sets.
    fn parts() -> Vec<Self>;
    /// The instructions.
    fn stock() -> Vec<Instruction>;
}

impl Tiny for u64 {
    fn parts() -> Vec<u64> {
        vec![1, 2, !3]
    }

    fn stock() -> Vec<Instruction> {
        stock()
    }
}

impl Tiny for u128 {
    fn parts() -> Vec<u128> {
        let (r0, r1) = (u128::register(0), u128::register(1));
        vec![u128::filled(0, 1), u128::filled(0, 2), r1, !(r0 | r1)]
    }

    fn stock() -> Vec<Instruction> {
        stock_of_halves()
    }
}

/// Every program of so many instructions from a small stock, with every entry set of the parts.
pub fn tiny_programs<S: Tiny>(count: usize) -> impl Iterator<Item = Program<S>> {
    sets::<S>()
        .into_iter()
        .flat_map(move |entry| sequences(S::stock(), count).map(move |instructions| Program { entry, instructions }))
}

/// Every choice of so many notes of the parts.
pub fn all_notes<S: Tiny>(count: usize) -> Vec<Vec<S>> {
    sequences(sets(), count).collect()
}

/// The subsets of the parts.
fn sets<S: Tiny>() -> Vec<S> {
    let join = |sets: Vec<S>, part| sets.iter().copied().chain(sets.iter().map(|set| *set | part)).collect();
    S::parts().into_iter().fold(vec![S::NONE], join)
}

/// What the accepted ones among these notes name together, or nothing where none is accepted.
pub fn union_of_accepted<S: Set>(
    program: &Program<S>,
    choices: &[Vec<S>],
    accepts: impl Fn(&[u8]) -> bool,
) -> Option<Vec<S>> {
    let mut union: Option<Vec<S>> = None;
    let mut bytes = program.parcel(&choices[0]);
    let start = bytes.len() - S::BYTES * program.count();
    for notes in choices {
        for (bytes, note) in bytes[start..].chunks_exact_mut(S::BYTES).zip(notes) {
            note.store(bytes);
        }
        if accepts(&bytes) {
            let union = union.get_or_insert_with(|| vec![S::NONE; program.count()]);
            union.iter_mut().zip(notes).for_each(|(set, note)| *set = *set | *note);
        }
    }
    union
}

/// Each way to treat a register, `end` or not, and branches to inside and outside.
fn stock() -> Vec<Instruction> {
    let constant = 192;
    let (r0, r1, released) = (0, 1, 64);
    let nop = Instruction::default();
    let mut stock = vec![
        nop,
        Instruction { flow: END, ..nop },
        mov(r0, constant),
        mov(r0, r1),
        mov(r0, released + r0),
        mov(r1, released + r0),
        Instruction { half_mask: 1, ..mov(r0, constant) },
        Instruction { half_mask: 2, ..mov(r1, released + r1) },
        Instruction { flow: END, ..mov(r0, r1) },
        Instruction { flow: END, ..branch(released + r0, -1) },
    ];
    for source in [constant, r0, released + r1] {
        stock.extend((-3..=1).map(|offset| branch(source, offset)));
    }
    stock
}

/// Each way to treat a half of r0, `end` or not, and branches to inside and outside.
fn stock_of_halves() -> Vec<Instruction> {
    let constant = 192;
    let (r0, r1, released) = (0, 1, 64);
    let nop = Instruction::default();
    vec![
        nop,
        Instruction { flow: END, ..nop },
        Instruction { half_mask: 1, ..mov(r0, constant) },
        Instruction { half_mask: 2, ..mov(r0, constant) },
        Instruction { half_mask: 2, ..mov(r0, released + r0) },
        Instruction { half_mask: 1, ..mov(r0, released + r1) },
        mov(r1, r0),
        Instruction { flow: END, ..mov(r1, r0) },
        branch(constant, -3),
        branch(constant, -2),
        branch(released + r0, -2),
        branch(released + r0, 1),
    ]
}

fn mov(register: u8, source: u8) -> Instruction {
    let row = ROWS.iter().position(|row| row.name == "MOV.i32").unwrap() as u8;
    Instruction { row, register, half_mask: 3, sources: [source, 0, 0, 0], ..Instruction::default() }
}

fn branch(source: u8, offset: i32) -> Instruction {
    Instruction { row: BRANCH, sources: [source, 0, 0, 0], offset, ..Instruction::default() }
}

/// Every list of so many of these.
fn sequences<T: Copy>(from: Vec<T>, count: usize) -> impl Iterator<Item = Vec<T>> {
    let base = from.len();
    (0..base.pow(count as u32))
        .map(move |number| (0..count as u32).map(|k| from[number / base.pow(k) % base]).collect())
}
