//! The replay: a machine of one thread runs a checked parcel and compares its registers, after
//! each step, with a recorded trace.

use crate::check::END;
use crate::enumerations::IMMEDIATES;
use crate::rows::{ROWS, slot};
use crate::{Half, Instruction, Parcel, Refusal, Verdict, check, read};

/// What the machine works on, and what a trace has for each step.
pub type Registers = [u32; 64];

/// The half mask of a write of the whole register.
const FULL: u8 = 3;
const SIGN: u32 = 1 << 31;
/// The one not-a-number that an addition leaves.
const NOT_A_NUMBER: u32 = 0x7FC0_0000;

/// How a run came to its stop.
#[derive(Clone, Copy, Debug, PartialEq, Eq)]
pub enum Replayed {
    /// At an instruction with flow `end`.
    Ended { steps: u32 },
    /// At the limit.
    Limit { steps: u32 },
    /// At the first step, counted from 0, after which a register isn't as in the trace: the lowest
    /// such register.
    Differs { step: u32, register: u8 },
}

/// Why nothing is run.
#[derive(Clone, Copy, Debug, PartialEq, Eq)]
pub struct NotRun {
    pub refusal: Refusal,
    /// The instruction at fault, 0 where none is.
    pub index: u16,
    /// As in the check's verdict; only the check's own refusals blame one.
    pub register: u8,
    pub half: Option<Half>,
}

/// An instruction, ready to run.
struct Step {
    operation: Operation,
    /// Where the result goes, if there is one.
    register: u8,
    ends: bool,
}

#[derive(Clone, Copy)]
enum Operation {
    Nothing,
    /// To the target on zero, or on anything else.
    Branch {
        on_zero: bool,
        source: Operand,
        target: usize,
    },
    Move(Operand),
    LeadingZeros(Operand),
    Ones(Operand),
    Reverse(Operand),
    Complement(Operand),
    /// The first source or the second, by the third.
    Mux(Condition, [Operand; 3]),
    Add {
        terms: [Term; 2],
        clamp: Option<Bounds>,
    },
}

/// A source whose number is known before the first step, unless it is a register.
#[derive(Clone, Copy)]
enum Operand {
    Register(u8),
    Number(u32),
}

/// What a mask must be for the first source to be taken; `Bit` asks that of each bit.
#[derive(Clone, Copy)]
enum Condition {
    Negative,
    Zero,
    FloatZero,
    Bit,
}

/// A source of an addition with its signs: the bits to keep, for absolute, and those to flip, for
/// negate.
#[derive(Clone, Copy)]
struct Term {
    source: Operand,
    keep: u32,
    flip: u32,
}

#[derive(Clone, Copy)]
struct Bounds {
    low: f32,
    high: f32,
}

/// 002's clamps in order.
const CLAMPS: [Option<Bounds>; 4] = [
    None,
    Some(Bounds { low: 0.0, high: f32::INFINITY }),
    Some(Bounds { low: -1.0, high: 1.0 }),
    Some(Bounds { low: 0.0, high: 1.0 }),
];
/// 002's conditions of MUX in order.
const CONDITIONS: [Condition; 4] = [Condition::Negative, Condition::Zero, Condition::FloatZero, Condition::Bit];

/// Checks the parcel and runs it, to the first difference from the trace, else to an `end`, else
/// to the limit; steps that the trace doesn't have aren't compared. The registers are left as the
/// last step leaves them. A refusal comes before the first step and leaves them alone.
pub fn replay(
    bytes: &[u8],
    registers: &mut Registers,
    uniforms: &[u32],
    trace: &[u32],
    limit: u32,
) -> Result<Replayed, NotRun> {
    let parcel = checked(bytes)?;
    let (records, []) = trace.as_chunks() else {
        return Err(not_run(Refusal::TraceLength, 0));
    };
    let steps = prepare(&parcel, uniforms)?;
    let mut records = records.iter();
    Ok(run(&steps, registers, limit, |now| records.next().and_then(|record| difference(now, record))))
}

/// Runs the parcel without a trace and records one: the registers after each step.
pub fn record(
    bytes: &[u8],
    registers: &mut Registers,
    uniforms: &[u32],
    limit: u32,
) -> Result<(Replayed, Vec<Registers>), NotRun> {
    let steps = prepare(&checked(bytes)?, uniforms)?;
    let mut records = Vec::new();
    let replayed = run(&steps, registers, limit, |now| {
        records.push(*now);
        None
    });
    Ok((replayed, records))
}

/// Runs the steps until one of them leaves a register that differs, which is asked after each.
#[inline]
fn run(
    steps: &[Step],
    registers: &mut Registers,
    limit: u32,
    mut differing: impl FnMut(&Registers) -> Option<u8>,
) -> Replayed {
    let mut at = 0;
    for number in 0..limit {
        let step = &steps[at];
        at = step.run(registers, at + 1);
        if let Some(register) = differing(registers) {
            return Replayed::Differs { step: number, register };
        }
        if step.ends {
            return Replayed::Ended { steps: number + 1 };
        }
    }
    Replayed::Limit { steps: limit }
}

/// The lowest register in which the two differ.
#[inline]
fn difference(registers: &Registers, record: &Registers) -> Option<u8> {
    if registers == record {
        return None;
    }
    registers.iter().zip(record).position(|(replayed, recorded)| replayed != recorded).map(|at| at as u8)
}

/// The parcel, if the check accepts it.
fn checked(bytes: &[u8]) -> Result<Parcel<'_>, NotRun> {
    if let Verdict::Refused { refusal, index, register, half } = check(bytes) {
        return Err(NotRun { refusal, index, register, half });
    }
    Parcel::open(bytes).map_err(|refusal| not_run(refusal, 0))
}

/// Refusals that blame no register.
fn not_run(refusal: Refusal, index: usize) -> NotRun {
    NotRun { refusal, index: index as u16, register: 64, half: None }
}

/// The words, decoded once, with the numbers of uniforms and constants in place.
fn prepare(parcel: &Parcel, uniforms: &[u32]) -> Result<Vec<Step>, NotRun> {
    let prepared = parcel.words().enumerate().map(|(index, word)| {
        let step = read(&word.to_le_bytes()).and_then(|instruction| Step::new(&instruction, index, uniforms));
        step.map_err(|refusal| not_run(refusal, index))
    });
    prepared.collect()
}

impl Step {
    /// Refusal 30, then 31.
    fn new(instruction: &Instruction, index: usize, uniforms: &[u32]) -> Result<Step, Refusal> {
        if !is_replayed(instruction) {
            return Err(Refusal::NotReplayed);
        }
        let operands = operands(instruction, uniforms).ok_or(Refusal::NoUniform)?;
        Ok(Step {
            operation: operation(instruction, index, operands),
            register: instruction.register,
            ends: instruction.flow == END,
        })
    }

    /// Runs the step; where the program goes on unless the step ends it.
    #[inline]
    fn run(&self, registers: &mut Registers, next: usize) -> usize {
        let result = match self.operation {
            Operation::Nothing => return next,
            Operation::Branch { on_zero, source, target } => {
                return if (source.of(registers) == 0) == on_zero { target } else { next };
            }
            Operation::Move(source) => source.of(registers),
            Operation::LeadingZeros(source) => source.of(registers).leading_zeros(),
            Operation::Ones(source) => source.of(registers).count_ones(),
            Operation::Reverse(source) => source.of(registers).reverse_bits(),
            Operation::Complement(source) => !source.of(registers),
            Operation::Mux(condition, sources) => {
                let [a, b, mask] = sources.map(|source| source.of(registers));
                condition.mux(a, b, mask)
            }
            Operation::Add { terms: [a, b], clamp } => add(a.of(registers), b.of(registers), clamp),
        };
        registers[usize::from(self.register) % 64] = result;
        next
    }
}

/// Whether the machine has the instruction: its row, with no combine and no widen, without a half
/// write and without special constants.
fn is_replayed(instruction: &Instruction) -> bool {
    let row = &ROWS[usize::from(instruction.row)];
    let modifier = |low| instruction.modifiers[slot(low)];
    let known = match row.name {
        "NOP" | "MOV.i32" | "CLZ.u32" | "POPCOUNT.i32" | "BITREV.i32" | "NOT_OLD.i32" | "MUX.i32" => true,
        "BRANCHZ" => modifier(37) == 0,
        "FADD.f32" => modifier(28) == 0 && modifier(26) == 0,
        _ => false,
    };
    known
        && (!row.destination || instruction.half_mask == FULL)
        && instruction.sources[..row.sources].iter().all(|byte| *byte < 224)
}

/// The sources of an instruction that is replayed; what its row doesn't have is 0. None where a
/// uniform isn't in the list.
fn operands(instruction: &Instruction, uniforms: &[u32]) -> Option<[Operand; 3]> {
    let mut operands = [Operand::Number(0); 3];
    let sources = &instruction.sources[..ROWS[usize::from(instruction.row)].sources];
    for (operand, byte) in operands.iter_mut().zip(sources) {
        *operand = match *byte {
            register @ 0..128 => Operand::Register(register % 64),
            uniform @ 128..192 => {
                let number = usize::from(uniform - 128) + 64 * usize::from(instruction.page);
                Operand::Number(*uniforms.get(number)?)
            }
            constant => Operand::Number(IMMEDIATES[usize::from(constant - 192)]),
        };
    }
    Some(operands)
}

/// What an instruction that is replayed does.
fn operation(instruction: &Instruction, index: usize, [a, b, c]: [Operand; 3]) -> Operation {
    let modifier = |low| instruction.modifiers[slot(low)];
    match ROWS[usize::from(instruction.row)].name {
        "BRANCHZ" => Operation::Branch {
            on_zero: modifier(36) != 0,
            source: a,
            // With `end` it may lie outside the program; then nothing goes there.
            target: (index + 1).wrapping_add_signed(instruction.offset as isize),
        },
        "MOV.i32" => Operation::Move(a),
        "CLZ.u32" => Operation::LeadingZeros(a),
        "POPCOUNT.i32" => Operation::Ones(a),
        "BITREV.i32" => Operation::Reverse(a),
        "NOT_OLD.i32" => Operation::Complement(a),
        "MUX.i32" => Operation::Mux(CONDITIONS[usize::from(modifier(32))], [a, b, c]),
        "FADD.f32" => Operation::Add {
            terms: [Term::new(a, modifier(39), modifier(38)), Term::new(b, modifier(37), modifier(36))],
            clamp: CLAMPS[usize::from(modifier(32))],
        },
        _ => Operation::Nothing,
    }
}

impl Operand {
    #[inline]
    fn of(self, registers: &Registers) -> u32 {
        match self {
            Operand::Register(register) => registers[usize::from(register) % 64],
            Operand::Number(number) => number,
        }
    }
}

impl Condition {
    #[inline]
    fn mux(self, a: u32, b: u32, mask: u32) -> u32 {
        let holds = match self {
            Condition::Negative => mask & SIGN != 0,
            Condition::Zero => mask == 0,
            Condition::FloatZero => mask & !SIGN == 0,
            Condition::Bit => return a & mask | b & !mask,
        };
        if holds { a } else { b }
    }
}

impl Term {
    fn new(source: Operand, absolute: u8, negate: u8) -> Term {
        Term { source, keep: if absolute != 0 { !SIGN } else { u32::MAX }, flip: if negate != 0 { SIGN } else { 0 } }
    }

    #[inline]
    fn of(self, registers: &Registers) -> f32 {
        f32::from_bits(self.source.of(registers) & self.keep ^ self.flip)
    }
}

impl Bounds {
    /// The larger of x and the lower bound, and then the smaller of that and the upper one. A
    /// not-a-number isn't above the lower bound, and -0 isn't above 0.
    #[inline]
    fn clamp(self, x: f32) -> f32 {
        let raised = if x > self.low { x } else { self.low };
        if raised < self.high { raised } else { self.high }
    }
}

/// One addition, rounded to the nearest and ties to even, and its clamp.
#[inline]
fn add(a: f32, b: f32, clamp: Option<Bounds>) -> u32 {
    let sum = a + b;
    let clamped = clamp.map_or(sum, |bounds| bounds.clamp(sum));
    if clamped.is_nan() { NOT_A_NUMBER } else { clamped.to_bits() }
}
