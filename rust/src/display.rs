//! Instructions, refusals, verdicts and runs in words.

use crate::{Form, Half, Inference, NotRun, Refusal, Replayed, Side, TEXT, Unread, Verdict, ascii, raw};
use std::fmt::{Display, Formatter, Result};

/// A refusal with all that is known of it.
struct Fault {
    number: u8,
    place: u8,
    /// None where no program is at hand.
    index: Option<u16>,
    blamed: Blamed,
}

/// A register, by its half where one is told, as `r2L`.
struct Blamed {
    register: u8,
    half: Option<Half>,
}

/// No register is at fault.
const NOBODY: Blamed = Blamed { register: 64, half: None };

impl Display for Fault {
    fn fmt(&self, f: &mut Formatter) -> Result {
        write!(f, "refused with {}", self.number)?;
        if let (Some(index), 2..=7 | 20..=23 | 30 | 31) = (self.index, self.number) {
            write!(f, " at instruction {index}")?;
        }
        f.write_str(": ")?;
        self.reason(f)
    }
}

impl Display for Blamed {
    fn fmt(&self, f: &mut Formatter) -> Result {
        let letter = match self.half {
            None => "",
            Some(Half::Low) => "L",
            Some(Half::High) => "H",
        };
        write!(f, "r{}{letter}", self.register)
    }
}

impl Fault {
    /// The meaning of the number, as `include/vsp.h` has it.
    fn reason(&self, f: &mut Formatter) -> Result {
        let Fault { place, ref blamed, .. } = *self;
        match self.number {
            1 => f.write_str("the word isn't 8 bytes long"),
            2 => f.write_str("the word is no instruction of the table"),
            3 => write!(f, "a bit is 1 that the instruction has no use for (bit {place})"),
            4 => f.write_str("the flow is a reserved one"),
            5 => f.write_str("no half of the destination is written"),
            6 => write!(f, "a modifier has an illegal value (bit {place})"),
            7 => write!(f, "a source is a word of a reserved constant (source {place})"),
            8 => f.write_str("the room to write a word to isn't 8 bytes long"),
            9 => f.write_str("the row has no room for a value of the form, or the offset is beyond its limits"),
            10 => f.write_str("the mark isn't VSP"),
            11 => f.write_str("the version is neither 1 nor 2"),
            12 => f.write_str("the count of instructions or the length is wrong"),
            13 => f.write_str("byte 5 isn't 0"),
            20 => write!(f, "it reads {blamed}, which its note doesn't name"),
            21 => f.write_str("it can go on to a place outside the program"),
            22 => {
                let what = "it can go on to an instruction whose note names";
                write!(f, "{what} {blamed}, which by its own note it doesn't leave filled")
            }
            23 => {
                let what = "which the parcel doesn't say is filled before the start";
                write!(f, "it has a note that names {blamed}, {what}")
            }
            24 => f.write_str("with these words and this entry set no notes at all would be accepted"),
            30 => f.write_str("replay doesn't run such an instruction"),
            31 => f.write_str("it has a uniform that the list doesn't have"),
            32 => f.write_str("the trace isn't 64 numbers for each step"),
            _ => f.write_str("this number is never given"),
        }
    }
}

/// The text of the instruction, with the padding that the format asks for.
impl Display for Form {
    fn fmt(&self, f: &mut Formatter) -> Result {
        let mut text = [0; TEXT];
        let length = raw::text(&self.to_bytes(), &mut text);
        f.pad(ascii(&text[..length]))
    }
}

impl Display for Refusal {
    fn fmt(&self, f: &mut Formatter) -> Result {
        let Refusal { number, place } = *self;
        match number {
            // Of a word, or of a row in an instruction or on its own.
            2 => f.write_str("refused with 2: the word is no instruction of the table, or the row is above 76"),
            _ => Fault { number, place, index: None, blamed: NOBODY }.fmt(f),
        }
    }
}

impl Display for Verdict {
    fn fmt(&self, f: &mut Formatter) -> Result {
        match *self {
            Verdict::Accepted => f.write_str("accepted"),
            Verdict::Refused { number, place, index, register, half } => {
                Fault { number, place, index: Some(index), blamed: Blamed { register, half } }.fmt(f)
            }
        }
    }
}

impl Display for Inference {
    fn fmt(&self, f: &mut Formatter) -> Result {
        match *self {
            Inference::Proposed { sweeps } => write!(f, "notes proposed, sweeps: {sweeps}"),
            Inference::Refused { number: 12, .. } => {
                f.write_str("refused with 12: the length of the words or of the room for notes is wrong")
            }
            Inference::Refused { number, place, index, .. } => {
                Fault { number, place, index: Some(index), blamed: NOBODY }.fmt(f)
            }
        }
    }
}

impl Display for Unread {
    fn fmt(&self, f: &mut Formatter) -> Result {
        let Unread { side, number, place, index, .. } = *self;
        let which = match side {
            Side::First => "first",
            Side::Second => "second",
        };
        write!(f, "the {which} parcel is {}", Fault { number, place, index: Some(index), blamed: NOBODY })
    }
}

impl Display for Replayed {
    fn fmt(&self, f: &mut Formatter) -> Result {
        let (name, steps) = match *self {
            Replayed::Ended { steps } => ("END", steps),
            Replayed::Limit { steps } => ("LIMIT", steps),
            Replayed::Differs { step, register } => return write!(f, "DIFFERS at step {step}, r{register}"),
        };
        write!(f, "{name} after {steps} {}", if steps == 1 { "step" } else { "steps" })
    }
}

impl Display for NotRun {
    fn fmt(&self, f: &mut Formatter) -> Result {
        let NotRun { number, place, index, register, half } = *self;
        Fault { number, place, index: Some(index), blamed: Blamed { register, half } }.fmt(f)
    }
}

impl std::error::Error for Refusal {}

impl std::error::Error for Unread {}

impl std::error::Error for NotRun {}
