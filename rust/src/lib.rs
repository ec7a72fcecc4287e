//! Safe functions over the C interface in `include/vsp.h`, which says what each promises.
//!
//! A parcel has the words of a shader program, an entry set (the registers that it says are
//! filled before the program starts) and notes (for each instruction the registers that it
//! says are filled when the instruction is reached). In a parcel of version 1 these are whole
//! registers; in one of version 2 the low halves and the high halves are told apart.
//!
//! ```no_run
//! let word = 0x0091_C100_0000_0002_u64.to_le_bytes();
//! match vsp::read(&word) {
//!     // MOV.i32 r1, r2
//!     Ok(form) => println!("{form}"),
//!     Err(refusal) => println!("{refusal}"),
//! }
//! ```

mod display;
pub mod raw;

/// The length of a word.
pub const WORD: usize = 8;
/// The length of the C interface's form of an instruction.
pub const FORM: usize = 32;
/// Room for the text of any instruction and the 0 byte after it.
pub const TEXT: usize = 534;
/// Room for the name of any row and the 0 byte after it.
pub const NAME: usize = 19;
/// No list of differences has more lines: 24 for each of 2048 instructions, and three.
pub const DIFF_LINES: usize = 24 * 2048 + 3;
/// How many registers there are, and how many numbers a trace has for a step.
pub const REGISTERS: usize = 64;

/// The fields of an instruction. What its row has no place for is 0. [`text`] writes it out, as
/// `Display` does.
#[derive(Clone, Copy, Debug, Default, PartialEq, Eq)]
pub struct Form {
    pub row: u8,
    pub page: u8,
    pub flow: u8,
    /// The destination's register.
    pub register: u8,
    /// The destination's half mask: 1 low, 2 high, 3 full.
    pub half_mask: u8,
    /// Each source as its byte in the word.
    pub sources: [u8; 4],
    /// The modifiers whose lowest bits are 8, 10, 11, 24, 26, 28, 30, 32, 34 to 39.
    pub modifiers: [u8; 14],
    /// The branch offset, counted from the next instruction.
    pub offset: i32,
}

/// Why a word, an instruction or a row number is refused. `Display` says it in words, as `refused
/// with 6: a modifier has an illegal value (bit 32)`.
#[derive(Clone, Copy, Debug, PartialEq, Eq)]
pub struct Refusal {
    pub number: u8,
    /// The lowest stray bit (3), the lowest bit of the modifier (6), the index of the source (7),
    /// else 0.
    pub place: u8,
}

/// A half of a register.
#[derive(Clone, Copy, Debug, PartialEq, Eq)]
pub enum Half {
    Low,
    High,
}

/// The answer of [`check`], which says what an accepted parcel is and isn't. `Display` says it in
/// words, as `refused with 20 at instruction 3: it reads r5L, which its note doesn't name`.
#[derive(Clone, Copy, Debug, PartialEq, Eq)]
pub enum Verdict {
    Accepted,
    Refused {
        number: u8,
        /// As in [`Refusal`].
        place: u8,
        /// The instruction at fault, 0 where the parcel doesn't open.
        index: u16,
        /// The lowest register of which a half is at fault, 64 where none is.
        register: u8,
        /// The half of that register: the low one where it is at fault, else the high one; always
        /// the low one in a parcel of version 1. None where no register is at fault.
        half: Option<Half>,
    },
}

/// The answer of [`infer`], which says what is promised of the notes.
#[derive(Clone, Copy, Debug, PartialEq, Eq)]
pub enum Inference {
    /// The buffer has the notes.
    Proposed {
        /// How many sweeps it took, the last one, which changes nothing, included.
        sweeps: u16,
    },
    Refused {
        number: u8,
        /// As in [`Refusal`].
        place: u8,
        /// The instruction at fault, 0 where none is.
        index: u16,
        /// 64: none of these refusals blames a register.
        register: u8,
    },
}

/// What a line of the list of differences tells of.
#[derive(Clone, Copy, Debug, PartialEq, Eq)]
pub enum What {
    /// The versions of the parcels.
    Version,
    /// The contents are row numbers.
    Row,
    Page,
    Flow,
    /// Bits 40 to 47 of the word as one: register + 64 half mask.
    Destination,
    /// A source by its index, 0 to 3.
    Source(u8),
    /// A modifier by its lowest bit in the word. At bit 8 that is the branch offset, as its raw
    /// 27 bits, or the NaN mode.
    Modifier(u8),
    /// An instruction that only the second parcel has; the contents are 0 and its word.
    Added,
    /// An instruction that only the first parcel has; the contents are its word and 0.
    Removed,
    /// The entry sets: of registers, where both parcels are of version 1, else of these halves.
    Entry(Option<Half>),
    /// The notes of an instruction that both have, likewise.
    Note(Option<Half>),
}

/// A line of the list of differences.
#[derive(Clone, Copy, Debug, PartialEq, Eq)]
pub struct Difference {
    pub what: What,
    /// The instruction, 0 for versions and entry sets.
    pub index: u16,
    /// What the first parcel has there: a version, a row number, a set (bit r for register r, or
    /// for this half of it), or the field's bits, 0 where its row has no such field.
    pub first: u64,
    /// What the second parcel has there.
    pub second: u64,
}

/// One of the two parcels that are compared.
#[derive(Clone, Copy, Debug, PartialEq, Eq)]
pub enum Side {
    First,
    Second,
}

/// The parcel that can't be compared, since it doesn't open or has a word that isn't legal.
#[derive(Clone, Copy, Debug, PartialEq, Eq)]
pub struct Unread {
    pub side: Side,
    pub number: u8,
    /// As in [`Refusal`].
    pub place: u8,
    /// The lowest word that isn't legal, 0 where the parcel doesn't open.
    pub index: u16,
    /// 64: none of these refusals blames a register.
    pub register: u8,
}

/// How a run of [`replay`] came to its stop. `Display` says it in words, as `END after 5 steps`,
/// `LIMIT after 1 step` or `DIFFERS at step 3, r2`.
#[derive(Clone, Copy, Debug, PartialEq, Eq)]
pub enum Replayed {
    /// At an instruction with flow `end`, with nothing that differs from the trace.
    Ended {
        /// How many steps were run.
        steps: u32,
    },
    /// At the limit, with nothing that differs from the trace.
    Limit {
        /// How many steps were run: as many as the limit says.
        steps: u32,
    },
    /// At the first step that leaves a register other than the trace has it.
    Differs {
        /// The step, counted from 0. It was the last one that was run.
        step: u32,
        /// The lowest such register.
        register: u8,
    },
}

/// Why [`replay`] runs nothing. `Display` says it in words, as `refused with 31 at instruction 3:
/// it has a uniform that the list doesn't have`.
#[derive(Clone, Copy, Debug, PartialEq, Eq)]
pub struct NotRun {
    /// As from [`check`], or 30, 31 or 32.
    pub number: u8,
    /// As in [`Refusal`].
    pub place: u8,
    /// The instruction at fault, 0 where none is.
    pub index: u16,
    /// As in [`Verdict`]; 64 for 30, 31 and 32.
    pub register: u8,
    /// As in [`Verdict`].
    pub half: Option<Half>,
}

/// Opens a parcel, reads all its words and checks its notes.
///
/// In an accepted parcel no instruction reads a register that isn't held, whichever way the
/// program goes, and no way leaves the program. In version 1 a register is held or not, and only
/// a full write fills it; in version 2 each half is, a write fills the halves that it writes, and
/// a read needs both.
///
/// That holds if the display fills what the entry set names: bytes 8 to 15, little-endian, bit r
/// for register r; in version 2 bytes 8 to 15 for its low half and bytes 16 to 23 for its high
/// half. The set is the parcel's own claim and is taken on trust, so compare it with what the
/// display really fills. Accepted doesn't mean that the program computes the right thing, nor
/// that it is the approved one.
///
/// ```no_run
/// # fn main() -> std::io::Result<()> {
/// let parcel = std::fs::read("samples/approved.vsp")?;
/// println!("{}", vsp::check(&parcel));
/// # Ok(())
/// # }
/// ```
pub fn check(parcel: &[u8]) -> Verdict {
    let code = raw::check(parcel);
    if code == 0 {
        return Verdict::Accepted;
    }
    Verdict::Refused {
        number: code as u8,
        place: (code >> 8) as u8,
        index: (code >> 16) as u16,
        register: (code >> 32) as u8,
        half: half((code >> 40) as u8),
    }
}

/// Makes notes, for a parcel of this version, for words that come without any. Words and notes
/// are as in a parcel: 8 bytes for each instruction, and for its note 8 in version 1 and 16 in
/// version 2. The entry set is the caller's to know: the words don't say what the display fills
/// before it starts the program. It is given as low halves and high halves, bit r for register r;
/// in version 1 the low ones are the set, of whole registers, and the high ones play no part.
///
/// Where notes are proposed the buffer is filled with them, and [`check`] accepts the parcel of
/// this version, this entry set, these words and these notes. They name all that any accepted
/// notes name; where every instruction lies on some way through the program, just what is held
/// whichever way the program comes there.
///
/// A refusal leaves the buffer as it was: 11 for a version that is neither 1 nor 2; 12 for the
/// length of words or notes; 2 to 7 for the lowest word that isn't legal; 24 where no notes at all
/// would be accepted. Takes some 180 KB of stack.
pub fn infer(version: u64, words: &[u8], entry_low: u64, entry_high: u64, notes: &mut [u8]) -> Inference {
    let code = raw::infer(version, words, entry_low, entry_high, notes);
    match code as u8 {
        0 => Inference::Proposed { sweeps: (code >> 16) as u16 },
        number => Inference::Refused {
            number,
            place: (code >> 8) as u8,
            index: (code >> 16) as u16,
            register: (code >> 32) as u8,
        },
    }
}

/// Reads a word of 8 little-endian bytes.
pub fn read(word: &[u8]) -> Result<Form, Refusal> {
    let mut form = [0; FORM];
    answer(raw::read(word, &mut form)).map(|()| Form::from_bytes(&form))
}

/// Writes an instruction into a buffer of 8 bytes; a refusal leaves the buffer as it was.
pub fn write(form: &Form, word: &mut [u8]) -> Result<(), Refusal> {
    answer(raw::write(&form.to_bytes(), word))
}

/// The fresh instruction of a row, 0 to 76. Each source that the row has is constant entry 0 (byte
/// 0xC0), so the instruction reads no register: alone in a parcel, with `flow: 15` (`end`), an empty
/// entry set and an empty note, it is accepted.
pub fn fresh(row: u64) -> Result<Form, Refusal> {
    let mut form = [0; FORM];
    answer(raw::fresh(row, &mut form)).map(|()| Form::from_bytes(&form))
}

/// The text of an instruction, as Mesa's disassembler for Valhall writes it; `include/vsp.h` says
/// what it is made of. It takes any numbers, legal or not: a question mark stands where there is
/// no name.
///
/// ```no_run
/// let form = vsp::Form { row: 30, flow: 15, register: 1, half_mask: 2, ..vsp::Form::default() };
/// assert_eq!(vsp::text(&form), "MOV.i32.end r1.h1, r0");
/// assert_eq!(format!("{form:>24};"), "   MOV.i32.end r1.h1, r0;");
/// ```
pub fn text(form: &Form) -> String {
    form.to_string()
}

/// The name of a row, 0 to 76.
///
/// ```no_run
/// assert_eq!(vsp::name(30).as_deref(), Some("MOV.i32"));
/// assert_eq!(vsp::name(77), None);
/// ```
pub fn name(row: usize) -> Option<String> {
    let mut name = [0; NAME];
    match raw::name(row, &mut name) {
        0 => None,
        length => Some(ascii(&name[..length]).to_string()),
    }
}

/// The k-th row that has an opcode (bits 48 to 56 of a word), counted from 0 in row order, or
/// none: for any opcode, however large, and any k. An opcode has 25 rows at most.
pub fn row_of(opcode: u64, k: u64) -> Option<u8> {
    match raw::row_of(opcode, k) {
        raw::NO_ROW => None,
        row => Some(row as u8),
    }
}

/// Line k, counted from 0, of the list of what differs between two parcels, or none where the
/// list has fewer; [`differences`] says what is on it. Each call goes through the list from its
/// front.
pub fn difference(first: &[u8], second: &[u8], k: usize) -> Result<Option<Difference>, Unread> {
    let mut line = [0; 3];
    match raw::diff_line(first, second, k, &mut line) {
        0 => Ok(Some(Difference::from_numbers(line))),
        raw::FEWER => Ok(None),
        code => Err(unread(code)),
    }
}

/// The list of what differs between two parcels, the approved one first.
///
/// The versions, if they differ. For each instruction that both have, in order, a line for each
/// field that differs: row, page, flow, destination, sources, modifiers by lowest bit. Then the
/// instructions that only the longer parcel has, then the entry sets if they differ, then the
/// notes that differ of the instructions that both have. A set has one line where both parcels
/// are of version 1; else one for the low halves and one for the high halves, and a set of
/// version 1 counts as both. The list is empty exactly where the two have the same bytes.
///
/// Both parcels must open and all their words be legal; the first is looked at before the
/// second. Notes are compared and not checked: an empty list doesn't mean that [`check`] accepts
/// the parcels. Takes some 1.2 MB of heap while it runs.
pub fn differences(first: &[u8], second: &[u8]) -> Result<Vec<Difference>, Unread> {
    let mut lines = vec![[0; 3]; DIFF_LINES];
    let buffer = lines.first_chunk_mut().expect("the buffer has this length");
    let code = raw::diff_lines(first, second, buffer);
    match code as u8 {
        0 => Ok(lines[..(code >> 16) as usize].iter().map(|line| Difference::from_numbers(*line)).collect()),
        _ => Err(unread(code)),
    }
}

/// Checks the parcel, runs its program in one thread, and compares the registers after each step
/// with a trace, which is what a display recorded of its own run. `include/vsp.h` says which nine
/// instructions are run, and what each does.
///
/// The registers go in as they are before the first step, and are left as the last step that is
/// run leaves them. Uniform k of the program is number k of the list. The trace has the 64
/// registers after each step, one step after the other; where it has fewer steps than are run, the
/// others aren't compared, and where it has more, the rest isn't looked at. The run stops at the
/// first difference, else at an `end`, else when as many steps are run as the limit says.
///
/// A refusal comes before the first step and leaves the registers as they were: first those of
/// [`check`]; then 32 for a trace that isn't 64 numbers for each step; then, for the lowest
/// instruction that has either, 30 for one that isn't run or 31 for a uniform that the list doesn't
/// have, and 30 if it has both.
///
/// ```no_run
/// # fn main() -> Result<(), Box<dyn std::error::Error>> {
/// let parcel = std::fs::read("samples/loop.vsp")?;
/// let uniforms = [0.5_f32, -1.0].map(f32::to_bits);
/// let mut registers = [0; vsp::REGISTERS];
/// registers[0] = 3.0_f32.to_bits();
/// let replayed = vsp::replay(&parcel, &mut registers, &uniforms, &[], 1_000)?;
/// assert_eq!(replayed.to_string(), "END after 11 steps");
/// assert_eq!(f32::from_bits(registers[2]), 1.5);
/// # Ok(())
/// # }
/// ```
pub fn replay(
    parcel: &[u8],
    registers: &mut [u32; REGISTERS],
    uniforms: &[u32],
    trace: &[u32],
    limit: u32,
) -> Result<Replayed, NotRun> {
    let code = raw::replay(parcel, registers, uniforms, trace, limit);
    let steps = (code >> 16) as u32;
    match code as u8 {
        0 => Ok(Replayed::Ended { steps }),
        raw::REPLAY_LIMIT => Ok(Replayed::Limit { steps }),
        raw::REPLAY_DIFFERS => Ok(Replayed::Differs { step: steps - 1, register: (code >> 8) as u8 }),
        _ => Err(not_run(code)),
    }
}

fn not_run(code: u64) -> NotRun {
    NotRun {
        number: code as u8,
        place: (code >> 8) as u8,
        index: (code >> 16) as u16,
        register: (code >> 32) as u8,
        half: half((code >> 40) as u8),
    }
}

fn unread(code: u64) -> Unread {
    Unread {
        side: if code >> 48 == 1 { Side::First } else { Side::Second },
        number: code as u8,
        place: (code >> 8) as u8,
        index: (code >> 16) as u16,
        register: (code >> 32) as u8,
    }
}

/// As the C interface numbers the halves, 0 for none.
fn half(number: u8) -> Option<Half> {
    match number {
        0 => None,
        1 => Some(Half::Low),
        _ => Some(Half::High),
    }
}

/// A text that the library has written.
fn ascii(bytes: &[u8]) -> &str {
    str::from_utf8(bytes).expect("the text is ASCII")
}

fn answer(code: u32) -> Result<(), Refusal> {
    match code {
        0 => Ok(()),
        _ => Err(Refusal { number: code as u8, place: (code >> 8) as u8 }),
    }
}

impl Replayed {
    /// How many steps were run.
    pub fn steps(self) -> u32 {
        match self {
            Replayed::Ended { steps } | Replayed::Limit { steps } => steps,
            Replayed::Differs { step, .. } => step + 1,
        }
    }
}

impl Difference {
    /// The line that the C interface gives as three numbers.
    fn from_numbers([head, first, second]: raw::Line) -> Difference {
        let which = (head >> 8) as u8;
        let what = match head as u8 {
            0 => What::Row,
            1 => What::Page,
            2 => What::Flow,
            3 => What::Destination,
            4 => What::Source(which),
            5 => What::Modifier(which),
            6 => What::Added,
            7 => What::Removed,
            8 => What::Entry(half(which)),
            9 => What::Note(half(which)),
            _ => What::Version,
        };
        Difference { what, index: (head >> 16) as u16, first, second }
    }
}

impl Form {
    /// The layout of the C interface, padding 0.
    pub fn to_bytes(&self) -> [u8; FORM] {
        let mut bytes = [0; FORM];
        bytes[..5].copy_from_slice(&[self.row, self.page, self.flow, self.register, self.half_mask]);
        bytes[5..9].copy_from_slice(&self.sources);
        bytes[9..23].copy_from_slice(&self.modifiers);
        bytes[24..28].copy_from_slice(&self.offset.to_le_bytes());
        bytes
    }

    /// The fields of the C interface's layout. Padding is passed over.
    pub fn from_bytes(bytes: &[u8; FORM]) -> Form {
        let [row, page, flow, register, half_mask, ..] = *bytes;
        let mut form = Form { row, page, flow, register, half_mask, ..Form::default() };
        form.sources.copy_from_slice(&bytes[5..9]);
        form.modifiers.copy_from_slice(&bytes[9..23]);
        form.offset = i32::from_le_bytes([bytes[24], bytes[25], bytes[26], bytes[27]]);
        form
    }
}
