/// Why something is refused. 15 isn't here: a word that passes the writer's tests always
/// reads back as its instruction.
#[derive(Clone, Copy, Debug, PartialEq, Eq)]
pub enum Refusal {
    /// A word to read that isn't 8 bytes long.
    WordLength,
    /// No row fits the word, or the row number is over 76.
    NoRow,
    /// A bit that no field of the row owns is 1: the lowest such bit.
    UnassignedBit(u8),
    ReservedFlow,
    /// A destination with half mask 0.
    EmptyHalfMask,
    /// An illegal modifier, by its lowest bit.
    Modifier(u8),
    /// A refused source, by its index.
    Source(u8),
    /// The buffer for a word isn't 8 bytes.
    BufferLength,
    /// A value that the row has no room for, or one other than 0 where the row has nothing.
    FieldRange,
    Mark,
    /// Neither 1 nor 2; the maker: the version that it is told.
    Version,
    /// Fewer than 16 bytes, or a count or length that is wrong for the version; the maker: words
    /// or notes of a wrong length.
    Size,
    /// Byte 5 of the header isn't 0.
    ReservedByte,
    /// An index that isn't below the count.
    Index,
    /// An instruction reads a register that its note doesn't name; in version 2, of which it
    /// doesn't name both halves.
    UnheldRead,
    /// A successor outside the program.
    LeavesProgram,
    /// An instruction can go on to one whose note names a register, in version 2 a half of one,
    /// that isn't held by then.
    UnheldAfter,
    /// The first note names a register, in version 2 a half of one, that the entry set doesn't
    /// have.
    UnheldAtEntry,
    /// The check accepts no notes with these words and this entry set in this version.
    NoNotes,
    /// An instruction that replay doesn't run.
    NotReplayed,
    /// An instruction with a uniform that the list for replay doesn't have.
    NoUniform,
    /// The trace to replay against isn't 64 numbers for each step.
    TraceLength,
}

impl Refusal {
    /// The paper's number.
    pub const fn number(self) -> u8 {
        match self {
            Refusal::WordLength => 1,
            Refusal::NoRow => 2,
            Refusal::UnassignedBit(_) => 3,
            Refusal::ReservedFlow => 4,
            Refusal::EmptyHalfMask => 5,
            Refusal::Modifier(_) => 6,
            Refusal::Source(_) => 7,
            Refusal::BufferLength => 8,
            Refusal::FieldRange => 9,
            Refusal::Mark => 10,
            Refusal::Version => 11,
            Refusal::Size => 12,
            Refusal::ReservedByte => 13,
            Refusal::Index => 14,
            Refusal::UnheldRead => 20,
            Refusal::LeavesProgram => 21,
            Refusal::UnheldAfter => 22,
            Refusal::UnheldAtEntry => 23,
            Refusal::NoNotes => 24,
            Refusal::NotReplayed => 30,
            Refusal::NoUniform => 31,
            Refusal::TraceLength => 32,
        }
    }

    /// The paper's place; 0 for the refusals without one.
    pub const fn place(self) -> u8 {
        match self {
            Refusal::UnassignedBit(bit) => bit,
            Refusal::Modifier(lowest_bit) => lowest_bit,
            Refusal::Source(index) => index,
            _ => 0,
        }
    }
}
