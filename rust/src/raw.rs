//! The C functions with slices for pointers and lengths, and their codes as they come.

use crate::{DIFF_LINES, FORM, NAME, REGISTERS, TEXT};

/// From [`row_of`]: the opcode has no such row.
pub const NO_ROW: u32 = 255;
/// From [`diff_line`]: the list has no such line.
pub const FEWER: u64 = 255;
/// From [`replay`], as the number of its answer: it came to the limit.
pub const REPLAY_LIMIT: u8 = 254;
/// From [`replay`], as the number of its answer: a register isn't as in the trace.
pub const REPLAY_DIFFERS: u8 = 255;

/// A line of the list of differences: what + 2^8 which + 2^16 index, and both contents.
pub type Line = [u64; 3];

unsafe extern "C" {
    fn vsp_check(parcel: *const u8, length: usize) -> u64;
    fn vsp_read(word: *const u8, length: usize, form: *mut u8) -> u32;
    fn vsp_write(form: *const u8, word: *mut u8, length: usize) -> u32;
    fn vsp_fresh(row: u64, form: *mut u8) -> u32;
    fn vsp_text(form: *const u8, text: *mut u8) -> usize;
    fn vsp_name(row: usize, name: *mut u8) -> usize;
    fn vsp_row_of(opcode: u64, k: u64) -> u32;
    fn vsp_infer(
        version: u64,
        words: *const u8,
        length: usize,
        entry_low: u64,
        entry_high: u64,
        notes: *mut u8,
        notes_length: usize,
    ) -> u64;
    fn vsp_diff_line(
        first: *const u8,
        first_length: usize,
        second: *const u8,
        second_length: usize,
        k: usize,
        line: *mut u64,
    ) -> u64;
    fn vsp_diff_lines(
        first: *const u8,
        first_length: usize,
        second: *const u8,
        second_length: usize,
        lines: *mut u64,
    ) -> u64;
    fn vsp_replay(
        parcel: *const u8,
        parcel_length: usize,
        registers: *mut u32,
        uniforms: *const u32,
        uniforms_count: usize,
        trace: *const u32,
        trace_count: usize,
        limit: u32,
    ) -> u64;
}

/// 0, or number + 2^8 place + 2^16 index + 2^32 register + 2^40 half, which is 1 for the low half
/// of the register, 2 for the high one and 0 where no register is at fault.
pub fn check(parcel: &[u8]) -> u64 {
    // SAFETY: the pointer is good for reading as many bytes as the length says.
    unsafe { vsp_check(parcel.as_ptr(), parcel.len()) }
}

/// 0, or number + 2^8 place; then the form keeps its bytes.
pub fn read(word: &[u8], form: &mut [u8; FORM]) -> u32 {
    // SAFETY: as above; the form is 32 bytes to write to, apart from the word.
    unsafe { vsp_read(word.as_ptr(), word.len(), form.as_mut_ptr()) }
}

/// 0, or number + 2^8 place; then the word keeps its bytes.
pub fn write(form: &[u8; FORM], word: &mut [u8]) -> u32 {
    // SAFETY: the form is 32 bytes to read; the word is as long as said, and apart from it.
    unsafe { vsp_write(form.as_ptr(), word.as_mut_ptr(), word.len()) }
}

/// 0, or number + 2^8 place; then the form keeps its bytes.
pub fn fresh(row: u64, form: &mut [u8; FORM]) -> u32 {
    // SAFETY: the form is 32 bytes to write to.
    unsafe { vsp_fresh(row, form.as_mut_ptr()) }
}

/// The length of the text, which is at the front of the buffer with a 0 byte after it; the other
/// bytes stay.
pub fn text(form: &[u8; FORM], text: &mut [u8; TEXT]) -> usize {
    // SAFETY: the form is 32 bytes to read; the text has room for any text, apart from the form.
    unsafe { vsp_text(form.as_ptr(), text.as_mut_ptr()) }
}

/// The length of the name, which is at the front of the buffer with a 0 byte after it; the other
/// bytes stay. Or 0; then the whole buffer keeps its bytes.
pub fn name(row: usize, name: &mut [u8; NAME]) -> usize {
    // SAFETY: the name has room for any name.
    unsafe { vsp_name(row, name.as_mut_ptr()) }
}

/// The row, or [`NO_ROW`].
pub fn row_of(opcode: u64, k: u64) -> u32 {
    // SAFETY: the function takes two numbers of any value.
    unsafe { vsp_row_of(opcode, k) }
}

/// 2^16 sweeps, or number + 2^8 place + 2^16 index + 2^32 register; then the notes keep their
/// bytes.
pub fn infer(version: u64, words: &[u8], entry_low: u64, entry_high: u64, notes: &mut [u8]) -> u64 {
    let (from, room) = (words.as_ptr(), notes.as_mut_ptr());
    // SAFETY: the words are as long as said, to read; the notes are, to write to, and apart.
    unsafe { vsp_infer(version, from, words.len(), entry_low, entry_high, room, notes.len()) }
}

/// 0, or [`FEWER`], or number + 2^8 place + 2^16 index + 2^32 register + 2^48 parcel, 1 for the
/// first and 2 for the second; where it isn't 0 the line keeps its numbers.
pub fn diff_line(first: &[u8], second: &[u8], k: usize, line: &mut Line) -> u64 {
    // SAFETY: the parcels are as long as said, to read; the line is three numbers to write to.
    unsafe { vsp_diff_line(first.as_ptr(), first.len(), second.as_ptr(), second.len(), k, line.as_mut_ptr()) }
}

/// 2^16 lines, which are at the front of the buffer, whose other lines stay; or the refusal as
/// from [`diff_line`], and then all of the buffer keeps its numbers.
pub fn diff_lines(first: &[u8], second: &[u8], lines: &mut [Line; DIFF_LINES]) -> u64 {
    let lines = lines.as_flattened_mut().as_mut_ptr();
    // SAFETY: as above; the lines have room for any list.
    unsafe { vsp_diff_lines(first.as_ptr(), first.len(), second.as_ptr(), second.len(), lines) }
}

/// 2^16 steps where the program came to an end; the same + [`REPLAY_LIMIT`] where it came to the
/// limit, + [`REPLAY_DIFFERS`] + 2^8 register where a register differs; or the refusal as from
/// [`check`], and then the registers keep their numbers.
pub fn replay(parcel: &[u8], registers: &mut [u32; REGISTERS], uniforms: &[u32], trace: &[u32], limit: u32) -> u64 {
    let (bytes, room) = (parcel.as_ptr(), registers.as_mut_ptr());
    let (numbers, record) = (uniforms.as_ptr(), trace.as_ptr());
    // SAFETY: parcel, uniforms and trace are as long as said, to read; the registers are 64 numbers
    // to write to, apart from them.
    unsafe { vsp_replay(bytes, parcel.len(), room, numbers, uniforms.len(), record, trace.len(), limit) }
}
