/*
 * The C interface of the verified parcel checker (static library libcapi.a).
 *
 * A parcel has the words of a shader program, an entry set (the registers that it says are
 * filled before the program starts) and notes (for each instruction the registers that it
 * says are filled when the instruction is reached). A register is held from when it is
 * filled, by the entry set or by a write of all of it, until it is released.
 *
 * In a parcel of version 2 each half of a register is held or not by itself: entry set and notes
 * name low halves and high halves, and a write fills the halves that it writes. To read a
 * register takes both halves, whatever the swizzle, and to release it releases both. In version
 * 1 a set names whole registers, and a write of one half fills nothing.
 *
 *    a parcel             version 1        version 2
 *    mark, VSP            bytes 0 to 2     bytes 0 to 2
 *    version              bytes 3 and 4    bytes 3 and 4
 *    0                    byte 5           byte 5
 *    count, 1 to 2048     bytes 6 and 7    bytes 6 and 7
 *    entry set            bytes 8 to 15    bytes 8 to 15 low halves, 16 to 23 high halves
 *    then all words       8 bytes each     8 bytes each
 *    then all notes       8 bytes each     16 bytes each, 8 for low halves, 8 for high halves
 *    length               16 + 16 count    24 + 24 count
 * All numbers are little-endian; bit r of a set is for register r.
 *
 * Every function is total: it returns for every input, allocates nothing, keeps no state
 * and touches no memory but the buffers it is given; calls from several threads are fine. A
 * pointer that comes with a length must be good for that many bytes, one that comes with a count
 * for that many numbers, a form for 32 bytes; none is null, even where the length or the count is
 * 0, and a buffer that is written to overlaps no other. Bytes need no alignment; an array of
 * uint32_t or uint64_t is aligned as every such number is.
 *
 * Numbers of refusals; place is 0 but for 3, 6 and 7, and 14 and 15 are never given:
 *    1  a word to read that isn't 8 bytes long
 *    2  the word is no instruction of the table; or a row above 76
 *    3  a bit is 1 that the instruction has no use for; place is the lowest such bit
 *    4  the flow is a reserved one
 *    5  no half of the destination is written
 *    6  a modifier has an illegal value; place is the modifier's lowest bit, and of several
 *       such places the lowest
 *    7  a source is a word of a reserved constant; place is the source's index, and of several
 *       the lowest
 *    8  the room to write a word to isn't 8 bytes long
 *    9  a form with a value that its row has no room for in the word, with an offset beyond
 *       its limits, with other than 0 where its row has nothing, or with padding other than 0
 *   10  the mark isn't VSP
 *   11  the version is neither 1 nor 2; from vsp_infer: the version that it is told is neither
 *   12  cut off within the first 16 bytes; or the count (1 to 2048) or the length (16 bytes, and
 *       16 for each instruction; in version 2 24 and 24) is wrong; from vsp_infer: the words
 *       aren't 8 bytes for each of 1 to 2048 instructions, or the room for notes isn't 8 bytes
 *       for each, in version 2 16
 *   13  byte 5 isn't 0
 *   20  an instruction reads a register that its note doesn't name, in version 2 one of which it
 *       doesn't name both halves
 *   21  an instruction can go on to a place outside the program
 *   22  an instruction can go on to one whose note names a register, in version 2 a half of one,
 *       that, by its own note, it doesn't leave held
 *   23  the first note names a register, in version 2 a half of one, that the entry set doesn't
 *       have
 *   24  with these words and this entry set no notes at all would be accepted in this version
 *   30  from vsp_replay: it doesn't run the instruction, which is none of NOP, BRANCHZ, MOV.i32,
 *       CLZ.u32, POPCOUNT.i32, BITREV.i32, NOT_OLD.i32, MUX.i32 and FADD.f32, or is a BRANCHZ with
 *       a combine or an FADD.f32 with a widen, or writes one half, or has a special constant
 *   31  from vsp_replay: the instruction has a uniform that the list of uniforms doesn't have
 *   32  from vsp_replay: the trace isn't 64 numbers for each step
 *
 * The form, 32 bytes, of a decoded instruction:
 *    0       row, 0 to 76
 *    1       constant page, 0 to 3
 *    2       flow, 0 to 15
 *    3       register of the destination, 0 to 63
 *    4       half mask of the destination: 1 low, 2 high, 3 full
 *    5-8     sources 0 to 3, each as its byte in the word: 0-63 a register; 64-127 a register
 *            that is released; 128-191 a uniform; 192-223 one of 32 fixed numbers; from 224 on
 *            a special constant of the page, of value i its low word at 224 + 2i and its high
 *            word at 225 + 2i
 *    9-22    modifiers, by their lowest bit in the word; which of them a row has, and what
 *            values are legal, is the instruction table's to say (crates/rows/specs/Rows.antt):
 *       9      8   NaN mode
 *      10      10  ftz
 *      11      11  flush_inf
 *      12      24  widen or swizzle of source 2
 *      13      26  widen or swizzle of source 1
 *      14      28  widen, swizzle or lane of source 0
 *      15      30  round mode, result type, or saturate
 *      16      32  condition, mux, or clamp
 *      17      34  negate of source 2
 *      18      35  absolute of source 2; BRANCHZ: conservative
 *      19      36  negate of source 1, or swizzle of source 0; BRANCHZ: eq
 *      20      37  absolute of source 1; BRANCHZ: combine
 *      21      38  negate of source 0
 *      22      39  absolute of source 0
 *    23      padding, 0
 *    24-27   branch offset from the next instruction: signed, 32 bits, little-endian,
 *            -67108864 to 67108863
 *    28-31   padding, 0
 * What the row doesn't have is 0.
 *
 * vsp_text gives the text of a form, with the names of all of this, and vsp_name the name of a
 * row.
 */
#ifndef VSP_H
#define VSP_H

#include <stddef.h>
#include <stdint.h>

#ifdef __cplusplus
extern "C" {
#endif

/* The length of a word and of a form. */
#define VSP_WORD 8
#define VSP_FORM 32

/* Room for the text of any form, and for the name of any row, with the 0 byte after it. */
#define VSP_TEXT 534
#define VSP_NAME 19

/* From vsp_row_of: the opcode has no such row. */
#define VSP_NO_ROW 255

/* From vsp_diff_line: the list has no such line. */
#define VSP_FEWER 255

/* From vsp_replay, as numbers: it came to the limit; a register isn't as in the trace. */
#define VSP_REPLAY_LIMIT 254
#define VSP_REPLAY_DIFFERS 255

/* How many registers there are, and how many numbers a trace has for a step. */
#define VSP_REGISTERS 64

/* The numbers of a line of differences; no list has more lines than this; their numbers. */
#define VSP_DIFF_LINE 3
#define VSP_DIFF_LINES 49155
#define VSP_DIFF_NUMBERS (VSP_DIFF_LINE * VSP_DIFF_LINES)

/* The bytes of a form. */
enum {
    VSP_ROW = 0,
    VSP_PAGE = 1,
    VSP_FLOW = 2,
    VSP_REGISTER = 3,
    VSP_HALF_MASK = 4,
    VSP_SOURCES = 5,
    VSP_MODIFIERS = 9,
    VSP_OFFSET = 24
};

/* What a line of differences tells of. */
enum {
    VSP_DIFF_ROW = 0,
    VSP_DIFF_PAGE = 1,
    VSP_DIFF_FLOW = 2,
    VSP_DIFF_DESTINATION = 3,
    VSP_DIFF_SOURCE = 4,
    VSP_DIFF_MODIFIER = 5,
    VSP_DIFF_ADDED = 6,
    VSP_DIFF_REMOVED = 7,
    VSP_DIFF_ENTRY = 8,
    VSP_DIFF_NOTE = 9,
    VSP_DIFF_VERSION = 10
};

/* A half of a register, in a verdict and in a line of differences that tells of a set. */
enum {
    VSP_NO_HALF = 0,
    VSP_LOW = 1,
    VSP_HIGH = 2
};

/*
 * The parts of an answer, but for vsp_row_of, which gives a row; place, index, register and half
 * mean something only where the number isn't 0 (nor the answer VSP_FEWER, nor the number
 * VSP_REPLAY_LIMIT or VSP_REPLAY_DIFFERS), and the last three aren't for vsp_read, vsp_write and
 * vsp_fresh. vsp_text and vsp_name give a length, which has none of these parts.
 */
#define VSP_NUMBER(answer) ((unsigned)((answer) & 0xFF))
#define VSP_PLACE(answer) ((unsigned)((answer) >> 8 & 0xFF))
#define VSP_INDEX(verdict) ((unsigned)((uint64_t)(verdict) >> 16 & 0xFFFF))
#define VSP_REGISTER_OF(verdict) ((unsigned)((uint64_t)(verdict) >> 32 & 0xFF))
/* VSP_LOW or VSP_HIGH where the register is below 64, else VSP_NO_HALF. */
#define VSP_HALF(verdict) ((unsigned)((uint64_t)(verdict) >> 40 & 3))
/* For vsp_infer, where the number is 0. */
#define VSP_SWEEPS(answer) ((unsigned)((uint64_t)(answer) >> 16 & 0xFFFF))
/* For vsp_diff_lines, where the number is 0. */
#define VSP_LINES(answer) ((size_t)((uint64_t)(answer) >> 16))
/* For vsp_replay, where the number is 0, VSP_REPLAY_LIMIT or VSP_REPLAY_DIFFERS: steps run. */
#define VSP_STEPS(answer) ((uint32_t)((uint64_t)(answer) >> 16))
/* For vsp_replay, where the number is VSP_REPLAY_DIFFERS: the step, from 0 on; the register. */
#define VSP_REPLAY_STEP(answer) (VSP_STEPS(answer) - 1)
#define VSP_REPLAY_REGISTER(answer) ((unsigned)((answer) >> 8 & 0xFF))
/* For vsp_diff_line and vsp_diff_lines, where a parcel is refused: 1 the first, 2 the second. */
#define VSP_PARCEL(answer) ((unsigned)((uint64_t)(answer) >> 48 & 0xFF))

/*
 * The parts of the first number of a line: what it tells of; for a source its index, for a
 * modifier its lowest bit, for a set its half; the index of the instruction.
 */
#define VSP_DIFF_WHAT(number) ((unsigned)((number) & 0xFF))
#define VSP_DIFF_WHICH(number) ((unsigned)((number) >> 8 & 0xFF))
#define VSP_DIFF_INDEX(number) ((unsigned)((uint64_t)(number) >> 16 & 0xFFFF))

/*
 * Opens a parcel, reads all its words and checks its notes. Writes nothing.
 *
 * Gives 0 where the parcel is accepted: then, whichever way the program goes, it stays within
 * its words, and each register that an instruction reads is held: the entry set has it or an
 * earlier instruction has written all of it, and none has released it since. In version 2 both
 * its halves are held: the entry set has the half or an earlier instruction has written it, and
 * none has released the register since.
 *
 * Taken on trust is the entry set: in version 1 bytes 8 to 15 of the parcel, little-endian, bit
 * r for register r; in version 2 bytes 8 to 15 for the low halves and bytes 16 to 23 for the
 * high halves. It is the parcel's own claim: vsp_check doesn't know what the display fills
 * before it starts the program. Compare the two. The notes are not taken on trust.
 *
 * 0 doesn't mean that the program computes the right thing, nor that it is the approved one.
 *
 * Otherwise number + 2^8 place + 2^16 index + 2^32 register + 2^40 half: the instruction at
 * fault (0 where the parcel doesn't open; for 21 and 22 the one that goes on), the lowest
 * register of which a half is at fault (64 where none is) and that half, the low one where both
 * are. In version 1 the half is always the low one; with register 64 it is VSP_NO_HALF. The
 * first refusal in this order: 12 for the first 16 bytes, 10, 11, 13, 12 for count and length;
 * 2 to 7 for the lowest word that isn't legal; 23; then instruction by instruction 20, and 21
 * and 22 for the next instruction, then both for the one that is branched to.
 */
uint64_t vsp_check(const uint8_t *parcel, size_t length);

/*
 * Makes notes for words that come without any, for a parcel of version 1 or 2. Words and notes
 * are as in a parcel, little-endian: for each instruction 8 bytes of words, and 8 of notes in
 * version 1, 16 in version 2. Uses some 180 KB of stack.
 *
 * The entry set is the caller's to know: the words don't say what the display fills before it
 * starts the program, and notes for a set that it doesn't fill are worth nothing. In version 2
 * it is two sets, of low halves and of high halves, bit r for register r. In version 1 the low
 * one is the entry set, bit r for all of register r, and the high one plays no part.
 *
 * Where it proposes notes it fills the buffer with them and gives 2^16 times the number of
 * sweeps, so that the number is 0. Then vsp_check accepts the parcel of this version, this entry
 * set, these words and these notes. Each note names every register (in version 2 every half)
 * that the same note names in any notes that vsp_check would accept for this version, these
 * words and this entry set. Where every instruction lies on some way through the program, it
 * names just the registers (halves) that are held whichever way the program comes to its
 * instruction. A sweep narrows each note to what every instruction that can go on to its own
 * leaves held, low and high halves in the same sweep; the last one, which changes no note, counts
 * too, so the number of sweeps is never 0.
 *
 * Otherwise number + 2^8 place + 2^16 index + 2^32 register, and leaves the buffer as it was.
 * The first refusal in this order: 11 for the version; 12 for either length; 2 to 7 for the
 * lowest word that isn't legal, with its index; 24, exactly where vsp_check would accept no notes
 * at all. The index is 0 for 11, 12 and 24, the register always 64, without a half.
 */
uint64_t vsp_infer(uint64_t version, const uint8_t *words, size_t length, uint64_t entry_low,
                   uint64_t entry_high, uint8_t *notes, size_t notes_length);

/*
 * Reads a word of 8 little-endian bytes.
 *
 * Gives 0 and fills all 32 bytes of the form, or number + 2^8 place and leaves the form as
 * it was. Of several refusals the one with the lowest number. Writing the form gives the
 * same word again.
 */
uint32_t vsp_read(const uint8_t *word, size_t length, uint8_t form[VSP_FORM]);

/*
 * Writes the word of a form into a buffer of 8 bytes.
 *
 * Gives 0 and fills the 8 bytes, or number + 2^8 place and leaves the buffer as it was. The
 * first refusal in the order 8, 2, 9, 4, 5, 6, 7. Reading the word gives the same form again.
 */
uint32_t vsp_write(const uint8_t form[VSP_FORM], uint8_t *word, size_t length);

/*
 * Makes the fresh instruction of a row, the one to start from. Apart from the row's number all
 * of it is 0, except: each source that the row has is 192 (0xC0, constant entry 0, which is the
 * number 0); the half mask is 3 where the row has a destination; the 16-bit swizzles are 2 (the
 * identity); mux is 1.
 *
 * Gives 0 and fills all 32 bytes of the form, or 2 where the row is over 76 and leaves the
 * form as it was. A fresh instruction can always be written. It reads no register: with its
 * flow, byte 2, set to 15 (end), its word alone, with an empty entry set and an empty note, is
 * a parcel that vsp_check accepts.
 */
uint32_t vsp_fresh(size_t row, uint8_t form[VSP_FORM]);

/*
 * Gives the text of a form: the instruction as Mesa's disassembler for Valhall writes it, as
 * FADD.f32.clamp_0_1.end r1.h0, ^r2.neg, u3.abs.h1. All of it is ASCII.
 *
 * The name of the row, the modifiers of the instruction itself, the flow; then the operands:
 * the destination, the sources in order, the offset. A register is r and its number, with ^
 * before it where it is released; a uniform is u and its number; a fixed number is in
 * hexadecimal, as 0x3F800000; a special constant is its name, with .w0 for its low word and
 * .w1 for its high word; an offset is as offset:-3. After a destination .h0 says that only the
 * low half is written, .h1 only the high half; after a source come negate (.neg), absolute
 * (.abs) and its widen, swizzle, lane or combine. Not written are the flow none, round mode
 * rte, no clamp, widen or combine, swizzles h01 and b0123, and mux int_zero; condition eq,
 * result type i1, lanes and NaN mode none are. The page shows in the sources only, and two of
 * the 32 fixed numbers are 0, so two words can have the same text.
 *
 * Puts the text and a 0 byte after it at the front of the buffer, whose other bytes stay as
 * they were, and gives the length of the text without the 0, which is never 0. No form is
 * refused: a question mark stands where there is no name, be it for a row over 76, which then
 * has no operands, for a reserved value, one past the end of its list, or a half mask that is
 * none of the three. Registers, uniforms and offsets have the number that the form gives,
 * however large. What the row doesn't have isn't looked at, nor is the padding.
 */
size_t vsp_text(const uint8_t form[VSP_FORM], uint8_t text[VSP_TEXT]);

/*
 * Gives the name of a row, as FADD.f32, in ASCII.
 *
 * Puts the name and a 0 byte after it at the front of the buffer, whose other bytes stay as
 * they were, and gives the length of the name without the 0; or gives 0 where the row is over
 * 76 and leaves the buffer as it was.
 */
size_t vsp_name(size_t row, uint8_t name[VSP_NAME]);

/*
 * Gives the k-th row that has the opcode (bits 48 to 56 of a word), counted from 0 in row
 * order, or VSP_NO_ROW where there is none: for any opcode, however large, and any k. Asking
 * for k = 0, 1, 2 and so on until VSP_NO_ROW gives all of the opcode's rows; there are 25 at
 * most. vsp_read compares a word with the rows of its opcode and with no others.
 */
uint32_t vsp_row_of(uint64_t opcode, uint64_t k);

/*
 * Gives line k, counted from 0, of the list of what differs between two parcels, the approved
 * one first, for any k.
 *
 * The list. First a line for the versions if they differ. Then for each instruction that both
 * parcels have, in order, a line for each field that differs, in the order row, page, flow,
 * destination, sources 0 to 3, modifiers by their lowest bit. Then a line for each instruction
 * that only the longer parcel has. Then the entry sets if they differ. Then, for each
 * instruction that both have, the notes if they differ. Nothing else, so notes of instructions
 * that only one has aren't told. The list is empty exactly where the two parcels have the same
 * bytes.
 *
 * Entry sets and notes have one line where both parcels are of version 1. Otherwise low halves
 * and high halves have a line each, the low ones first, where they differ; a set of a version 1
 * parcel then stands for both.
 *
 * A line is three numbers: what + 2^8 which + 2^16 index, the content in the first parcel, the
 * content in the second.
 *    what              which         contents
 *    0  row            0             the row numbers
 *    1  page           0
 *    2  flow           0
 *    3  destination    0             bits 40 to 47 as one: register + 64 half mask
 *    4  source         0 to 3        the source's byte
 *    5  modifier       lowest bit    8, 10, 11, 24, 26, 28, 30, 32, 34 to 39; a branch offset
 *                                    is the modifier at bit 8, as its raw 27 bits
 *    6  added          0             0, and the word that only the second parcel has
 *    7  removed        0             the word that only the first parcel has, and 0
 *    8  entry set      half          the sets, bit r for register r; the index is 0
 *    9  note           half          the notes, bit r for register r
 *   10  version        0             the versions; the index is 0
 * The half is 0 where both parcels are of version 1, else 1 for low halves and 2 for high
 * halves. A content is 0 where the row has no such field. Where the rows differ, modifiers with
 * the same lowest bit are one field, whatever each row calls it, and there is no line where
 * their contents are the same.
 *
 * Gives 0 and the line's three numbers, or VSP_FEWER where the list has no line k. Where a
 * parcel doesn't open or one of its words isn't legal it gives number + 2^8 place + 2^16 index
 * + 2^32 register + 2^48 parcel, the same for every k: 10 to 13 with index 0, or 2 to 7 for the
 * lowest word that isn't legal, with its index; the register is 64; parcel is 1 for the first
 * and 2 for the second, and the first one is judged before the second is looked at. Where it
 * doesn't give 0 it leaves the three numbers as they were.
 *
 * The notes are compared and not checked: that two parcels are equal doesn't mean that
 * vsp_check accepts them. Each call goes through the list from its front; vsp_diff_lines gives
 * all of it at once.
 */
uint64_t vsp_diff_line(const uint8_t *first, size_t first_length, const uint8_t *second,
                       size_t second_length, size_t k, uint64_t line[VSP_DIFF_LINE]);

/*
 * Gives the whole list of vsp_diff_line.
 *
 * Gives 2^16 times how many lines there are, so that the number is 0, and puts the lines, three
 * numbers each, at the front of the buffer, whose other numbers stay. Where a parcel is refused
 * it gives what vsp_diff_line gives and leaves the whole buffer as it was. The buffer has room
 * for any list, some 1.2 MB: 24 lines for each of 2048 instructions, two for the entry sets and
 * one for the versions.
 */
uint64_t vsp_diff_lines(const uint8_t *first, size_t first_length, const uint8_t *second,
                        size_t second_length, uint64_t lines[VSP_DIFF_NUMBERS]);

/*
 * Runs the program of a parcel, in one thread, and compares the registers after each step with a
 * trace, which is what a display recorded of its own run. It checks the parcel first, as
 * vsp_check does, so that nothing need be known of it.
 *
 * The registers go in as they are before the first step, and are left as the last step that is
 * run leaves them. Uniform k of the program is number k of the list, counted from 0. The trace
 * has 64 numbers for each step: the registers after it, from r0 on. It may be shorter than the
 * run, or empty: steps past its end aren't compared. It may be longer: the rest isn't looked at.
 *
 * A step is one instruction, from the first of the program on. What an instruction gives:
 *    NOP           nothing
 *    BRANCHZ       the way on: to where its offset leads if the source isn't 0, with eq if it is
 *                  0, else to the next instruction
 *    MOV.i32       the source's bits
 *    CLZ.u32       how many bits of the source are above its highest 1; 32 if it is 0
 *    POPCOUNT.i32  how many bits of the source are 1
 *    BITREV.i32    the source's bits in reverse order
 *    NOT_OLD.i32   the source's bits, each the other way round
 *    MUX.i32       source 0 if source 2 is as mux says, else source 1: with neg if its highest
 *                  bit is 1, with int_zero if it is 0, with fp_zero if it is 0 or 0x80000000;
 *                  with bit each bit of source 0 where the same bit of source 2 is 1
 *    FADD.f32      the sum of both sources as IEEE single-precision numbers, each made absolute
 *                  first and then negated, where it says so; rounded once, to the nearest and
 *                  ties to even, subnormal numbers too; then clamped: min(max(sum, low), high),
 *                  where low and high are 0 and infinity, -1 and 1, or 0 and 1. That gives low
 *                  for a not-a-number, and 0 for -0 where low is 0. A not-a-number that is left,
 *                  for want of a clamp, is 0x7FC00000
 * Of the flows only end acts; conservative doesn't; a register that is released keeps its number.
 * No step reads a register that isn't held then, since the parcel is accepted; what the entry set
 * names is the caller's to put into the registers.
 *
 * The run stops at the first step that leaves a register, held or not, other than the trace has
 * it; else at the first instruction with flow end; else when as many steps are run as the limit
 * says, none where it is 0. With how many steps were run it gives
 *    VSP_REPLAY_DIFFERS + 2^8 register + 2^16 steps   for the first: the lowest such register;
 *                                                     the step, counted from 0, is steps - 1
 *    2^16 steps, so that the number is 0              for the second
 *    VSP_REPLAY_LIMIT + 2^16 steps                    for the third
 * Compared were as many of the steps as the trace has, if it has fewer, else all.
 *
 * Otherwise nothing is run: it gives number + 2^8 place + 2^16 index + 2^32 register + 2^40 half
 * and leaves the registers as they were. The first refusal in this order: what vsp_check gives;
 * 32, with index 0; 30 or 31 for the lowest instruction that has either, whether the run would
 * come to it or not, and 30 if it has both. For 30, 31 and 32 the register is 64, without a half.
 * Uses some 120 KB of stack.
 */
uint64_t vsp_replay(const uint8_t *parcel, size_t parcel_length,
                    uint32_t registers[VSP_REGISTERS], const uint32_t *uniforms,
                    size_t uniforms_count, const uint32_t *trace, size_t trace_count,
                    uint32_t limit);

#ifdef __cplusplus
}
#endif

#endif
