//! Programs replayed by the library and by the reference: over two million additions, each of them
//! worked out here through double precision as well, and over a hundred thousand runs of random
//! programs of both versions.

mod common;

use common::{Outcome, Run, Tally, compare_replay, compile, hex, replay_code};
use inputs::{
    Program, Rng, Set, Shape, both_versions, encode, is_replayed, near_tie, number, numbers, parcel, parcel_2,
    refused_word, replayed_rows, with_version, with_word,
};
use reference::{
    Half, Instruction, MODIFIER_BITS, NotRun, ROW_COUNT, ROWS, Refusal, Registers, Replayed, Verdict, fresh, read,
};
use std::path::Path;
use std::process::{Command, Output};

both_versions! {
    random_runs
    counted_loops
    long_programs
    instructions_that_are_not_run
    missing_uniforms
    order_of_refusals
    refusals_of_the_check
    flipped_bits
    any_alignment
}

const SIGN: u32 = 1 << 31;
const NOT_A_NUMBER: u32 = 0x7FC0_0000;
const ONE: u32 = 0x3F80_0000;
const MINUS_ONE: u32 = ONE | SIGN;
const INFINITY: u32 = 0x7F80_0000;

/// Flow `end` of a word, and so also NOP with `end`.
const END: u64 = 15 << 59;
/// Source bytes: the constants 0, all ones and 1.0, and uniform 0.
const ZERO: u8 = 0xC0;
const ONES: u8 = 0xC1;
const FLOAT_ONE: u8 = 0xD0;
const UNIFORM: u8 = 0x80;

/// Words by the paper's frame.
fn unary(secondary: u64, register: u8, source: u8) -> u64 {
    0x0091_C000_0000_0000 | u64::from(register) << 40 | secondary << 16 | u64::from(source)
}

fn mov(register: u8, source: u8) -> u64 {
    unary(0, register, source)
}

fn fadd(register: u8, first: u8, second: u8) -> u64 {
    0x00A4_C000_0000_0000 | u64::from(register) << 40 | u64::from(second) << 8 | u64::from(first)
}

fn mux(mode: u64, register: u8, [a, b, mask]: [u8; 3]) -> u64 {
    let sources = u64::from(mask) << 16 | u64::from(b) << 8 | u64::from(a);
    0x00B8_C000_0000_0000 | u64::from(register) << 40 | mode << 32 | sources
}

fn branch(source: u8, offset: i64) -> u64 {
    0x001F_0000_0000_0000 | (offset as u64 & 0x7FF_FFFF) << 8 | u64::from(source)
}

fn on_page(page: u64, word: u64) -> u64 {
    word | page << 57
}

/// r0 and on; the others are 0.
fn registers(first: &[u32]) -> Registers {
    let mut registers = [0; 64];
    registers[..first.len()].copy_from_slice(first);
    registers
}

/// The parcels of both versions in which all registers are held everywhere; none is released.
fn parcels(words: &[u64]) -> [Vec<u8>; 2] {
    let all = u64::MAX;
    [parcel(all, words, &vec![all; words.len()]), parcel_2([all; 2], words, &vec![[all; 2]; words.len()])]
}

/// Replays these words in both versions with both; gives back what came of it.
fn replay(words: &[u64], first: &[u32], uniforms: &[u32], trace: &[u32], limit: u32) -> Outcome {
    let mut rng = Rng::new(700);
    let outcomes = parcels(words).map(|parcel| {
        let registers = registers(first);
        compare_replay(&mut rng, &Run { parcel: &parcel, registers, uniforms, trace, limit })
    });
    assert_eq!(outcomes[0], outcomes[1]);
    outcomes[0]
}

/// What one instruction leaves in r0, from r0 and on.
fn result(word: u64, first: &[u32]) -> u32 {
    let (answer, after) = replay(&[word | END], first, &[], &[], 1);
    assert_eq!(answer, Ok(Replayed::Ended { steps: 1 }), "{word:016X}");
    assert_eq!(after[1..], registers(first)[1..], "{word:016X}");
    after[0]
}

/// A refusal that blames no register.
fn refused(refusal: Refusal, index: usize) -> NotRun {
    NotRun { refusal, index: index as u16, register: 64, half: None }
}

/// What the check says of the parcel, as a refusal to run it.
fn verdict(parcel: &[u8]) -> Option<NotRun> {
    match reference::check(parcel) {
        Verdict::Accepted => None,
        Verdict::Refused { refusal, index, register, half } => Some(NotRun { refusal, index, register, half }),
    }
}

/// The source with its signs: bit 0 is negate, bit 1 absolute.
fn signed(bits: u32, signs: u64) -> u32 {
    let magnitude = if signs & 2 != 0 { bits & !SIGN } else { bits };
    if signs & 1 != 0 { magnitude ^ SIGN } else { magnitude }
}

/// Numbers in the order that has -0 below 0.
fn order(bits: u32) -> u32 {
    if bits & SIGN != 0 { !bits } else { bits | SIGN }
}

fn is_number(bits: u32) -> bool {
    bits & !SIGN <= INFINITY
}

/// The larger or the smaller of the two; the bound where the first isn't a number.
fn bounded(bits: u32, bound: u32, larger: bool) -> u32 {
    if is_number(bits) && (order(bits) > order(bound)) == larger { bits } else { bound }
}

/// The sum: double precision has more than twice the bits, so that rounding to it first does no
/// harm.
fn sum(a: u32, b: u32) -> u32 {
    let [a, b] = [a, b].map(|bits| f64::from(f32::from_bits(bits)));
    ((a + b) as f32).to_bits()
}

/// The sum with signs and clamp, as the papers say it.
fn clamped_sum(a: u32, b: u32, signs: u64, clamp: u64) -> u32 {
    let sum = sum(signed(a, signs >> 2), signed(b, signs));
    let (low, high) = match clamp {
        0 => return if is_number(sum) { sum } else { NOT_A_NUMBER },
        1 => (0, INFINITY),
        2 => (MINUS_ONE, ONE),
        _ => (0, ONE),
    };
    bounded(bounded(sum, low, true), high, false)
}

/// Whether the sum of two numbers lies half way between two neighbours.
fn is_tie(a: u32, b: u32) -> bool {
    let exact = f64::from(f32::from_bits(a)) + f64::from(f32::from_bits(b));
    let nearest = exact as f32;
    let middle = |other: f32| (f64::from(nearest) + f64::from(other)) / 2.0;
    exact.is_finite() && nearest.is_finite() && [nearest.next_up(), nearest.next_down()].map(middle).contains(&exact)
}

/// Zero, subnormal, normal, infinite, signalling or quiet; and the sign.
fn class(bits: u32) -> usize {
    let kind = match bits & !SIGN {
        0 => 0,
        1..0x0080_0000 => 1,
        0x0080_0000..INFINITY => 2,
        INFINITY => 3,
        0x7F80_0001..NOT_A_NUMBER => 4,
        _ => 5,
    };
    2 * kind + (bits >> 31) as usize
}

/// A parcel with 32 additions of the same two numbers: two clamps and all signs of both. Its sums
/// are in the registers from r2 on.
struct Sheet {
    parcel: Vec<u8>,
    /// Whether the numbers are r0 and r1, else uniforms 0 and 1.
    in_registers: bool,
    /// Signs and clamp of each addition.
    ways: Vec<(u64, u64)>,
}

impl Sheet {
    fn new(clamps: [u64; 2], in_registers: bool) -> Sheet {
        let ways: Vec<(u64, u64)> = clamps.iter().flat_map(|clamp| (0..16).map(|signs| (signs, *clamp))).collect();
        let (a, b) = if in_registers { (0, 1) } else { (UNIFORM, UNIFORM + 1) };
        let word = |(register, (signs, clamp)): (u8, &(u64, u64))| fadd(register, a, b) | signs << 36 | clamp << 32;
        let mut words: Vec<u64> = (2..).zip(&ways).map(word).collect();
        words[31] |= END;
        let [one, two] = parcels(&words);
        Sheet { parcel: if in_registers { one } else { two }, in_registers, ways }
    }

    /// Adds the two numbers with both, and compares with the sums that are worked out here, as the
    /// registers have them and, where the numbers are in registers, as a trace has them.
    fn add(&self, rng: &mut Rng, a: u32, b: u32) {
        let (first, uniforms) = if self.in_registers { ([a, b], [0, 0]) } else { ([0, 0], [a, b]) };
        let mut now = registers(&first);
        let mut trace = Vec::with_capacity(64 * self.ways.len());
        for (register, (signs, clamp)) in (2..).zip(&self.ways) {
            now[register] = clamped_sum(a, b, *signs, *clamp);
            trace.extend(now);
        }
        let trace = if self.in_registers { &trace[..] } else { &[] };
        let run = Run { parcel: &self.parcel, registers: registers(&first), uniforms: &uniforms, trace, limit: 32 };
        let outcome = compare_replay(rng, &run);
        assert_eq!(outcome, (Ok(Replayed::Ended { steps: 32 }), now), "{a:08X} and {b:08X}");
    }
}

/// Adds numbers in all 64 ways, from registers and from uniforms, and counts.
struct Adder {
    rng: Rng,
    sheets: [Sheet; 4],
    additions: usize,
    ties: u32,
    /// Pairs by their classes.
    seen: [[u32; 12]; 12],
}

impl Adder {
    fn new(seed: u64) -> Adder {
        let sheets = [([0, 1], true), ([2, 3], true), ([0, 1], false), ([2, 3], false)];
        let sheets = sheets.map(|(clamps, in_registers)| Sheet::new(clamps, in_registers));
        Adder { rng: Rng::new(seed), sheets, additions: 0, ties: 0, seen: [[0; 12]; 12] }
    }

    fn add(&mut self, a: u32, b: u32) {
        for sheet in &self.sheets {
            sheet.add(&mut self.rng, a, b);
            self.additions += sheet.ways.len();
        }
        self.ties += u32::from(is_tie(a, b));
        self.seen[class(a)][class(b)] += 1;
    }
}

/// Every pair of numbers of every class.
#[test]
fn additions_of_every_class() {
    let mut adder = Adder::new(701);
    for a in numbers() {
        for b in numbers() {
            adder.add(a, b);
        }
    }
    assert!(adder.additions > 2_000_000, "{}", adder.additions);
    assert!(adder.ties > 500, "{}", adder.ties);
    assert!(adder.seen.iter().flatten().all(|pairs| *pairs >= 1), "{:?}", adder.seen);
}

/// Numbers of any size, half of them with a sum that is a tie or next to one more often than not.
#[test]
fn additions_near_ties() {
    let mut adder = Adder::new(702);
    let mut rng = Rng::new(703);
    for _ in 0..5_000 {
        let [a, b] = near_tie(&mut rng);
        adder.add(a, b);
        adder.add(rng.bits() as u32, rng.bits() as u32);
    }
    assert!(adder.ties > 2_000, "{}", adder.ties);
}

/// 002's identities of each clamp: of either zero and of not-a-numbers of both signs.
#[test]
fn identities_of_the_clamps() {
    for bits in [NOT_A_NUMBER, 0xFFC0_0000, 0x7FFF_FFFF, 0xFF80_0001] {
        for (clamp, expected) in [(0, NOT_A_NUMBER), (1, 0), (2, MINUS_ONE), (3, 0)] {
            assert_eq!(result(fadd(0, 0, 1) | clamp << 32, &[bits, 0]), expected, "{bits:08X}, clamp {clamp}");
            assert_eq!(result(fadd(0, 1, 0) | clamp << 32, &[bits, ONE]), expected, "{bits:08X}, clamp {clamp}");
        }
    }
    for (clamp, expected) in [(0, SIGN), (1, 0), (2, SIGN), (3, 0)] {
        assert_eq!(result(fadd(0, 0, 1) | clamp << 32, &[SIGN, SIGN]), expected, "-0, clamp {clamp}");
        assert_eq!(result(fadd(0, 0, 1) | clamp << 32, &[SIGN, 0]), 0, "0, clamp {clamp}");
    }
    for (clamp, expected) in [(0, NOT_A_NUMBER), (1, 0), (2, MINUS_ONE), (3, 0)] {
        let opposite = [INFINITY, INFINITY | SIGN];
        assert_eq!(result(fadd(0, 0, 1) | clamp << 32, &opposite), expected, "infinities, clamp {clamp}");
    }
    for (clamp, large, small) in [(0, INFINITY, INFINITY | SIGN), (1, INFINITY, 0), (2, ONE, MINUS_ONE), (3, ONE, 0)] {
        assert_eq!(result(fadd(0, 0, 1) | clamp << 32, &[INFINITY, ONE]), large, "clamp {clamp}");
        assert_eq!(result(fadd(0, 0, 1) | clamp << 32, &[INFINITY | SIGN, ONE]), small, "clamp {clamp}");
    }
}

/// Absolute comes first: minus the absolute value of -2 is -2.
#[test]
fn absolute_before_negate() {
    let two = 0x4000_0000;
    for (signs, expected) in [(0, SIGN | two), (1, two), (2, two), (3, SIGN | two)] {
        assert_eq!(result(fadd(0, 0, 1) | signs << 38, &[SIGN | two, 0]), expected);
        assert_eq!(result(fadd(0, 1, 0) | signs << 36, &[SIGN | two, 0]), expected);
    }
}

/// Moves carry what an addition would make 7FC00000.
#[test]
fn moves_carry_not_a_numbers() {
    for bits in [0x7F80_0001, 0xFFFF_FFFF, 0xFFC0_0000, 0x7FC1_2345] {
        assert_eq!(result(mov(0, 1), &[0, bits]), bits);
        assert_eq!(result(mux(1, 0, [1, 2, 2]), &[0, bits, 0]), bits);
        assert_eq!(result(mux(3, 0, [1, 1, 2]), &[0, bits, 0x1234_5678]), bits);
    }
}

#[test]
fn clz_of_0() {
    assert_eq!(result(unary(4, 0, 1), &[7, 0]), 32);
    assert_eq!(result(unary(4, 0, ZERO), &[7]), 32);
    assert_eq!(result(unary(4, 0, 1), &[7, 1]), 31);
    assert_eq!(result(unary(4, 0, ONES), &[7]), 0);
}

/// Each bit alone, and its complement.
#[test]
fn bits_of_the_integer_rows() {
    for bit in 0..32 {
        let only = 1 << bit;
        assert_eq!(result(unary(0x4, 0, 1), &[7, only]), 31 - bit);
        assert_eq!(result(unary(0xC, 0, 1), &[7, only]), 1);
        assert_eq!(result(unary(0xC, 0, 1), &[7, !only]), 31);
        assert_eq!(result(unary(0xD, 0, 1), &[7, only]), SIGN >> bit);
        assert_eq!(result(unary(0xD, 0, 1), &[7, !only]), !(SIGN >> bit));
        assert_eq!(result(unary(0xE, 0, 1), &[7, only]), !only);
    }
}

/// neg, int_zero, fp_zero and bit, by the third source.
#[test]
fn mux_modes() {
    let (a, b) = (0x0123_4567, 0x89AB_CDEF);
    let cases: [(u32, [u32; 4]); 7] = [
        (0, [b, a, a, b]),
        (SIGN, [a, b, a, 0x09AB_CDEF]),
        (1, [b, b, b, 0x89AB_CDEF]),
        (SIGN | 1, [a, b, b, 0x09AB_CDEF]),
        (0x7FFF_FFFF, [b, b, b, 0x8123_4567]),
        (u32::MAX, [a, b, b, a]),
        (0x00FF_00FF, [b, b, b, 0x8923_CD67]),
    ];
    for (mask, expected) in cases {
        for (mode, expected) in expected.into_iter().enumerate() {
            let word = mux(mode as u64, 0, [1, 2, 3]);
            assert_eq!(result(word, &[7, a, b, mask]), expected, "mode {mode}, mask {mask:08X}");
        }
    }
}

/// On nonzero, and with eq on zero; with conservative or without.
#[test]
fn branchz_with_and_without_eq() {
    for (source, eq, jumps) in [(0, 0, false), (0, 1, true), (1, 0, true), (1, 1, false), (SIGN, 0, true)] {
        for conservative in 0..2 {
            let words = [branch(0, 1) | eq << 36 | conservative << 35, mov(1, ONES), mov(2, ONES) | END];
            let (answer, after) = replay(&words, &[source], &[], &[], 9);
            assert_eq!(answer, Ok(Replayed::Ended { steps: if jumps { 2 } else { 3 } }), "{source:X}, eq {eq}");
            assert_eq!(after[..3], [source, if jumps { 0 } else { u32::MAX }, u32::MAX], "{source:X}, eq {eq}");
        }
    }
}

/// Back to itself, to the first instruction and to the last.
#[test]
fn branch_targets() {
    let words = [branch(ONES, 1), END, branch(ONES, -2)];
    assert_eq!(replay(&words[..2], &[], &[], &[], 9).0, Err(refused(Refusal::LeavesProgram, 0)));
    let words = [words[0], words[1], words[2], END];
    assert_eq!(replay(&words, &[], &[], &[], 9).0, Ok(Replayed::Ended { steps: 3 }));
    assert_eq!(replay(&[branch(ONES, -1), END], &[], &[], &[], 77).0, Ok(Replayed::Limit { steps: 77 }));
    // A branch with `end` goes nowhere, wherever that is.
    for offset in [-67_108_864, -2, 0, 67_108_863] {
        assert_eq!(replay(&[branch(ONES, offset) | END], &[], &[], &[], 9).0, Ok(Replayed::Ended { steps: 1 }));
    }
}

#[test]
fn limit_0() {
    for trace in [&[][..], &[7; 64], &[7; 640]] {
        let outcome = replay(&[mov(0, ONES) | END], &[5], &[], trace, 0);
        assert_eq!(outcome, (Ok(Replayed::Limit { steps: 0 }), registers(&[5])));
    }
    assert_eq!(replay(&[mov(0, ONES) | END], &[5], &[], &[7; 63], 0).0, Err(refused(Refusal::TraceLength, 0)));
}

#[test]
fn end_on_the_last_permitted_step() {
    let words = [0, 0, mov(0, ONES) | END];
    for (limit, answer, r0) in [
        (1, Replayed::Limit { steps: 1 }, 5),
        (2, Replayed::Limit { steps: 2 }, 5),
        (3, Replayed::Ended { steps: 3 }, u32::MAX),
        (4, Replayed::Ended { steps: 3 }, u32::MAX),
        (u32::MAX, Replayed::Ended { steps: 3 }, u32::MAX),
    ] {
        assert_eq!(replay(&words, &[5], &[], &[], limit), (Ok(answer), registers(&[r0])), "limit {limit}");
    }
}

/// More steps than 24 bits count.
#[test]
fn many_steps() {
    let words = [fadd(0, 0, UNIFORM), branch(ONES, -2), END];
    for limit in [0xFFFF, 0x1_0000, 0x100_0005] {
        let (answer, after) = replay(&words, &[], &[ONE], &[], limit);
        assert_eq!(answer, Ok(Replayed::Limit { steps: limit }));
        assert_eq!(f32::from_bits(after[0]), limit.div_ceil(2) as f32);
    }
}

/// Of the flows only `end` acts; a released register keeps its number.
#[test]
fn flows_and_releases() {
    let mut rng = Rng::new(704);
    for flow in (0..15).filter(|flow| ![11, 12, 14].contains(flow)) {
        let words = [mov(1, 64) | flow << 59, mov(2, 65) | END];
        for parcel in [parcel(1, &words, &[1, 2]), parcel_2([1; 2], &words, &[[1; 2], [2; 2]])] {
            let run = Run { parcel: &parcel, registers: registers(&[9, 8, 7]), uniforms: &[], trace: &[], limit: 5 };
            let outcome = compare_replay(&mut rng, &run);
            assert_eq!(outcome, (Ok(Replayed::Ended { steps: 2 }), registers(&[9, 9, 9])), "flow {flow}");
        }
    }
}

/// A trace of three steps: empty, shorter, as long, longer.
#[test]
fn traces_shorter_and_longer() {
    let words = [mov(0, ONES), mov(9, ONES), mov(63, ONES) | END];
    let mut trace = Vec::new();
    let mut now = [0; 64];
    for register in [0, 9, 63] {
        now[register] = u32::MAX;
        trace.extend(now);
    }
    trace.extend([5; 200]);
    for count in [0, 64, 128, 192, 256, 320] {
        assert_eq!(replay(&words, &[], &[], &trace[..count], 9), (Ok(Replayed::Ended { steps: 3 }), now), "{count}");
        assert_eq!(replay(&words, &[], &[], &trace[..count], 2).0, Ok(Replayed::Limit { steps: 2 }), "{count}");
    }
    for step in 0..3 {
        for register in 0..64 {
            let mut other = trace.clone();
            other[64 * step + register] ^= 1 << (register / 2);
            other[64 * step + 63] ^= 2;
            let differs = Replayed::Differs { step: step as u32, register: register as u8 };
            let (answer, after) = replay(&words, &[], &[], &other[..192], 9);
            assert_eq!((answer, &after[..]), (Ok(differs), &trace[64 * step..][..64]));
            // The steps before it, and those that have no trace, agree.
            assert_eq!(replay(&words, &[], &[], &other[..64 * step], 9).0, Ok(Replayed::Ended { steps: 3 }));
            assert_eq!(replay(&words, &[], &[], &other[..192], step as u32).0, limit(step));
        }
    }
}

/// The answer of a run that comes to this limit.
fn limit(steps: usize) -> Result<Replayed, NotRun> {
    Ok(Replayed::Limit { steps: steps as u32 })
}

/// 32 for every length but the multiples of 64, however short the run.
#[test]
fn trace_lengths() {
    for length in 0..200 {
        let answer = replay(&[END], &[], &[], &vec![0; length], 1).0;
        let expected = if length % 64 == 0 { Ok(Replayed::Ended { steps: 1 }) } else { Err(Refusal::TraceLength) };
        assert_eq!(answer, expected.map_err(|refusal| refused(refusal, 0)), "{length}");
    }
}

/// 30 with any other combine than none.
#[test]
fn combines() {
    for combine in 1..=4 {
        let words = [branch(0, 0) | combine << 37, END];
        assert_eq!(replay(&words, &[], &[], &[], 9).0, Err(refused(Refusal::NotReplayed, 0)), "{combine}");
    }
}

/// 30 with any other widen than none, on either source.
#[test]
fn widens() {
    for (widen, low) in [(1, 28), (2, 28), (1, 26), (2, 26)] {
        let words = [0, fadd(0, 0, 0) | widen << low, END];
        assert_eq!(replay(&words, &[], &[], &[], 9).0, Err(refused(Refusal::NotReplayed, 1)), "{widen} at {low}");
    }
}

/// 30 for a write of one half, in every row that writes.
#[test]
fn half_writes() {
    let rows = [0x0, 0x4, 0xC, 0xD, 0xE].map(|secondary| unary(secondary, 3, 0));
    for word in rows.into_iter().chain([fadd(3, 0, 0), mux(1, 3, [0; 3])]) {
        assert_eq!(replay(&[word, END], &[], &[], &[], 9).0, Ok(Replayed::Ended { steps: 2 }), "{word:016X}");
        for half_mask in [1, 2] {
            let half = word & !(3 << 46) | half_mask << 46;
            let answer = replay(&[END, END, half, END], &[], &[], &[], 9).0;
            assert_eq!(answer, Err(refused(Refusal::NotReplayed, 2)), "{half:016X}");
        }
    }
}

/// 30 for every special constant of every page in any source; the fixed numbers are run.
#[test]
fn special_constants() {
    let mut specials = 0;
    for page in 0..4 {
        for byte in 192..=255 {
            for word in [mov(0, byte), fadd(0, 1, byte), mux(3, 0, [1, 1, byte]), branch(byte, 0)] {
                let words = [on_page(page, word), END];
                if read(&words[0].to_le_bytes()).is_err() {
                    continue;
                }
                let expected = match byte {
                    192..224 => Ok(Replayed::Ended { steps: 2 }),
                    _ => Err(refused(Refusal::NotReplayed, 0)),
                };
                assert_eq!(replay(&words, &[], &[], &[], 9).0, expected, "{byte} on page {page}");
                specials += usize::from(byte >= 224);
            }
        }
    }
    // Each value has two words: twelve values on page 0, three on each of 1 and 3.
    assert_eq!(specials, 4 * 2 * (12 + 3 + 3));
}

/// The fixed numbers, from 002.
#[test]
fn fixed_numbers() {
    for (entry, expected) in [(0, 0), (1, u32::MAX), (2, 0x7FFF_FFFF), (16, ONE), (21, 0), (31, 0x4248_0000)] {
        for page in 0..4 {
            assert_eq!(result(on_page(page, mov(0, 192 + entry)), &[7]), expected, "entry {entry} on page {page}");
        }
    }
}

/// The last uniform of the list, and the one after it, on every page; longer lists are fine.
#[test]
fn uniforms_at_the_end_of_the_list() {
    let uniforms: Vec<u32> = (0..300).map(|k| 0xAB00 + k).collect();
    for uniform in 0..256 {
        let word = on_page(uniform / 64, mov(0, 128 + (uniform % 64) as u8));
        let uniform = uniform as usize;
        for count in [uniform + 1, uniform + 2, 300] {
            let (answer, after) = replay(&[0, word | END], &[], &uniforms[..count], &[], 9);
            assert_eq!((answer, after[0]), (Ok(Replayed::Ended { steps: 2 }), uniforms[uniform]), "{uniform}");
        }
        for count in [uniform, uniform / 2, 0] {
            let answer = replay(&[0, word | END], &[], &uniforms[..count], &[], 9).0;
            assert_eq!(answer, Err(refused(Refusal::NoUniform, 1)), "{uniform} of {count}");
        }
    }
}

#[test]
fn uniform_255_on_page_3() {
    let words = [on_page(3, fadd(0, 191, 191)) | END];
    let uniforms: Vec<u32> = (0..256).map(|k| if k == 255 { ONE } else { k }).collect();
    let (answer, after) = replay(&words, &[], &uniforms, &[], 9);
    assert_eq!((answer, f32::from_bits(after[0])), (Ok(Replayed::Ended { steps: 1 }), 2.0));
    assert_eq!(replay(&words, &[], &uniforms[..255], &[], 9).0, Err(refused(Refusal::NoUniform, 0)));
}

/// The nine rows are run; the others are 30.
#[test]
fn rows() {
    for number in 0..ROW_COUNT as u8 {
        let only = Instruction { flow: 15, ..fresh(number.into()).unwrap() };
        let answer = replay(&[encode(&only)], &[], &[], &[], 9).0;
        let expected = match replayed_rows().contains(&number) {
            true => Ok(Replayed::Ended { steps: 1 }),
            false => Err(refused(Refusal::NotReplayed, 0)),
        };
        assert_eq!(answer, expected, "{}", ROWS[number as usize].name);
    }
}

/// A program with its exact notes, and what it runs on.
struct Scene<S> {
    program: Program<S>,
    registers: Registers,
    uniforms: Vec<u32>,
}

impl<S: Set> Scene<S> {
    fn random(rng: &mut Rng, count: usize) -> Scene<S> {
        let shape = Shape {
            count,
            branches: rng.pick(&[0, 10, 25, 40]),
            ends: rng.pick(&[0, 4]),
            registers: rng.pick(&[2, 4, 8, 64]),
        };
        let program = Program::replayed(rng, shape);
        Scene::of(rng, program)
    }

    /// On numbers of every class, with all the uniforms that it names.
    fn of(rng: &mut Rng, program: Program<S>) -> Scene<S> {
        let count = needed(&program) + rng.pick(&[0, 0, 1, 100]);
        let registers = [0; 64].map(|_: u32| number(rng));
        Scene { program, registers, uniforms: (0..count).map(|_| number(rng)).collect() }
    }

    fn short(rng: &mut Rng) -> Scene<S> {
        let count = 1 + rng.below(24);
        Scene::random(rng, count)
    }

    fn parcel(&self) -> Vec<u8> {
        self.program.parcel(&self.program.exact())
    }

    fn run<'a>(&'a self, parcel: &'a [u8], trace: &'a [u32], limit: u32) -> Run<'a> {
        Run { parcel, registers: self.registers, uniforms: &self.uniforms, trace, limit }
    }

    /// Without a trace.
    fn record(&self, parcel: &[u8], limit: u32) -> (Replayed, Vec<u32>) {
        let recorded = reference::record(parcel, &mut self.registers.clone(), &self.uniforms, limit);
        let (replayed, records) = recorded.unwrap_or_else(|refusal| panic!("{refusal:?}: {:?}", self.program));
        (replayed, records.concat())
    }

    /// Whether an instruction has a uniform past the list.
    fn lacks(&self, instruction: &Instruction) -> bool {
        uniforms_of(instruction).any(|number| number >= self.uniforms.len())
    }

    /// The refusal of the lowest instruction at fault, from its fields.
    fn fault(&self) -> Option<NotRun> {
        let at_fault = |instruction: &Instruction| !is_replayed(instruction) || self.lacks(instruction);
        let index = self.program.instructions.iter().position(at_fault)?;
        match is_replayed(&self.program.instructions[index]) {
            true => Some(refused(Refusal::NoUniform, index)),
            false => Some(refused(Refusal::NotReplayed, index)),
        }
    }
}

/// The numbers of the uniforms that an instruction names.
fn uniforms_of(instruction: &Instruction) -> impl Iterator<Item = usize> {
    let sources = &instruction.sources[..ROWS[instruction.row as usize].sources];
    let uniforms = sources.iter().filter(|byte| (128..192).contains(*byte));
    uniforms.map(|byte| usize::from(byte - 128) + 64 * usize::from(instruction.page))
}

/// How many uniforms the program needs.
fn needed<S: Set>(program: &Program<S>) -> usize {
    program.instructions.iter().flat_map(uniforms_of).map(|number| number + 1).max().unwrap_or(0)
}

fn steps(replayed: Replayed) -> u32 {
    match replayed {
        Replayed::Ended { steps } | Replayed::Limit { steps } => steps,
        Replayed::Differs { step, .. } => step + 1,
    }
}

/// What there must be of random runs, so that they mean something.
#[derive(Default, Debug)]
struct Shares {
    programs: usize,
    /// That change a register.
    change: usize,
    /// With more steps than instructions.
    loops: usize,
    ends: usize,
    limits: usize,
    steps: u64,
}

impl Shares {
    fn count(&mut self, instructions: usize, replayed: Replayed, changes: bool) {
        self.programs += 1;
        self.change += usize::from(changes);
        self.loops += usize::from(steps(replayed) as usize > instructions);
        match replayed {
            Replayed::Ended { .. } => self.ends += 1,
            _ => self.limits += 1,
        }
        self.steps += u64::from(steps(replayed));
    }

    /// All of them are run; six of ten change a register; more than every tenth goes round a loop,
    /// comes to an end, comes to the limit; eight steps each.
    fn assert(&self) {
        let tenth = self.programs / 10;
        assert!(self.change > 6 * tenth, "{self:?}");
        assert!(self.loops.min(self.ends).min(self.limits) > tenth, "{self:?}");
        assert!(self.steps > 8 * self.programs as u64, "{self:?}");
    }
}

/// The trace with another number at a random place, and after it perhaps; the answer to it.
fn spoiled(rng: &mut Rng, trace: &[u32]) -> (Vec<u32>, Replayed) {
    let mut other = trace.to_vec();
    let at = rng.below(trace.len());
    other[at] ^= 1 << rng.below(32);
    for _ in 0..rng.below(4) {
        let later = at + 1 + rng.below(200);
        if let Some(number) = other.get_mut(later) {
            *number = rng.bits() as u32;
        }
    }
    (other, Replayed::Differs { step: (at / 64) as u32, register: (at % 64) as u8 })
}

/// Replays with both, and asserts what comes of it: this answer, and these registers.
fn assert_run(rng: &mut Rng, run: &Run, answer: Result<Replayed, NotRun>, after: &[u32]) -> u64 {
    let (given, registers) = compare_replay(rng, run);
    assert_eq!(given, answer, "{}", hex(run.parcel));
    assert_eq!(registers[..], *after, "{}", hex(run.parcel));
    replay_code(given)
}

/// Replays a scene in all ways: without a trace, with its own, with a part of it, with more, with a
/// wrong length, with limits to the step, and with another trace. How it stops, and whether it
/// changes a register.
fn runs_of<S: Set>(rng: &mut Rng, tally: &mut Tally, scene: &Scene<S>, limit: u32) -> (Replayed, bool) {
    let parcel = scene.parcel();
    let (replayed, trace) = scene.record(&parcel, limit);
    let before = &scene.registers[..];
    let last = trace.rchunks(64).next().unwrap_or(before);
    let ran = steps(replayed);
    let some = rng.below(ran as usize + 1);
    let more = [&trace[..], &[number(rng); 64 * 3]].concat();
    let cut = 1 + rng.below(63);
    let mut check = |trace: &[u32], limit, answer, after: &[u32]| {
        tally.count(assert_run(rng, &scene.run(&parcel, trace, limit), answer, after));
    };
    check(&[], limit, Ok(replayed), last);
    check(&trace, limit, Ok(replayed), last);
    check(&trace[..64 * some], limit, Ok(replayed), last);
    check(&more, limit, Ok(replayed), last);
    check(&more[cut..], limit, Err(refused(Refusal::TraceLength, 0)), before);
    if ran > 0 {
        // With as many steps as were run it comes to the same; with one less, to the limit.
        check(&trace, ran, Ok(replayed), last);
        let earlier = trace.rchunks(64).nth(1).unwrap_or(before);
        check(&trace, ran - 1, Ok(Replayed::Limit { steps: ran - 1 }), earlier);
        let (other, differs) = spoiled(rng, &trace);
        tally.count(assert_run(rng, &scene.run(&parcel, &other, limit), Ok(differs), after(&trace, differs)));
    }
    (replayed, last != before)
}

/// The registers after the last step that was run.
fn after(trace: &[u32], replayed: Replayed) -> &[u32] {
    &trace[64 * (steps(replayed) as usize - 1)..][..64]
}

/// Programs of the nine rows with branches and loops, on numbers of every class.
fn random_runs<S: Set>() {
    let mut rng = Rng::new(705);
    let mut shares = Shares::default();
    let mut tally = Tally::new();
    let mut rows = [0; ROW_COUNT];
    for _ in 0..20_000 {
        let scene = Scene::<S>::short(&mut rng);
        let most = rng.pick(&[1, 4, 40, 100, 200]);
        let limit = rng.below(most) as u32;
        let (replayed, changes) = runs_of(&mut rng, &mut tally, &scene, limit);
        shares.count(scene.program.count(), replayed, changes);
        scene.program.instructions.iter().for_each(|instruction| rows[instruction.row as usize] += 1);
    }
    shares.assert();
    assert!(tally.total() > 140_000, "{}", tally.total());
    tally.assert_only(&[0, 254, 255, 32]);
    tally.assert_seen(&[0, 254, 255, 32], 5_000);
    assert!(replayed_rows().iter().all(|row| rows[*row as usize] > 5_000), "{rows:?}");
}

/// A random body of so many instructions, and a register that it doesn't touch and that counts down
/// to 0; the last instruction comes after that.
fn counted<S: Set>(rng: &mut Rng, count: usize) -> (Program<S>, u8) {
    let mut program = Program::replayed(rng, Shape { count: count + 1, branches: 0, ends: 0, registers: 12 });
    // What is read in one round is held in the next.
    for instruction in &mut program.instructions {
        instruction.sources = instruction.sources.map(|byte| if byte < 128 { byte % 64 } else { byte });
    }
    let touches = |one: &Instruction, register| one.register == register || one.sources.contains(&register);
    let free = |register: &u8| !program.instructions.iter().any(|one| touches(one, *register));
    let counter = (0..64).find(free).unwrap();
    let words = [fadd(counter, counter, FLOAT_ONE) | 1 << 36, branch(counter, -(count as i64) - 2)];
    let end = words.map(|word| read(&word.to_le_bytes()).unwrap());
    program.instructions.splice(count..count, end);
    program.entry = program.entry | S::register(counter);
    (program, counter)
}

/// Loops that come to their end after so many rounds.
fn counted_loops<S: Set>() {
    let mut rng = Rng::new(714);
    for _ in 0..1_500 {
        let count = rng.below(12);
        let (program, counter) = counted::<S>(&mut rng, count);
        let mut scene = Scene::of(&mut rng, program);
        let rounds = 1 + rng.below(30);
        scene.registers[counter as usize] = (rounds as f32).to_bits();
        let parcel = scene.parcel();
        let (replayed, trace) = scene.record(&parcel, u32::MAX);
        assert_eq!(replayed, Replayed::Ended { steps: (rounds * (count + 2) + 1) as u32 });
        let last = after(&trace, replayed);
        assert_eq!(last[counter as usize], 0);
        assert_run(&mut rng, &scene.run(&parcel, &trace, u32::MAX), Ok(replayed), last);
    }
}

/// As many instructions as there may be, with a long trace.
fn long_programs<S: Set>() {
    let mut rng = Rng::new(706);
    for count in [255, 256, 257, 2047, 2048] {
        for _ in 0..4 {
            let scene = Scene::<S>::random(&mut rng, count);
            let parcel = scene.parcel();
            let (replayed, trace) = scene.record(&parcel, 4096);
            assert_run(&mut rng, &scene.run(&parcel, &trace, 4096), Ok(replayed), after(&trace, replayed));
            let (other, differs) = spoiled(&mut rng, &trace);
            assert_run(&mut rng, &scene.run(&parcel, &other, 4096), Ok(differs), after(&trace, differs));
        }
        // Straight on, to an end in the last one.
        let words: Vec<u64> = (1..count).map(|k| fadd(k as u8 % 64, k as u8 % 61, UNIFORM)).chain([END]).collect();
        let answer = replay(&words, &[ONE; 64], &[0x3DCC_CCCD], &[], u32::MAX).0;
        assert_eq!(answer, Ok(Replayed::Ended { steps: count as u32 }));
    }
}

/// What keeps an instruction from being run.
#[derive(Clone, Copy, Debug)]
enum Fault {
    Row,
    /// Combine or widen.
    Part,
    Half,
    Special,
}

const FAULTS: [Fault; 4] = [Fault::Row, Fault::Part, Fault::Half, Fault::Special];

/// Gives an instruction that is run a fault; whether it has room for it.
fn spoil(rng: &mut Rng, instruction: &mut Instruction, fault: Fault) -> bool {
    let row = &ROWS[instruction.row as usize];
    match fault {
        Fault::Row => {
            let mut other = fresh(other_row(rng).into()).unwrap();
            if ROWS[other.row as usize].destination {
                other.register = instruction.register;
            }
            *instruction = Instruction { flow: instruction.flow, ..other };
            true
        }
        Fault::Part => {
            let (lows, values): (&[u8], _) = match row.name {
                "BRANCHZ" => (&[37], 4),
                "FADD.f32" => (&[26, 28], 2),
                _ => return false,
            };
            let low = rng.pick(lows);
            let place = MODIFIER_BITS.iter().position(|bit| *bit == low).unwrap();
            instruction.modifiers[place] = 1 + rng.below(values) as u8;
            true
        }
        Fault::Half => {
            instruction.half_mask = if row.destination { rng.pick(&[1, 2]) } else { 0 };
            row.destination
        }
        Fault::Special => {
            let specials: [&[u8]; 4] = [&[228, 233, 255], &[226, 231, 239], &[], &[227, 230, 254]];
            let here = specials[instruction.page as usize];
            if here.is_empty() || row.sources == 0 {
                return false;
            }
            instruction.sources[rng.below(row.sources)] = rng.pick(here);
            true
        }
    }
}

/// A row that isn't run.
fn other_row(rng: &mut Rng) -> u8 {
    loop {
        let row = rng.below(ROW_COUNT) as u8;
        if !replayed_rows().contains(&row) {
            return row;
        }
    }
}

/// An accepted program with so many faults of these kinds, at random, and where they are.
fn faulty<S: Set>(rng: &mut Rng, count: usize, faults: &[Fault]) -> (Scene<S>, Vec<usize>) {
    loop {
        let mut scene = Scene::short(rng);
        let mut places = Vec::new();
        for _ in 0..count {
            let index = rng.below(scene.program.count());
            let mut other = scene.program.instructions[index];
            let fault = rng.pick(faults);
            if is_replayed(&other) && spoil(rng, &mut other, fault) {
                scene.program.instructions[index] = other;
                places.push(index);
            }
        }
        if places.len() == count && verdict(&scene.parcel()).is_none() {
            return (scene, places);
        }
    }
}

/// 30 for each kind of fault, wherever it is.
fn instructions_that_are_not_run<S: Set>() {
    let mut rng = Rng::new(707);
    for fault in FAULTS {
        for _ in 0..600 {
            let (scene, places) = faulty::<S>(&mut rng, 1, &[fault]);
            let answer = Err(refused(Refusal::NotReplayed, places[0]));
            assert_run(&mut rng, &scene.run(&scene.parcel(), &[], 9), answer, &scene.registers);
        }
    }
}

/// 31 for the lowest instruction with a uniform past the list.
fn missing_uniforms<S: Set>() {
    let mut rng = Rng::new(708);
    let mut later = 0;
    for _ in 0..3_000 {
        let mut scene = Scene::<S>::short(&mut rng);
        let needed = needed(&scene.program);
        if needed == 0 {
            continue;
        }
        let fewer = rng.below(needed);
        scene.uniforms.truncate(rng.pick(&[needed - 1, fewer]));
        let index = scene.program.instructions.iter().position(|instruction| scene.lacks(instruction)).unwrap();
        let answer = Err(refused(Refusal::NoUniform, index));
        assert_run(&mut rng, &scene.run(&scene.parcel(), &[], 9), answer, &scene.registers);
        later += u32::from(index > 0);
    }
    assert!(later > 500, "{later}");
}

/// Several faults and too few uniforms: the check's own refusal, then 32, then the lowest
/// instruction with 30 or 31, and 30 if it has both.
fn order_of_refusals<S: Set>() {
    let mut rng = Rng::new(709);
    let mut tally = Tally::new();
    let mut both = 0;
    for _ in 0..3_000 {
        let count = 1 + rng.below(3);
        let (mut scene, _) = faulty::<S>(&mut rng, count, &FAULTS);
        scene.uniforms.truncate(rng.below(scene.uniforms.len() + 1));
        let parcel = scene.parcel();
        let fault = scene.fault().unwrap();
        let first = &scene.program.instructions[usize::from(fault.index)];
        both += u32::from(!is_replayed(first) && scene.lacks(first));
        let trace: Vec<u32> = (0..129).map(|_| number(&mut rng)).collect();
        let limit = rng.pick(&[0, 1, 100]);
        tally.count(assert_run(&mut rng, &scene.run(&parcel, &trace[1..], limit), Err(fault), &scene.registers));
        let length = Err(refused(Refusal::TraceLength, 0));
        tally.count(assert_run(&mut rng, &scene.run(&parcel, &trace, limit), length, &scene.registers));
        let (fewer, more) = (S::random(&mut rng), S::random(&mut rng) & S::random(&mut rng));
        let mut notes = scene.program.exact();
        let place = rng.below(notes.len());
        notes[place] = rng.pick(&[notes[place] & fewer, notes[place] | more]);
        let bytes = scene.program.parcel(&notes);
        if let Some(verdict) = verdict(&bytes) {
            tally.count(assert_run(&mut rng, &scene.run(&bytes, &trace, limit), Err(verdict), &scene.registers));
        }
    }
    tally.assert_seen(&[20, 22, 23, 32], 20);
    tally.assert_seen(&[30, 31], 300);
    assert!(both > 50, "{both}");
}

/// Parcels that don't open, words that aren't legal and notes that aren't accepted, before 32.
fn refusals_of_the_check<S: Set>() {
    let mut rng = Rng::new(710);
    let mut tally = Tally::new();
    for _ in 0..600 {
        let scene = Scene::<S>::short(&mut rng);
        let good = scene.parcel();
        let mut cases = vec![good[..rng.below(good.len())].to_vec(), with_version(&good, 3)];
        for at in [0, 5, 6] {
            let mut other = good.clone();
            other[at] ^= 1 << rng.below(8);
            cases.push(other);
        }
        for refusal in 2..=7 {
            cases.push(with_word(&good, rng.below(scene.program.count()), refused_word(&mut rng, refusal).0));
        }
        let mut open = scene.program.clone();
        open.instructions[scene.program.count() - 1].flow = 0;
        cases.push(open.parcel(&open.exact()));
        cases.push(scene.program.parcel(&vec![S::NONE; scene.program.count()]));
        cases.push(scene.program.parcel(&vec![S::ALL; scene.program.count()]));
        for bytes in cases {
            let Some(verdict) = verdict(&bytes) else { continue };
            for trace in [&[][..], &[0; 63]] {
                tally.count(assert_run(&mut rng, &scene.run(&bytes, trace, 9), Err(verdict), &scene.registers));
            }
        }
    }
    tally.assert_only(&[2, 3, 4, 5, 6, 7, 10, 11, 12, 13, 20, 21, 22, 23]);
    tally.assert_seen(&[2, 3, 4, 5, 6, 7, 10, 11, 12, 13, 20, 21, 23], 100);
}

/// Up to three bits of the parcel the other way round, with the trace of the parcel as it was.
fn flipped_bits<S: Set>() {
    let mut rng = Rng::new(711);
    let mut tally = Tally::new();
    for _ in 0..3_000 {
        let scene = Scene::<S>::short(&mut rng);
        let good = scene.parcel();
        let (_, trace) = scene.record(&good, 40);
        for _ in 0..4 {
            let mut bytes = good.clone();
            for _ in 0..1 + rng.below(3) {
                let at = S::HEADER + rng.below(bytes.len() - S::HEADER);
                bytes[at] ^= 1 << rng.below(8);
            }
            tally.count(replay_code(compare_replay(&mut rng, &scene.run(&bytes, &trace, 40)).0));
        }
    }
    tally.assert_seen(&[0, 2, 3, 20, 21, 22, 30, 31, 254, 255], 20);
}

/// Parcels that start at any address.
fn any_alignment<S: Set>() {
    let mut rng = Rng::new(712);
    for _ in 0..200 {
        let scene = Scene::<S>::short(&mut rng);
        let parcel = scene.parcel();
        let (replayed, trace) = scene.record(&parcel, 30);
        for start in 0..8 {
            let moved = [&[0xFF; 8][..start], &parcel].concat();
            let answer = compare_replay(&mut rng, &scene.run(&moved[start..], &trace, 30)).0;
            assert_eq!(answer, Ok(replayed));
        }
    }
}

/// A special constant and a uniform past the list in one instruction, either first.
#[test]
fn both_on_one_instruction() {
    for word in [fadd(0, UNIFORM, 228), fadd(0, 228, UNIFORM), mux(0, 0, [UNIFORM, UNIFORM, 228])] {
        let words = [0, word, END];
        assert_eq!(replay(&words, &[], &[], &[], 9).0, Err(refused(Refusal::NotReplayed, 1)), "{word:016X}");
        let words = [0, mov(0, UNIFORM), word, END];
        assert_eq!(replay(&words, &[], &[], &[], 9).0, Err(refused(Refusal::NoUniform, 1)), "{word:016X}");
        assert_eq!(replay(&words, &[], &[7], &[], 9).0, Err(refused(Refusal::NotReplayed, 2)), "{word:016X}");
    }
}

/// The little-endian bytes of numbers.
fn bytes(numbers: &[u32]) -> Vec<u8> {
    numbers.iter().flat_map(|number| number.to_le_bytes()).collect()
}

/// The C example on files with these bytes: parcel, registers, uniforms and trace.
fn run_example(program: &Path, files: [&[u8]; 4], limit: &str) -> Output {
    let names = ["parcel", "registers", "uniforms", "trace"].map(|name| program.with_extension(name));
    for (name, bytes) in names.iter().zip(files) {
        std::fs::write(name, bytes).unwrap();
    }
    Command::new(program).args(names).arg(limit).output().unwrap()
}

fn assert_output(output: &Output, status: i32, stdout: &str, stderr: &str) {
    assert_eq!(String::from_utf8_lossy(&output.stdout), stdout);
    assert_eq!(String::from_utf8_lossy(&output.stderr), stderr);
    assert_eq!(output.status.code(), Some(status));
}

/// The line that the C example writes, and its status.
fn line(run: &Run, (answer, after): &Outcome) -> (String, i32) {
    let stop = |how: &str, steps: u32| {
        let compared = run.trace.len() / 64;
        let plural = if steps == 1 { "" } else { "s" };
        format!("{how} after {steps} step{plural}, {} compared\n", compared.min(steps as usize))
    };
    match answer {
        Ok(Replayed::Ended { steps }) => (stop("END", *steps), 0),
        Ok(Replayed::Limit { steps }) => (stop("LIMIT", *steps), 0),
        Ok(Replayed::Differs { step, register }) => {
            let r = usize::from(*register);
            let numbers = [after[r], run.trace[64 * *step as usize + r]];
            let [replayed, recorded] = numbers.map(|number| format!("{number:08X}"));
            (format!("DIFFERS at step {step}, r{r}: {replayed} replayed, {recorded} recorded\n"), 1)
        }
        Err(NotRun { refusal, index, register, half }) => {
            let half = match half {
                None => "",
                Some(Half::Low) => " low",
                Some(Half::High) => " high",
            };
            let (number, place) = (refusal.number(), refusal.place());
            (format!("REFUSED {number} place {place} index {index} register {register}{half}\n"), 1)
        }
    }
}

/// The C example: the same by the header.
#[test]
fn replayed_by_the_c_example() {
    let program = compile("replay.c", "replay");
    let mut rng = Rng::new(713);
    let mut tally = Tally::new();
    for _ in 0..150 {
        let mut scene = Scene::<u128>::short(&mut rng);
        scene.uniforms.truncate(256);
        let mut parcel = scene.parcel();
        let limit = rng.below(40) as u32;
        let (_, trace) = scene.record(&parcel, limit);
        let mut trace = trace[..64 * rng.below(trace.len() / 64 + 1)].to_vec();
        match rng.below(6) {
            0 => trace.push(0),
            1 if !trace.is_empty() => trace = spoiled(&mut rng, &trace).0,
            2 => scene.uniforms.truncate(rng.below(3)),
            3 => parcel[24 + rng.below(8)] ^= 1 << rng.below(8),
            _ => {}
        }
        let run = scene.run(&parcel, &trace, limit);
        let outcome = compare_replay(&mut rng, &run);
        tally.count(replay_code(outcome.0));
        let files = [&parcel[..], &bytes(&scene.registers), &bytes(&scene.uniforms), &bytes(&trace)];
        let (expected, status) = line(&run, &outcome);
        assert_output(&run_example(&program, files, &limit.to_string()), status, &expected, "");
    }
    tally.assert_seen(&[0, 31, 32, 254, 255], 3);
}

/// The sample `loop` by hand: three times round, in steps of 0.5; its trace as far as the first
/// 0.5, and with another number there.
#[test]
fn the_sample_by_the_c_example() {
    let program = compile("replay.c", "replay-sample");
    let sample = Path::new(env!("CARGO_MANIFEST_DIR")).join("../samples/loop.vsp");
    let parcel = std::fs::read(sample).unwrap();
    let (three, half) = (0x4040_0000, 0x3F00_0000);
    let [start, uniforms] = [&registers(&[three])[..], &[half, MINUS_ONE]].map(bytes);
    let traced = |r1| [registers(&[three]), registers(&[three, r1])].concat();
    let differs = "DIFFERS at step 1, r1: 3F000000 replayed, 3E800000 recorded\n";
    for (trace, limit, expected, status) in [
        (Vec::new(), "1000", "END after 11 steps, 0 compared\n", 0),
        (traced(half), "11", "END after 11 steps, 2 compared\n", 0),
        (traced(half), "10", "LIMIT after 10 steps, 2 compared\n", 0),
        (traced(half), "1", "LIMIT after 1 step, 1 compared\n", 0),
        (traced(half), "0", "LIMIT after 0 steps, 0 compared\n", 0),
        (traced(0x3E80_0000), "4294967295", differs, 1),
        (vec![0; 63], "9", "REFUSED 32 place 0 index 0 register 64\n", 1),
    ] {
        assert_output(
            &run_example(&program, [&parcel, &start, &uniforms, &bytes(&trace)], limit),
            status,
            expected,
            "",
        );
    }
    let fewer = run_example(&program, [&parcel, &start, &uniforms[..4], &[]], "9");
    assert_output(&fewer, 1, "REFUSED 31 place 0 index 2 register 64\n", "");
}

/// Files that can't be read or aren't numbers, wrong calls, an output that is full or closed.
#[test]
fn troubles_of_the_c_example() {
    let program = compile("replay.c", "replay-troubles");
    let parcel = parcels(&[END])[0].clone();
    let start = [0; 256];
    let name = |end| program.with_extension(end).display().to_string();
    let run = |files, limit| run_example(&program, files, limit);
    assert_output(&run([&parcel, &start, &[], &[]], "1"), 0, "END after 1 step, 0 compared\n", "");
    let (few, odd) = (name("registers"), name("uniforms"));
    assert_output(&run([&parcel, &start[4..], &[], &[]], "1"), 2, "", &format!("replay: {few} isn't 64 numbers\n"));
    let most = |name: String, most| format!("replay: {name} isn't at most {most} whole numbers\n");
    assert_output(&run([&parcel, &[0; 260], &[], &[]], "1"), 2, "", &most(few, 64));
    assert_output(&run([&parcel, &start, &[0; 7], &[]], "1"), 2, "", &most(odd.clone(), 256));
    assert_output(&run([&parcel, &start, &[0; 1028], &[]], "1"), 2, "", &most(odd, 256));
    let long = vec![0; 4096 * 256 + 1];
    assert_output(&run([&parcel, &start, &[], &long], "1"), 2, "", &most(name("trace"), 262_144));
    assert_output(&run([&parcel, &start, &[], &long[1..]], "1"), 0, "END after 1 step, 1 compared\n", "");
    let refused = "REFUSED 10 place 0 index 0 register 64\n";
    assert_output(&run([&long, &start, &[], &[]], "1"), 1, refused, "");
    let call = |arguments: &[&str]| Command::new(&program).args(arguments).output().unwrap();
    let files: [String; 4] = ["parcel", "registers", "uniforms", "trace"].map(name);
    let [a, b, c, d] = files.each_ref().map(String::as_str);
    let missing = name("missing");
    for k in 0..4 {
        let mut names = [a, b, c, d, "1"];
        names[k] = &missing;
        assert_output(&call(&names), 2, "", &format!("replay: can't read {missing}\n"));
    }
    let usage = "usage: replay PARCEL REGISTERS UNIFORMS TRACE LIMIT\n";
    for limit in ["", "-1", "1x", " 1", "4294967296", "99999999999999999999"] {
        assert_output(&call(&[a, b, c, d, limit]), 2, "", usage);
    }
    for arguments in [&[][..], &[a, b, c, d], &[a, b, c, d, "1", "1"]] {
        assert_output(&call(arguments), 2, "", usage);
    }
    run([&parcel, &start, &[], &[]], "1");
    for redirection in [">/dev/full", ">&-"] {
        let script = format!("exec \"$0\" \"$@\" {redirection}");
        let output = Command::new("sh").args(["-c", &script]).arg(&program).args([a, b, c, d, "1"]).output().unwrap();
        assert_output(&output, 2, "", "replay: can't write standard output\n");
    }
}
