//! Parcels compared by the library and by the reference, the whole list and its lines one by
//! one: over forty thousand pairs, of the same version and of different ones. What is expected is
//! worked out here from the bits of the words.

mod common;

use common::{Comparer, compile};
use inputs::{
    Rng, Set, both_versions, encode, instruction, on_r0, parcel, parcel_2, parcel_of, refused_word, with_version,
};
use reference::{
    Difference, Half, Instruction, MODIFIER_BITS, ROW_COUNT, ROWS, Refusal, Row, Side, Unread, What, read,
};
use std::collections::HashSet;
use std::path::{Path, PathBuf};
use std::process::{Command, Output};

both_versions! {
    equal_parcels
    longer_by_one_and_by_many
    only_the_entry_set
    only_notes
    refusals
    random_pairs
    changed_parcels
    flipped_bits
    longest_parcels
    any_alignment
}

/// What a parcel of the version whose sets these are is made of; the notes needn't be acceptable.
#[derive(Clone)]
struct Parts<S = u64> {
    entry: S,
    words: Vec<u64>,
    notes: Vec<S>,
}

impl<S: Set> Parts<S> {
    fn random(rng: &mut Rng, count: usize) -> Parts<S> {
        let words = (0..count).map(|_| any_word(rng)).collect();
        Parts { entry: S::random(rng), words, notes: (0..count).map(|_| S::random(rng)).collect() }
    }

    /// A single instruction.
    fn single(instruction: &Instruction) -> Parts<S> {
        Parts { entry: S::register(0), words: vec![encode(instruction)], notes: vec![S::register(1)] }
    }

    fn bytes(&self) -> Vec<u8> {
        parcel_of(self.entry, &self.words, &self.notes)
    }

    fn count(&self) -> usize {
        self.words.len()
    }

    /// The parcel with this instruction in place of another.
    fn with(&self, index: usize, instruction: &Instruction) -> Parts<S> {
        let mut parts = self.clone();
        parts.words[index] = encode(instruction);
        parts
    }

    /// The first so many instructions, with their notes.
    fn shortened(&self, count: usize) -> Parts<S> {
        Parts { entry: self.entry, words: self.words[..count].to_vec(), notes: self.notes[..count].to_vec() }
    }
}

fn any_word(rng: &mut Rng) -> u64 {
    let row = rng.below(ROW_COUNT) as u8;
    encode(&instruction(rng, row))
}

fn line(what: What, index: usize, first: u64, second: u64) -> Difference {
    Difference { what, index: index as u16, first, second }
}

/// The fields of a row beside the row itself: what, lowest bit, width.
fn fields(row: &Row) -> Vec<(What, u8, u8)> {
    let mut fields = vec![(What::Page, 57, 2), (What::Flow, 59, 4)];
    fields.extend(row.destination.then_some((What::Destination, 40, 8)));
    fields.extend((0..row.sources as u8).map(|k| (What::Source(k), 8 * k, 8)));
    fields.extend(row.offset.then_some((What::Modifier(8), 8, 27)));
    let modifiers = MODIFIER_BITS.iter().zip(row.modifiers).filter(|(_, modifier)| modifier.width != 0);
    fields.extend(modifiers.map(|(low, modifier)| (What::Modifier(*low), *low, modifier.width)));
    fields
}

/// The bits of a word's field, 0 where its row has none.
fn content(word: u64, what: What) -> u64 {
    let row = row_of(word);
    if what == What::Row {
        return row.into();
    }
    let field = fields(&ROWS[row as usize]).into_iter().find(|field| field.0 == what);
    field.map_or(0, |(_, low, width)| word >> low & ((1 << width) - 1))
}

fn row_of(word: u64) -> u8 {
    read(&word.to_le_bytes()).unwrap().row
}

/// The fields in the order of the list.
fn order() -> Vec<What> {
    let mut order = vec![What::Row, What::Page, What::Flow, What::Destination];
    order.extend((0..4).map(What::Source));
    order.extend(MODIFIER_BITS.map(What::Modifier));
    order
}

/// The whole list.
fn expected<A: Set, B: Set>(first: &Parts<A>, second: &Parts<B>) -> Vec<Difference> {
    let order = order();
    let mut lines = vec![line(What::Version, 0, A::VERSION.into(), B::VERSION.into())];
    for (index, (a, b)) in first.words.iter().zip(&second.words).enumerate() {
        lines.extend(order.iter().map(|what| line(*what, index, content(*a, *what), content(*b, *what))));
    }
    let (n, m) = (first.count(), second.count());
    let mut extra = Vec::from_iter((m..n).map(|index| line(What::Removed, index, first.words[index], 0)));
    extra.extend((n..m).map(|index| line(What::Added, index, 0, second.words[index])));
    let mut sets = set_lines(What::Entry, 0, first.entry, second.entry);
    for (index, (a, b)) in first.notes.iter().zip(&second.notes).enumerate() {
        sets.extend(set_lines(What::Note, index, *a, *b));
    }
    lines.retain(|line| line.first != line.second);
    sets.retain(|line| line.first != line.second);
    [lines, extra, sets].concat()
}

/// The lines of two sets, different or not: one for registers, else one for each half.
fn set_lines<A: Set, B: Set>(what: fn(Option<Half>) -> What, index: usize, first: A, second: B) -> Vec<Difference> {
    let ([low, high], [other_low, other_high]) = (first.halves(), second.halves());
    match (A::VERSION, B::VERSION) {
        (1, 1) => vec![line(what(None), index, low, other_low)],
        _ => vec![
            line(what(Some(Half::Low)), index, low, other_low),
            line(what(Some(Half::High)), index, high, other_high),
        ],
    }
}

/// Compares with all, either way round; gives back the list.
fn compare<A: Set, B: Set>(comparer: &mut Comparer, first: &Parts<A>, second: &Parts<B>) -> Vec<Difference> {
    let list = expected(first, second);
    let (a, b) = (first.bytes(), second.bytes());
    assert_eq!(comparer.compare(&a, &b), Ok(list.clone()));
    assert_eq!(comparer.compare(&b, &a), Ok(expected(second, first)));
    assert_eq!(list.is_empty(), a == b);
    list
}

fn row(name: &str) -> u8 {
    ROWS.iter().position(|row| row.name == name).unwrap() as u8
}

/// The instruction with another modifier, named by its lowest bit.
fn with(mut instruction: Instruction, low: u8, value: u8) -> Instruction {
    let place = MODIFIER_BITS.iter().position(|bit| *bit == low).unwrap();
    instruction.modifiers[place] = value;
    instruction
}

fn plain(name: &str) -> Instruction {
    on_r0(row(name))
}

fn equal_parcels<S: Set>() {
    let mut comparer = Comparer::new(600);
    let mut rng = Rng::new(601);
    for count in (1..=30).chain([255, 256, 2047, 2048]) {
        for _ in 0..4 {
            let parts = Parts::<S>::random(&mut rng, count);
            assert_eq!(compare(&mut comparer, &parts, &parts), []);
            let bytes = parts.bytes();
            assert_eq!(comparer.compare(&bytes, &bytes), Ok(Vec::new()), "the same memory");
        }
    }
}

/// Every field of every row; each bit of it that leaves the word legal.
#[test]
fn one_bit_of_a_field() {
    let mut comparer = Comparer::new(602);
    let mut rng = Rng::new(603);
    for number in 0..ROW_COUNT as u8 {
        let fields = fields(&ROWS[number as usize]);
        let mut seen = HashSet::new();
        for _ in 0..3 {
            let count = 1 + rng.below(4);
            let index = rng.below(count);
            let first = Parts::<u64>::random(&mut rng, count).with(index, &instruction(&mut rng, number));
            for (what, low, width) in &fields {
                for bit in *low..low + width {
                    let mut second = first.clone();
                    second.words[index] ^= 1 << bit;
                    if read(&second.words[index].to_le_bytes()).is_err() {
                        continue;
                    }
                    let contents = [&first, &second].map(|parts| parts.words[index] >> low & ((1 << width) - 1));
                    let only = line(*what, index, contents[0], contents[1]);
                    assert_eq!(compare(&mut comparer, &first, &second), [only]);
                    seen.insert(format!("{what:?}"));
                }
            }
        }
        assert_eq!(seen.len(), fields.len(), "{}: {seen:?}", ROWS[number as usize].name);
    }
}

/// Every legal value of every modifier against every other.
#[test]
fn values_of_modifiers() {
    let mut comparer = Comparer::new(604);
    let mut pairs = 0;
    for number in 0..ROW_COUNT as u8 {
        let at = |low, value| Parts::<u64>::single(&with(on_r0(number), low, value));
        for (low, modifier) in MODIFIER_BITS.iter().zip(ROWS[number as usize].modifiers) {
            let legal: Vec<u8> = (0..16).filter(|value| modifier.legal >> value & 1 != 0).collect();
            for (k, a) in legal.iter().enumerate() {
                for b in &legal[k + 1..] {
                    let only = line(What::Modifier(*low), 0, u64::from(*a), u64::from(*b));
                    assert_eq!(compare(&mut comparer, &at(*low, *a), &at(*low, *b)), [only]);
                    pairs += 1;
                }
            }
        }
    }
    assert!(pairs > 1_000, "{pairs}");
}

/// Register and half mask are one field.
#[test]
fn destinations() {
    let mut comparer = Comparer::new(605);
    let mov = plain("MOV.i32");
    let first = Parts::<u64>::single(&Instruction { register: 9, half_mask: 2, ..mov });
    for half_mask in 1..=3 {
        for register in 0..64 {
            let second = Parts::<u64>::single(&Instruction { register, half_mask, ..mov });
            let content = u64::from(register) + 64 * u64::from(half_mask);
            let only = (content != 137).then_some(line(What::Destination, 0, 137, content));
            assert_eq!(compare(&mut comparer, &first, &second), Vec::from_iter(only));
        }
    }
}

/// Each row against each, with fields that only one of them has and fields that they share.
#[test]
fn other_rows() {
    let mut comparer = Comparer::new(606);
    let mut rng = Rng::new(607);
    let mut seen = [0; 22];
    for first in 0..ROW_COUNT as u8 {
        for second in 0..first {
            let parts = Parts::<u64>::random(&mut rng, 1);
            let a = parts.with(0, &instruction(&mut rng, first));
            let b = parts.with(0, &instruction(&mut rng, second));
            let list = compare(&mut comparer, &a, &b);
            assert_eq!(list[0], line(What::Row, 0, first.into(), second.into()));
            for (what, seen) in order().iter().zip(&mut seen) {
                *seen += u32::from(list.iter().any(|line| line.what == *what));
            }
        }
    }
    assert!(seen.iter().all(|times| *times > 20), "{seen:?}");
}

/// Modifiers of two rows with the same lowest bit are one field, whatever their names and widths.
#[test]
fn shared_modifier_bits() {
    let mut comparer = Comparer::new(608);
    // Condition, clamp and mux at bit 32; swizzle, negate and eq at bit 36.
    let cases: [(Instruction, Instruction, &[Difference]); 6] = [
        (with(plain("CSEL.f32"), 32, 3), with(plain("MUX.i32"), 32, 3), &[]),
        (with(plain("CSEL.f32"), 32, 5), with(plain("MUX.i32"), 32, 1), &[line(What::Modifier(32), 0, 5, 1)]),
        (
            with(plain("DISCARD.f32"), 32, 4),
            with(plain("FADD.f32"), 32, 0),
            &[line(What::Destination, 0, 0, 0xC0), line(What::Modifier(32), 0, 4, 0)],
        ),
        // Four bits against one: the other three are fields of their own, which IABS lacks.
        (
            with(plain("IABS.v2s16"), 36, 3),
            with(with(plain("FADD.f32"), 36, 1), 37, 1),
            &[line(What::Modifier(36), 0, 3, 1), line(What::Modifier(37), 0, 0, 1)],
        ),
        (with(plain("IABS.s32"), 36, 0), with(plain("FADD.f32"), 36, 0), &[]),
        // Three bits at 37 and one at 36 against four at 36.
        (
            with(with(plain("BRANCHZ"), 36, 1), 37, 4),
            with(plain("IABS.v2s16"), 36, 9),
            &[
                line(What::Destination, 0, 0, 0xC0),
                line(What::Modifier(36), 0, 1, 9),
                line(What::Modifier(37), 0, 4, 0),
            ],
        ),
    ];
    for (first, second, rest) in cases {
        let list = compare(&mut comparer, &Parts::<u64>::single(&first), &Parts::<u64>::single(&second));
        let rows = line(What::Row, 0, first.row.into(), second.row.into());
        assert_eq!(list, [&[rows], rest].concat(), "{first:?} {second:?}");
    }
}

/// The offset's raw 27 bits and FLUSH's NaN mode are one field; ftz and flush_inf are others,
/// though they stand where the offset does.
#[test]
fn offset_against_nan_mode() {
    let mut comparer = Comparer::new(609);
    let offsets = [
        (0, 0),
        (1, 1),
        (2, 2),
        (4, 4),
        (0x1234, 0x1234),
        (67_108_863, 0x3FF_FFFF),
        (-67_108_864, 0x400_0000),
        (-1, 0x7FF_FFFF),
        (-2, 0x7FF_FFFE),
    ];
    for name in ["FLUSH.f32", "FLUSH.v2f16"] {
        for (offset, raw) in offsets {
            for fields in 0..12 {
                let (mode, ftz, infinity) = (fields % 3, fields / 3 % 2, fields / 6);
                let flush = with(with(with(plain(name), 8, mode), 10, ftz), 11, infinity);
                let branch = Instruction { offset, ..plain("BRANCHZ") };
                let list = compare(&mut comparer, &Parts::<u64>::single(&branch), &Parts::<u64>::single(&flush));
                let mut wanted = vec![
                    line(What::Row, 0, 1, row(name).into()),
                    line(What::Destination, 0, 0, 0xC0),
                    line(What::Modifier(8), 0, raw, mode.into()),
                    line(What::Modifier(10), 0, 0, ftz.into()),
                    line(What::Modifier(11), 0, 0, infinity.into()),
                    line(What::Modifier(28), 0, 0, flush.modifiers[5].into()),
                ];
                wanted.retain(|line| line.first != line.second);
                assert_eq!(list, wanted, "{offset} {flush:?}");
            }
        }
    }
}

/// The extra instructions, also where their words are 0, and not their notes.
fn longer_by_one_and_by_many<S: Set>() {
    let mut comparer = Comparer::new(610);
    let mut rng = Rng::new(611);
    for (short, extra) in [(1, 1), (1, 2), (3, 1), (7, 20), (30, 300), (2047, 1), (1, 2047), (1000, 1048)] {
        for nops in [false, true] {
            let mut long = Parts::<S>::random(&mut rng, short + extra);
            if nops {
                long.words[short..].fill(0);
            }
            let list = compare(&mut comparer, &long.shortened(short), &long);
            let added = |index| line(What::Added, index, 0, long.words[index]);
            assert_eq!(list, Vec::from_iter((short..short + extra).map(added)));
            let list = compare(&mut comparer, &long, &long.shortened(short));
            let removed = |index| line(What::Removed, index, long.words[index], 0);
            assert_eq!(list, Vec::from_iter((short..short + extra).map(removed)));
        }
    }
}

/// The set of one bit of a set's bytes.
fn single<S: Set>(bit: usize) -> S {
    let mut bytes = vec![0; S::BYTES];
    bytes[bit / 8] = 1 << (bit % 8);
    S::load(&bytes)
}

fn only_the_entry_set<S: Set>() {
    let mut comparer = Comparer::new(612);
    let mut rng = Rng::new(613);
    for bit in 0..8 * S::BYTES {
        let count = 1 + rng.below(5);
        let first = Parts::<S>::random(&mut rng, count);
        for entry in [first.entry ^ single(bit), S::random(&mut rng)] {
            let mut only = set_lines(What::Entry, 0, first.entry, entry);
            only.retain(|line| line.first != line.second);
            assert_eq!(compare(&mut comparer, &first, &Parts { entry, ..first.clone() }), only);
        }
    }
}

fn only_notes<S: Set>() {
    let mut comparer = Comparer::new(614);
    let mut rng = Rng::new(615);
    for bit in 0..8 * S::BYTES {
        let count = 1 + rng.below(9);
        let first = Parts::<S>::random(&mut rng, count);
        let mut second = first.clone();
        let index = rng.below(count);
        second.notes[index] = first.notes[index] ^ single(bit);
        let mut only = set_lines(What::Note, index, first.notes[index], second.notes[index]);
        only.retain(|line| line.first != line.second);
        assert_eq!(only.len(), 1);
        assert_eq!(compare(&mut comparer, &first, &second), only);
        second.notes.fill_with(|| S::random(&mut rng));
        let all = (0..count).flat_map(|index| set_lines(What::Note, index, first.notes[index], second.notes[index]));
        assert_eq!(compare(&mut comparer, &first, &second), Vec::from_iter(all));
    }
}

/// Comparing opens and reads; it checks nothing.
#[test]
fn parcels_that_a_check_refuses() {
    let mut comparer = Comparer::new(616);
    // MOV.i32 r1, r2, which reads an unheld register and runs off the end.
    let first = Parts { entry: 0, words: vec![0x0091_C100_0000_0002], notes: vec![u64::MAX] };
    let second = Parts { notes: vec![0], ..first.clone() };
    assert_ne!(vsp::check(&first.bytes()), vsp::Verdict::Accepted);
    assert_ne!(vsp::check(&second.bytes()), vsp::Verdict::Accepted);
    assert_eq!(compare(&mut comparer, &first, &first), []);
    assert_eq!(compare(&mut comparer, &first, &second), [line(What::Note(None), 0, u64::MAX, 0)]);
}

/// Parcels that don't open or read, each with its refusal and its index.
fn unread_parcels<S: Set>(rng: &mut Rng) -> Vec<(Vec<u8>, Refusal, usize)> {
    let good = Parts::<S>::random(rng, 5).bytes();
    let damaged = |at: usize, byte: u8| {
        let mut bytes = good.clone();
        bytes[at] = byte;
        bytes
    };
    let mut parcels = vec![
        (Vec::new(), Refusal::Size, 0),
        (good[..15].to_vec(), Refusal::Size, 0),
        (good[..good.len() - 1].to_vec(), Refusal::Size, 0),
        ([&good[..], &[0]].concat(), Refusal::Size, 0),
        (damaged(6, 0), Refusal::Size, 0),
        (parcel_of(S::NONE, &[0; 2049], &[S::NONE; 2049]), Refusal::Size, 0),
        (good[..S::HEADER - 1].to_vec(), Refusal::Size, 0),
        (with_version(&good, 3 - u16::from(S::VERSION)), Refusal::Size, 0),
        (with_version(&good, 3), Refusal::Version, 0),
        (damaged(1, b's'), Refusal::Mark, 0),
        (damaged(4, 1), Refusal::Version, 0),
        (damaged(5, 1), Refusal::ReservedByte, 0),
    ];
    for number in 2..=7 {
        let count = 1 + rng.below(300);
        let mut parts = Parts::<S>::random(rng, count);
        let index = rng.below(count);
        let (word, refusal) = refused_word(rng, number);
        parts.words[index] = word;
        // Later words may be refused for something else.
        for later in index + 1..count {
            if rng.percent(20) {
                parts.words[later] = refused_word(rng, 2 + (number + 1) % 6).0;
            }
        }
        parcels.push((parts.bytes(), refusal, index));
    }
    parcels
}

/// One or both refused, in the same way or in others: the first parcel comes first.
fn refusals<S: Set>() {
    let mut comparer = Comparer::new(617);
    let mut rng = Rng::new(618);
    for _ in 0..4 {
        let good = Parts::<S>::random(&mut rng, 40).bytes();
        let unread = unread_parcels::<S>(&mut rng);
        for (first, refusal, index) in &unread {
            let answer = |side| Err(Unread { side, refusal: *refusal, index: *index as u16 });
            assert_eq!(comparer.compare(first, &good), answer(Side::First));
            assert_eq!(comparer.compare(&good, first), answer(Side::Second));
            for (second, ..) in &unread {
                assert_eq!(comparer.compare(first, second), answer(Side::First));
            }
        }
    }
}

/// The code of a refusal, digit by digit.
#[test]
fn code_of_a_refusal() {
    let good = parcel(0, &[0; 4], &[0; 4]);
    // ICMP_OR.u32 with condition 6.
    let bad = parcel(0, &[0, 0, 0, 0x00F0_C006_0002_0100], &[0; 4]);
    let mut line = [7; 3];
    for k in [0, 1, 255, 1 << 32, usize::MAX] {
        assert_eq!(vsp::raw::diff_line(&bad, &good, k, &mut line), 0x0001_0040_0003_2006);
        assert_eq!(vsp::raw::diff_line(&good, &bad, k, &mut line), 0x0002_0040_0003_2006);
        assert_eq!(vsp::raw::diff_line(&bad, &[], k, &mut line), 0x0001_0040_0003_2006);
        assert_eq!(vsp::raw::diff_line(&[], &bad, k, &mut line), 0x0001_0040_0000_000C);
        assert_eq!(vsp::raw::diff_line(&good, &[], k, &mut line), 0x0002_0040_0000_000C);
        assert_eq!(vsp::raw::diff_line(&good, &good, k, &mut line), 255);
        assert_eq!(vsp::raw::diff_line(&good, &with_version(&good, 3), k, &mut line), 0x0002_0040_0000_000B);
        assert_eq!(vsp::raw::diff_line(&with_version(&good, 2), &bad, k, &mut line), 0x0001_0040_0000_000C);
    }
    assert_eq!(line, [7; 3]);
}

/// The numbers of lines, digit by digit: what, which, index.
#[test]
fn numbers_of_lines() {
    let first = parcel(4, &[0; 3], &[0, 0, 1]);
    let second = parcel_2([5, 6], &[0; 3], &[[0, 0], [0, 0], [2, 3]]);
    let lines = [[0x0A, 1, 2], [0x0108, 4, 5], [0x0208, 4, 6], [0x0002_0109, 1, 2], [0x0002_0209, 1, 3]];
    let mut line = [7; 3];
    for (k, numbers) in lines.into_iter().enumerate() {
        assert_eq!(vsp::raw::diff_line(&first, &second, k, &mut line), 0);
        assert_eq!(line, numbers);
    }
    assert_eq!(vsp::raw::diff_line(&first, &second, 5, &mut line), 255);
    let mut room = vec![[7; 3]; vsp::DIFF_LINES];
    let answer = vsp::raw::diff_lines(&first, &second, room.first_chunk_mut().unwrap());
    assert_eq!((answer, &room[..6]), (0x0005_0000, &[&lines[..], &[[7; 3]]].concat()[..]));
    let third = parcel(5, &[0; 3], &[0, 0, 2]);
    for (k, numbers) in [[0x08, 4, 5], [0x0002_0009, 1, 2]].into_iter().enumerate() {
        assert_eq!(vsp::raw::diff_line(&first, &third, k, &mut line), 0);
        assert_eq!(line, numbers);
    }
    assert_eq!(vsp::DIFF_LINES, 49_155);
}

fn random_pairs<S: Set>() {
    let mut comparer = Comparer::new(619);
    let mut rng = Rng::new(620);
    for _ in 0..1_000 {
        let (n, m) = (1 + rng.below(12), 1 + rng.below(12));
        let first = Parts::<S>::random(&mut rng, n);
        let second = Parts::<S>::random(&mut rng, m);
        let list = compare(&mut comparer, &first, &second);
        let extra = list.iter().filter(|line| matches!(line.what, What::Added | What::Removed)).count();
        assert_eq!(extra, n.abs_diff(m));
        let notes = list.iter().filter(|line| matches!(line.what, What::Note(_))).count();
        assert_eq!(notes, n.min(m) * S::BYTES / 8);
    }
}

/// A version 1 parcel and one of version 2: the versions come first, and each set has a line for
/// either half.
#[test]
fn other_versions() {
    let mut comparer = Comparer::new(631);
    let mut rng = Rng::new(632);
    for _ in 0..1_000 {
        let (n, m) = (1 + rng.below(12), 1 + rng.below(12));
        let first = Parts::<u64>::random(&mut rng, n);
        let second = Parts::<u128>::random(&mut rng, m);
        let list = compare(&mut comparer, &first, &second);
        assert_eq!(list[0], line(What::Version, 0, 1, 2));
        let count = |what: fn(&What) -> bool| list.iter().filter(|line| what(&line.what)).count();
        assert_eq!(count(|what| *what == What::Version), 1);
        assert_eq!(count(|what| matches!(what, What::Entry(Some(_)))), 2);
        assert_eq!(count(|what| matches!(what, What::Note(Some(_)))), 2 * n.min(m));
        assert_eq!(count(|what| matches!(what, What::Entry(None) | What::Note(None))), 0);
    }
}

/// The same program in both versions, its sets with both halves; then with one half changed.
#[test]
fn only_the_version() {
    let mut comparer = Comparer::new(633);
    let mut rng = Rng::new(634);
    let versions = line(What::Version, 0, 1, 2);
    for count in (1..=30).chain([255, 2047, 2048]) {
        let first = Parts::<u64>::random(&mut rng, count);
        let both = |set: u64| u128::from_halves([set; 2]);
        let notes = first.notes.iter().map(|note| both(*note)).collect();
        let second = Parts { entry: both(first.entry), words: first.words.clone(), notes };
        assert_eq!(compare(&mut comparer, &first, &second), [versions]);
        for (half_mask, half) in [(1, Half::Low), (2, Half::High)] {
            let (register, index) = (rng.below(64) as u8, rng.below(count));
            let bit = 1 << register;
            let mut other = second.clone();
            other.notes[index] ^= u128::filled(register, half_mask);
            let note = line(What::Note(Some(half)), index, first.notes[index], first.notes[index] ^ bit);
            assert_eq!(compare(&mut comparer, &first, &other), [versions, note]);
            other.entry ^= u128::filled(register, half_mask);
            let entry = line(What::Entry(Some(half)), 0, first.entry, first.entry ^ bit);
            assert_eq!(compare(&mut comparer, &first, &other), [versions, entry, note]);
        }
    }
}

/// As many instructions as there may be, in the one version and in the other.
#[test]
fn longest_parcels_of_other_versions() {
    let mut comparer = Comparer::new(635);
    let mut rng = Rng::new(636);
    for (n, m) in [(2048, 2048), (2048, 1), (1, 2048)] {
        let first = Parts::<u64>::random(&mut rng, n);
        let second = Parts::<u128>::random(&mut rng, m);
        let list = compare(&mut comparer, &first, &second);
        assert!(list.len() > 2_000, "{}", list.len());
        let (a, b) = (first.bytes(), second.bytes());
        for k in (0..list.len()).step_by(557) {
            comparer.compare_line(&a, &b, k, &Ok(list.clone()));
        }
    }
}

/// One version or the other refused, or both: the first parcel comes first.
#[test]
fn refusals_of_other_versions() {
    let mut comparer = Comparer::new(637);
    let mut rng = Rng::new(638);
    let good = [Parts::<u64>::random(&mut rng, 9).bytes(), Parts::<u128>::random(&mut rng, 9).bytes()];
    let unread = [unread_parcels::<u64>(&mut rng), unread_parcels::<u128>(&mut rng)];
    for (mine, other) in [(0, 1), (1, 0)] {
        for (first, refusal, index) in &unread[mine] {
            let answer = |side| Err(Unread { side, refusal: *refusal, index: *index as u16 });
            assert_eq!(comparer.compare(first, &good[other]), answer(Side::First));
            assert_eq!(comparer.compare(&good[other], first), answer(Side::Second));
            for (second, ..) in &unread[other] {
                assert_eq!(comparer.compare(first, second), answer(Side::First));
            }
        }
    }
}

/// A few things changed: words, notes, the entry set, the length.
fn changed_parcels<S: Set>() {
    let mut comparer = Comparer::new(621);
    let mut rng = Rng::new(622);
    let mut equal = 0;
    for _ in 0..1_000 {
        let count = 2 + rng.below(20);
        let first = Parts::<S>::random(&mut rng, count);
        let mut second = first.clone();
        for _ in 0..rng.below(4) {
            let index = rng.below(count);
            match rng.below(4) {
                0 => second.words[index] = any_word(&mut rng),
                1 => second.notes[index] = second.notes[index] ^ S::random(&mut rng) & S::random(&mut rng),
                2 => second.entry = second.entry ^ S::ALL.member(&mut rng),
                _ => second.words.swap(index, 0),
            }
        }
        if rng.percent(20) {
            second = second.shortened(1 + rng.below(count));
        }
        equal += u32::from(compare(&mut comparer, &first, &second).is_empty());
    }
    assert!((50..500).contains(&equal), "{equal}");
}

/// One to three bits flipped anywhere: refused, or something is listed.
fn flipped_bits<S: Set>() {
    let mut comparer = Comparer::new(623);
    let mut rng = Rng::new(624);
    let (mut refused, mut listed) = (0, 0);
    for _ in 0..2_000 {
        let count = 1 + rng.below(6);
        let first = Parts::<S>::random(&mut rng, count).bytes();
        let mut second = first.clone();
        for _ in 0..1 + rng.below(3) {
            let at = rng.below(second.len());
            second[at] ^= 1 << rng.below(8);
        }
        match comparer.compare(&first, &second) {
            Ok(list) => {
                assert_eq!(list.is_empty(), first == second);
                listed += 1;
            }
            Err(unread) => {
                assert_eq!(unread.side, Side::Second);
                refused += 1;
            }
        }
    }
    assert!(refused > 500 && listed > 500, "{refused} refused, {listed} listed");
}

/// As many instructions as there may be, all different, and some of the lines one by one.
fn longest_parcels<S: Set>() {
    let mut comparer = Comparer::new(625);
    let mut rng = Rng::new(626);
    for _ in 0..3 {
        let first = Parts::<S>::random(&mut rng, 2048);
        let mut second = Parts::<S>::random(&mut rng, 2048);
        for (a, b) in first.words.iter().zip(&mut second.words) {
            while a == b {
                *b = any_word(&mut rng);
            }
        }
        let list = compare(&mut comparer, &first, &second);
        let touched: HashSet<u16> =
            list.iter().filter(|line| !matches!(line.what, What::Note(_))).map(|line| line.index).collect();
        assert_eq!(touched.len(), 2048);
        assert!(list.len() > 15_000, "{}", list.len());
        let (a, b) = (first.bytes(), second.bytes());
        for k in (0..list.len()).step_by(257) {
            comparer.compare_line(&a, &b, k, &Ok(list.clone()));
        }
    }
}

/// Parcels that start at any address.
fn any_alignment<S: Set>() {
    let mut comparer = Comparer::new(627);
    let mut rng = Rng::new(628);
    for start in 0..8 {
        for other in 0..8 {
            let first = Parts::<S>::random(&mut rng, 3);
            let second = Parts::<S>::random(&mut rng, 4);
            let a = [&[0xFF; 8][..start], &first.bytes()].concat();
            let b = [&[0xFF; 8][..other], &second.bytes()].concat();
            assert_eq!(comparer.compare(&a[start..], &b[other..]), Ok(expected(&first, &second)));
        }
    }
}

/// Two small parcels, one the approved one, that differ in everything there is.
fn small_parcels() -> [Parts; 2] {
    // MOV.i32 r1, r2; POPCOUNT.i32 r3, r4 released; BRANCHZ on constant 0 by -1; NOP with `end`.
    let approved = Parts {
        entry: 0x4,
        words: vec![0x0091_C100_0000_0002, 0x0091_C300_000C_0044, 0x001F_0007_FFFF_FFC0, 0x7800_0000_0000_0000],
        notes: vec![0x4, 0x6, 0xA, 0x0],
    };
    // MOV.i32 r1, uniform 69; FADD.f32 r0, r1, minus r2; FLUSH.f32 r2, r0 released, with NaN mode
    // 1; NOP; NOP with `end`.
    let delivered = Parts {
        entry: 0x6,
        words: vec![
            0x0291_C100_0000_0085,
            0x00A4_C010_0000_0201,
            0x0098_C200_0000_0140,
            0x0000_0000_0000_0000,
            0x7800_0000_0000_0000,
        ],
        notes: vec![0x6, 0x6, 0xA, 0x8, 0xFF],
    };
    [approved, delivered]
}

/// What differs between them, worked out by hand.
const SMALL: &str = "\
0000 page: 0 1
0000 source 0: 2 85
0001 row: 37 53
0001 destination: C3 C0
0001 source 0: 44 1
0001 source 1: 0 2
0001 modifier 36: 0 1
0002 row: 1 40
0002 destination: 0 C2
0002 source 0: C0 40
0002 modifier 8: 7FFFFFF 1
0003 flow: F 0
0004 added: 0 7800000000000000
0000 entry set: 4 6
0000 note: 4 6
0003 note: 0 8
";

/// The same the other way round.
const SMALL_BACK: &str = "\
0000 page: 1 0
0000 source 0: 85 2
0001 row: 53 37
0001 destination: C0 C3
0001 source 0: 1 44
0001 source 1: 2 0
0001 modifier 36: 1 0
0002 row: 40 1
0002 destination: C2 0
0002 source 0: 40 C0
0002 modifier 8: 1 7FFFFFF
0003 flow: 0 F
0004 removed: 7800000000000000 0
0000 entry set: 6 4
0000 note: 6 4
0003 note: 8 0
";

fn name_of(half: Option<vsp::Half>) -> &'static str {
    match half {
        None => "",
        Some(vsp::Half::Low) => " low",
        Some(vsp::Half::High) => " high",
    }
}

/// The lines as the C example prints them.
fn text(lines: &[vsp::Difference]) -> String {
    let print = |line: &vsp::Difference| {
        let what = match line.what {
            vsp::What::Version => "version".to_string(),
            vsp::What::Row => return format!("{:04} row: {} {}\n", line.index, line.first, line.second),
            vsp::What::Page => "page".to_string(),
            vsp::What::Flow => "flow".to_string(),
            vsp::What::Destination => "destination".to_string(),
            vsp::What::Source(index) => format!("source {index}"),
            vsp::What::Modifier(low) => format!("modifier {low}"),
            vsp::What::Added => "added".to_string(),
            vsp::What::Removed => "removed".to_string(),
            vsp::What::Entry(half) => format!("entry set{}", name_of(half)),
            vsp::What::Note(half) => format!("note{}", name_of(half)),
        };
        format!("{:04} {what}: {:X} {:X}\n", line.index, line.first, line.second)
    };
    lines.iter().map(print).collect()
}

#[test]
fn small_example() {
    let mut comparer = Comparer::new(629);
    let [approved, delivered] = small_parcels();
    compare(&mut comparer, &approved, &delivered);
    let list = vsp::differences(&approved.bytes(), &delivered.bytes()).unwrap();
    assert_eq!(text(&list), SMALL);
    let list = vsp::differences(&delivered.bytes(), &approved.bytes()).unwrap();
    assert_eq!(text(&list), SMALL_BACK);
}

/// The delivered one in version 2, with other high halves; the approved one with both halves.
fn small_parcels_2() -> [Parts<u128>; 2] {
    let [approved, delivered] = small_parcels();
    let halves = |sets: &[[u64; 2]]| sets.iter().map(|set| u128::from_halves(*set)).collect();
    let notes = halves(&[[0x4; 2], [0x6; 2], [0xA; 2], [0x0; 2]]);
    let approved = Parts { entry: u128::from_halves([0x4; 2]), words: approved.words, notes };
    let notes = halves(&[[0x6, 0x4], [0x6, 0x2], [0xA, 0xA], [0x8, 0x0], [0xFF, 0x1]]);
    [approved, Parts { entry: u128::from_halves([0x6, 0x4]), words: delivered.words, notes }]
}

/// What differs in the sets, worked out by hand; in the words it is as in version 1.
const SMALL_SETS: &str = "\
0000 entry set low: 4 6
0000 note low: 4 6
0001 note high: 6 2
0003 note low: 0 8
";

/// The same the other way round.
const SMALL_SETS_BACK: &str = "\
0000 entry set low: 6 4
0000 note low: 6 4
0001 note high: 2 6
0003 note low: 8 0
";

/// The lists of the approved parcel, in either version, and the delivered one of version 2.
fn small_lists() -> [(Vec<u8>, Vec<u8>, String); 4] {
    let old = small_parcels()[0].bytes();
    let [approved, delivered] = small_parcels_2().map(|parts| parts.bytes());
    let words = |list: &str| list.lines().take(13).map(|line| format!("{line}\n")).collect::<String>();
    let (there, back) = (words(SMALL) + SMALL_SETS, words(SMALL_BACK) + SMALL_SETS_BACK);
    [
        (old.clone(), delivered.clone(), format!("0000 version: 1 2\n{there}")),
        (delivered.clone(), old, format!("0000 version: 2 1\n{back}")),
        (approved.clone(), delivered.clone(), there),
        (delivered, approved, back),
    ]
}

#[test]
fn small_example_of_version_2() {
    for (first, second, list) in small_lists() {
        assert_eq!(text(&vsp::differences(&first, &second).unwrap()), list);
    }
}

/// A file with these bytes beside the program.
fn file(program: &Path, name: &str, bytes: &[u8]) -> PathBuf {
    let file = program.with_extension(name);
    std::fs::write(&file, bytes).unwrap();
    file
}

/// The C example on two parcels, and a number perhaps.
fn diff(program: &Path, first: &[u8], second: &[u8], k: &[&str]) -> Output {
    let files = [file(program, "first", first), file(program, "second", second)];
    Command::new(program).args(files).args(k).output().unwrap()
}

fn assert_output(output: &Output, status: i32, stdout: &str, stderr: &str) {
    assert_eq!(String::from_utf8_lossy(&output.stdout), stdout);
    assert_eq!(String::from_utf8_lossy(&output.stderr), stderr);
    assert_eq!(output.status.code(), Some(status));
}

/// The C example: the list, and its lines one by one.
#[test]
fn listed_by_the_c_example() {
    let program = compile("diff.c", "diff");
    let [approved, delivered] = small_parcels().map(|parts| parts.bytes());
    for (first, second, list) in [(&approved, &delivered, SMALL), (&delivered, &approved, SMALL_BACK)] {
        assert_output(&diff(&program, first, second, &[]), 1, list, "");
        assert_output(&diff(&program, first, first, &[]), 0, "", "");
        for (k, line) in list.lines().enumerate() {
            assert_output(&diff(&program, first, second, &[&k.to_string()]), 1, &format!("{line}\n"), "");
        }
        for k in ["16", "17", "49155", "18446744073709551615"] {
            assert_output(&diff(&program, first, second, &[k]), 0, "", "");
        }
    }
    for (first, second, list) in small_lists() {
        assert_output(&diff(&program, &first, &second, &[]), 1, &list, "");
        for (k, line) in list.lines().enumerate() {
            assert_output(&diff(&program, &first, &second, &[&k.to_string()]), 1, &format!("{line}\n"), "");
        }
        for k in ["18", "49155"] {
            assert_output(&diff(&program, &first, &second, &[k]), 0, "", "");
        }
    }
    let mut rng = Rng::new(630);
    for (n, m) in [(2048, 2048), (2048, 1), (1, 2048)] {
        let one = [n, m].map(|count| Parts::<u64>::random(&mut rng, count).bytes());
        let two = [n, m].map(|count| Parts::<u128>::random(&mut rng, count).bytes());
        for (first, second) in [(&one[0], &one[1]), (&two[0], &two[1]), (&one[0], &two[1]), (&two[0], &one[1])] {
            let list = vsp::differences(first, second).unwrap();
            assert_output(&diff(&program, first, second, &[]), 1, &text(&list), "");
        }
    }
}

/// Refused parcels, files that can't be read, wrong calls, an output that is full or closed.
#[test]
fn troubles_of_the_c_example() {
    let program = compile("diff.c", "diff-troubles");
    let [good, other] = small_parcels().map(|parts| parts.bytes());
    let bad = parcel(0, &[0, 0x00F0_C006_0002_0100], &[0; 2]);
    let long = vec![b'V'; 40_000];
    let name = |end| program.with_extension(end).display().to_string();
    let (first, second) = (name("first"), name("second"));
    for k in [&[][..], &["0"], &["99"]] {
        let refused = format!("diff: {first}: refused 6 place 32 index 1 register 64\n");
        assert_output(&diff(&program, &bad, &long, k), 2, "", &refused);
        let refused = format!("diff: {second}: refused 6 place 32 index 1 register 64\n");
        assert_output(&diff(&program, &good, &bad, k), 2, "", &refused);
        let refused = format!("diff: {second}: refused 10 place 0 index 0 register 64\n");
        assert_output(&diff(&program, &good, &long, k), 2, "", &refused);
        let refused = format!("diff: {first}: refused 12 place 0 index 0 register 64\n");
        assert_output(&diff(&program, &good[..15], &good, k), 2, "", &refused);
    }
    let run = |arguments: &[&str]| Command::new(&program).args(arguments).output().unwrap();
    let missing = name("missing");
    assert_output(&run(&[&missing, &second]), 2, "", &format!("diff: can't read {missing}\n"));
    assert_output(&run(&[&first, &missing]), 2, "", &format!("diff: can't read {missing}\n"));
    let usage = "usage: diff APPROVED DELIVERED [K]\n";
    let wrong: [&[&str]; 7] =
        [&[], &["a"], &["a", "b", ""], &["a", "b", "-1"], &["a", "b", "1x"], &["a", "b", "1", "2"], &["a", "b", " 1"]];
    for arguments in wrong {
        assert_output(&run(arguments), 2, "", usage);
    }
    assert_output(&run(&["a", "b", "18446744073709551616"]), 2, "", usage);
    let (first, second) = (file(&program, "first", &good), file(&program, "second", &other));
    for redirection in [">/dev/full", ">&-"] {
        let script = format!("exec \"$0\" \"$1\" \"$2\" {redirection}");
        let arguments = [&program, &first, &second];
        let output = Command::new("sh").arg("-c").arg(script).args(arguments).output().unwrap();
        assert_output(&output, 2, "", "diff: can't write standard output\n");
    }
}
