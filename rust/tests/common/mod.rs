//! Each function of the library beside the reference: codes, results, and memory afterwards.
#![allow(dead_code)]

use inputs::{Rng, Set, parcel_of};
use reference::{
    Difference, Fault, Half, Instruction, NotRun, ROWS, Refusal, Registers, Replayed, Side, Unread, Verdict, What,
};
use std::path::{Path, PathBuf};
use std::process::Command;
use vsp::{DIFF_LINES, FORM, Form, NAME, TEXT, raw};

/// Room on both sides of a lent buffer, to see writes that go astray.
const MARGIN: usize = 16;

/// How often each number was given; index 0 counts what was accepted.
pub struct Tally([u64; 256]);

impl Tally {
    pub fn new() -> Tally {
        Tally([0; 256])
    }

    pub fn count(&mut self, code: u64) {
        self.0[code as u8 as usize] += 1;
    }

    pub fn total(&self) -> u64 {
        self.0.iter().sum()
    }

    /// Every one of these numbers was given at least so often.
    pub fn assert_seen(&self, numbers: &[u8], times: u64) {
        for number in numbers {
            let seen = self.0[*number as usize];
            assert!(seen >= times, "number {number} was given {seen} times, not {times}");
        }
    }

    /// Nothing but these numbers was given.
    pub fn assert_only(&self, numbers: &[u8]) {
        let others: u64 = (0..=255).filter(|number| !numbers.contains(number)).map(|n| self.0[n as usize]).sum();
        assert_eq!(others, 0, "answers other than {numbers:?}");
    }
}

/// Compiles a C example, with warnings as errors, under a name of the test's own.
pub fn compile(source: &str, name: &str) -> PathBuf {
    let root = Path::new(env!("CARGO_MANIFEST_DIR")).join("..");
    let program = PathBuf::from(env!("CARGO_TARGET_TMPDIR")).join(name);
    let compiler = std::env::var_os("CC").unwrap_or_else(|| "cc".into());
    let output = Command::new(compiler)
        .args(["-std=c99", "-pedantic", "-Wall", "-Wextra", "-Werror", "-O2", "-I"])
        .arg(root.join("include"))
        .arg(root.join("examples").join(source))
        .arg(env!("VSP_LIBRARY"))
        .arg("-o")
        .arg(&program)
        .output()
        .unwrap();
    assert!(output.status.success(), "{}", String::from_utf8_lossy(&output.stderr));
    program
}

/// Number + 2^8 place.
pub fn code(refusal: Refusal) -> u32 {
    u32::from(refusal.number()) | u32::from(refusal.place()) << 8
}

/// 0, or number + 2^8 place + 2^16 index + 2^32 register + 2^40 half.
pub fn verdict_code(verdict: Verdict) -> u64 {
    match verdict {
        Verdict::Accepted => 0,
        Verdict::Refused { refusal, index, register, half } => {
            let register = u64::from(register) | half_number(half) << 8;
            u64::from(code(refusal)) | u64::from(index) << 16 | register << 32
        }
    }
}

/// As documented for codes and for lines of differences.
fn half_number(half: Option<Half>) -> u64 {
    match half {
        None => 0,
        Some(Half::Low) => 1,
        Some(Half::High) => 2,
    }
}

/// 2^16 sweeps, or number + 2^8 place + 2^16 index + 2^32 register.
pub fn inference_code(answer: Result<u32, Fault>) -> u64 {
    match answer {
        Ok(sweeps) => u64::from(sweeps) << 16,
        Err(Fault { refusal, index, register }) => {
            verdict_code(Verdict::Refused { refusal, index, register, half: None })
        }
    }
}

/// Number + 2^8 place + 2^16 index + 2^32 register + 2^48 parcel.
pub fn unread_code(unread: &Unread) -> u64 {
    let parcel = match unread.side {
        Side::First => 1,
        Side::Second => 2,
    };
    u64::from(code(unread.refusal)) | u64::from(unread.index) << 16 | 64 << 32 | parcel << 48
}

/// The three numbers of a line as documented.
fn numbers(line: &Difference) -> raw::Line {
    let (what, which) = match line.what {
        What::Version => (10, 0),
        What::Row => (0, 0),
        What::Page => (1, 0),
        What::Flow => (2, 0),
        What::Destination => (3, 0),
        What::Source(index) => (4, index.into()),
        What::Modifier(low) => (5, low.into()),
        What::Added => (6, 0),
        What::Removed => (7, 0),
        What::Entry(half) => (8, half_number(half)),
        What::Note(half) => (9, half_number(half)),
    };
    [what | which << 8 | u64::from(line.index) << 16, line.first, line.second]
}

/// The form of an instruction, byte by byte as documented.
pub fn form(instruction: &Instruction) -> [u8; FORM] {
    let mut form = [0; FORM];
    form[0] = instruction.row;
    form[1] = instruction.page;
    form[2] = instruction.flow;
    form[3] = instruction.register;
    form[4] = instruction.half_mask;
    form[5..9].copy_from_slice(&instruction.sources);
    form[9..23].copy_from_slice(&instruction.modifiers);
    form[24..28].copy_from_slice(&instruction.offset.to_le_bytes());
    form
}

/// The instruction of a form. Padding is passed over.
fn instruction(form: &[u8; FORM]) -> Instruction {
    Instruction {
        row: form[0],
        page: form[1],
        flow: form[2],
        register: form[3],
        half_mask: form[4],
        sources: form[5..9].try_into().unwrap(),
        modifiers: form[9..23].try_into().unwrap(),
        offset: i32::from_le_bytes(form[24..28].try_into().unwrap()),
    }
}

/// What writing a form must answer: the paper's order, with padding counted among 9.
fn expected_write(bytes: &[u8; FORM], length: usize) -> Result<[u8; 8], Refusal> {
    let padded = bytes[23] != 0 || bytes[28..] != [0; 4];
    let mut word = [0; 8];
    match reference::write(&instruction(bytes), &mut word) {
        _ if length != 8 => Err(Refusal::BufferLength),
        Err(Refusal::NoRow) => Err(Refusal::NoRow),
        _ if padded => Err(Refusal::FieldRange),
        answer => answer.map(|()| word),
    }
}

/// A buffer of random bytes, and where in it the lent part is.
fn memory(rng: &mut Rng, length: usize) -> (Vec<u8>, std::ops::Range<usize>) {
    let bytes = (0..MARGIN + length + MARGIN).map(|_| rng.byte()).collect();
    (bytes, MARGIN..MARGIN + length)
}

fn lent_form(memory: &mut [u8]) -> &mut [u8; FORM] {
    memory.try_into().unwrap()
}

fn from_refusal(refusal: Refusal) -> vsp::Refusal {
    vsp::Refusal { number: refusal.number(), place: refusal.place() }
}

/// Reads the bytes with both; gives back the code.
pub fn compare_read(rng: &mut Rng, word: &[u8]) -> u32 {
    let expected = reference::read(word);
    let (mut bytes, part) = memory(rng, FORM);
    let mut after = bytes.clone();
    if let Ok(instruction) = &expected {
        after[part.clone()].copy_from_slice(&form(instruction));
    }
    let answer = raw::read(word, lent_form(&mut bytes[part]));
    assert_eq!(answer, expected.map_or_else(code, |_| 0), "reading {word:02X?}");
    assert_eq!(bytes, after, "the form after reading {word:02X?}");
    let safe = vsp::read(word).map(|form| form.to_bytes());
    assert_eq!(safe, expected.map(|i| form(&i)).map_err(from_refusal), "reading {word:02X?}");
    answer
}

/// Reads a word with both and, where it reads, writes it back.
pub fn compare_word(rng: &mut Rng, word: u64) -> u32 {
    let bytes = word.to_le_bytes();
    let answer = compare_read(rng, &bytes);
    if let Ok(form) = vsp::read(&bytes) {
        let mut back = [rng.byte(); 8];
        assert_eq!(vsp::write(&form, &mut back), Ok(()), "writing back {word:016X}");
        assert_eq!(back, bytes, "writing back {word:016X}");
    }
    answer
}

/// Writes a form into a buffer of this length with both; gives back the code.
pub fn compare_write(rng: &mut Rng, form: &[u8; FORM], length: usize) -> u32 {
    let expected = expected_write(form, length);
    let (mut bytes, part) = memory(rng, length);
    let mut after = bytes.clone();
    if let Ok(word) = expected {
        after[part.clone()].copy_from_slice(&word);
    }
    let mut safe = bytes.clone();
    let answer = raw::write(form, &mut bytes[part.clone()]);
    assert_eq!(answer, expected.map_or_else(code, |_| 0), "writing {form:02X?} into {length} bytes");
    assert_eq!(bytes, after, "the buffer of {length} bytes after writing {form:02X?}");
    let typed = Form::from_bytes(form);
    if typed.to_bytes() == *form {
        let answer = vsp::write(&typed, &mut safe[part]);
        assert_eq!(answer, expected.map(|_| ()).map_err(from_refusal), "writing {form:02X?}");
        assert_eq!(safe, after, "the buffer of {length} bytes after writing {form:02X?}");
    }
    if let Ok(word) = expected {
        assert_eq!(vsp::read(&word), Ok(typed), "reading back {form:02X?}");
    }
    answer
}

/// Makes the fresh instruction of a row with both; gives back the code.
pub fn compare_fresh(rng: &mut Rng, row: u64) -> u32 {
    let expected = reference::fresh(row);
    let (mut bytes, part) = memory(rng, FORM);
    let mut after = bytes.clone();
    if let Ok(instruction) = &expected {
        after[part.clone()].copy_from_slice(&form(instruction));
    }
    let answer = raw::fresh(row, lent_form(&mut bytes[part]));
    assert_eq!(answer, expected.map_or_else(code, |_| 0), "the fresh instruction of row {row}");
    assert_eq!(bytes, after, "the form after the fresh instruction of row {row}");
    let safe = vsp::fresh(row).map(|form| form.to_bytes());
    assert_eq!(safe, expected.map(|i| form(&i)).map_err(from_refusal), "the fresh instruction of row {row}");
    answer
}

/// Makes the text of a form with both; gives it back. Padding may have any value.
pub fn compare_text(rng: &mut Rng, form: &[u8; FORM]) -> String {
    let expected = reference::text(&instruction(form));
    let (mut bytes, part) = memory(rng, TEXT);
    let mut after = bytes.clone();
    put_text(&mut after[part.clone()], &expected);
    let answer = raw::text(form, (&mut bytes[part]).try_into().unwrap());
    assert_eq!(answer, expected.len(), "the length of the text of {form:02X?}, {expected}");
    assert_eq!(bytes, after, "the buffer after the text of {form:02X?}, {expected}");
    let typed = Form::from_bytes(form);
    assert_eq!(vsp::text(&typed), expected, "the text of {form:02X?}");
    assert_eq!(format!("{typed}"), expected, "the text of {form:02X?}");
    expected
}

/// Makes the name of a row with both; gives it back.
pub fn compare_name(rng: &mut Rng, row: usize) -> Option<&'static str> {
    let expected = ROWS.get(row).map(|row| row.name);
    let (mut bytes, part) = memory(rng, NAME);
    let mut after = bytes.clone();
    if let Some(name) = expected {
        put_text(&mut after[part.clone()], name);
    }
    let answer = raw::name(row, (&mut bytes[part]).try_into().unwrap());
    assert_eq!(answer, expected.map_or(0, str::len), "the length of the name of row {row}");
    assert_eq!(bytes, after, "the buffer after the name of row {row}");
    assert_eq!(vsp::name(row).as_deref(), expected, "the name of row {row}");
    expected
}

/// The text and a 0 byte at the front of a buffer.
fn put_text(buffer: &mut [u8], text: &str) {
    buffer[..text.len()].copy_from_slice(text.as_bytes());
    buffer[text.len()] = 0;
}

/// Checks the parcel with both; gives back the code.
pub fn compare_check(parcel: &[u8]) -> u64 {
    let expected = reference::check(parcel);
    let answer = raw::check(parcel);
    assert_eq!(answer, verdict_code(expected), "checking {}", hex(parcel));
    assert_eq!(vsp::check(parcel), typed_verdict(expected), "checking {}", hex(parcel));
    answer
}

/// The verdict in the wrapper's types.
fn typed_verdict(verdict: Verdict) -> vsp::Verdict {
    match verdict {
        Verdict::Accepted => vsp::Verdict::Accepted,
        Verdict::Refused { refusal, index, register, half } => {
            let vsp::Refusal { number, place } = from_refusal(refusal);
            vsp::Verdict::Refused { number, place, index, register, half: half.map(typed_half) }
        }
    }
}

fn typed_half(half: Half) -> vsp::Half {
    match half {
        Half::Low => vsp::Half::Low,
        Half::High => vsp::Half::High,
    }
}

/// Checks the parcel with both, and that the reference gives the verdict it was made for.
pub fn compare_check_as(parcel: &[u8], verdict: Verdict) -> u64 {
    assert_eq!(reference::check(parcel), verdict, "the reference on {}", hex(parcel));
    compare_check(parcel)
}

/// Makes notes with both, into a buffer of this length, for a parcel of the version whose sets
/// these are, and checks the parcel with them; gives back the code.
pub fn compare_infer<S: Set>(rng: &mut Rng, words: &[u8], entry: S, length: usize) -> u64 {
    let [low, high] = entry.halves();
    // In version 1 the second set plays no part.
    let halves = if S::VERSION == 1 { [low, !high] } else { [low, high] };
    let (answer, notes) = compare_version(rng, S::VERSION.into(), words, halves, length);
    if let Some(notes) = notes {
        let notes: Vec<S> = notes.chunks_exact(S::BYTES).map(S::load).collect();
        let words: Vec<u64> = words.as_chunks().0.iter().map(|word| u64::from_le_bytes(*word)).collect();
        let parcel = parcel_of(entry, &words, &notes);
        assert_eq!(vsp::check(&parcel), vsp::Verdict::Accepted, "checking {}", hex(&parcel));
    }
    answer
}

/// Makes notes with both, for a parcel of this version, known or not, and with these low and high
/// halves held before the start; gives back the code, and the notes where they are proposed.
pub fn compare_version(
    rng: &mut Rng,
    version: u64,
    words: &[u8],
    entry: [u64; 2],
    length: usize,
) -> (u64, Option<Vec<u8>>) {
    let about = || format!("notes of {length} bytes, version {version}, for {entry:X?}, {}", hex(words));
    let (mut bytes, part) = memory(rng, length);
    let (mut after, mut safe) = (bytes.clone(), bytes.clone());
    let expected = reference::infer(version, words, entry, &mut after[part.clone()]);
    if expected.is_err() {
        assert_eq!(after, bytes, "the reference's buffer: {}", about());
    }
    let answer = raw::infer(version, words, entry[0], entry[1], &mut bytes[part.clone()]);
    assert_eq!(answer, inference_code(expected), "{}", about());
    assert_eq!(bytes, after, "{}", about());
    let typed = vsp::infer(version, words, entry[0], entry[1], &mut safe[part.clone()]);
    assert_eq!(typed, typed_inference(expected), "{}", about());
    assert_eq!(safe, after, "{}", about());
    (answer, expected.is_ok().then(|| bytes[part].to_vec()))
}

/// The answer in the wrapper's types.
fn typed_inference(answer: Result<u32, Fault>) -> vsp::Inference {
    match answer {
        Ok(sweeps) => vsp::Inference::Proposed { sweeps: sweeps as u16 },
        Err(Fault { refusal, index, register }) => {
            let vsp::Refusal { number, place } = from_refusal(refusal);
            vsp::Inference::Refused { number, place, index, register }
        }
    }
}

/// Compares parcels with both.
pub struct Comparer {
    rng: Rng,
    /// Random lines, with one to spare on both sides of the room for a list.
    before: Vec<raw::Line>,
    buffer: Vec<raw::Line>,
}

impl Comparer {
    pub fn new(seed: u64) -> Comparer {
        let mut rng = Rng::new(seed);
        let before: Vec<raw::Line> = (0..1 + DIFF_LINES + 1).map(|_| [rng.bits(), rng.bits(), rng.bits()]).collect();
        Comparer { rng, buffer: before.clone(), before }
    }

    /// Lists all lines with both, and each line of a short list, the lines at the ends and in the
    /// middle of a long one, and lines that aren't there; gives back the list.
    pub fn compare(&mut self, first: &[u8], second: &[u8]) -> Result<Vec<Difference>, Unread> {
        let expected = reference::differences(first, second);
        self.compare_list(first, second, &expected);
        let count = expected.as_ref().map_or(0, Vec::len);
        let mut ks: Vec<usize> = if count <= 40 { (0..count).collect() } else { vec![0, 1, count / 2, count - 1] };
        ks.extend([count, count + 1, count + self.rng.below(1 << 20), DIFF_LINES, usize::MAX]);
        for k in ks {
            self.compare_line(first, second, k, &expected);
        }
        expected
    }

    /// The whole list, and the buffer after it.
    fn compare_list(&mut self, first: &[u8], second: &[u8], expected: &Result<Vec<Difference>, Unread>) {
        let answer = raw::diff_lines(first, second, self.buffer[1..].first_chunk_mut().unwrap());
        let lines: Vec<raw::Line> = expected.iter().flatten().map(numbers).collect();
        let code = expected.as_ref().map_or_else(unread_code, |_| (lines.len() as u64) << 16);
        assert_eq!(answer, code, "{}", pair(first, second));
        let rest = 1 + lines.len();
        assert_eq!(self.buffer[0], self.before[0], "what precedes the lines of {}", pair(first, second));
        assert_eq!(self.buffer[1..rest], lines, "{}", pair(first, second));
        assert!(self.buffer[rest..] == self.before[rest..], "what follows the lines of {}", pair(first, second));
        self.buffer[1..rest].copy_from_slice(&self.before[1..rest]);
        let typed = expected.as_ref().map(|list| list.iter().map(typed).collect()).map_err(typed_unread);
        assert_eq!(vsp::differences(first, second), typed, "{}", pair(first, second));
    }

    /// Line k; where there is none its three numbers stay.
    pub fn compare_line(&mut self, first: &[u8], second: &[u8], k: usize, expected: &Result<Vec<Difference>, Unread>) {
        let mut numbers_of_line = [0; 5].map(|_: u64| self.rng.bits());
        let mut after = numbers_of_line;
        let expected = expected.as_ref().map(|list| list.get(k));
        if let Ok(Some(line)) = expected {
            after[1..4].copy_from_slice(&numbers(line));
        }
        let answer = raw::diff_line(first, second, k, numbers_of_line[1..].first_chunk_mut().unwrap());
        let code = expected.map_or_else(unread_code, |line| line.map_or(raw::FEWER, |_| 0));
        assert_eq!(answer, code, "line {k}, {}", pair(first, second));
        assert_eq!(numbers_of_line, after, "line {k}, {}", pair(first, second));
        let typed = expected.map(|line| line.map(typed)).map_err(typed_unread);
        assert_eq!(vsp::difference(first, second, k), typed, "line {k}, {}", pair(first, second));
    }
}

/// A parcel and what it is replayed on.
#[derive(Clone, Copy)]
pub struct Run<'a> {
    pub parcel: &'a [u8],
    pub registers: Registers,
    pub uniforms: &'a [u32],
    pub trace: &'a [u32],
    pub limit: u32,
}

/// The answer, and the registers after it.
pub type Outcome = (Result<Replayed, NotRun>, Registers);

/// Replays with both; gives back what came of it.
pub fn compare_replay(rng: &mut Rng, run: &Run) -> Outcome {
    let Run { parcel, registers, uniforms, trace, limit } = *run;
    let mut after = registers;
    let expected = reference::replay(parcel, &mut after, uniforms, trace, limit);
    if expected.is_err() {
        assert_eq!(after, registers, "the reference's registers, {}", about(run));
    }
    let (mut numbers, part) = lent_registers(rng, &registers);
    let before = numbers.clone();
    let answer = raw::replay(parcel, (&mut numbers[part.clone()]).try_into().unwrap(), uniforms, trace, limit);
    assert_eq!(answer, replay_code(expected), "{}", about(run));
    assert_eq!(numbers[part.clone()], after, "the registers, {}", about(run));
    numbers[part.clone()].copy_from_slice(&registers);
    assert_eq!(numbers, before, "what is beside the registers, {}", about(run));
    let mut safe = registers;
    let typed = vsp::replay(parcel, &mut safe, uniforms, trace, limit);
    assert_eq!(typed, expected.map(typed_replayed).map_err(typed_not_run), "{}", about(run));
    assert_eq!(safe, after, "the registers, {}", about(run));
    (expected, after)
}

/// The registers among random numbers, and where they are.
fn lent_registers(rng: &mut Rng, registers: &Registers) -> (Vec<u32>, std::ops::Range<usize>) {
    let mut numbers: Vec<u32> = (0..MARGIN + registers.len() + MARGIN).map(|_| rng.bits() as u32).collect();
    let part = MARGIN..MARGIN + registers.len();
    numbers[part.clone()].copy_from_slice(registers);
    (numbers, part)
}

/// The run, for a message.
fn about(run: &Run) -> String {
    let Run { parcel, registers, uniforms, trace, limit } = run;
    let steps = trace.len() as f64 / 64.0;
    format!("limit {limit}, {steps} steps of trace, {registers:X?}, {uniforms:X?}, {}", hex(parcel))
}

/// 2^16 steps, at the limit 254 more, at a difference 255 + 2^8 register more; or the refusal as from
/// the check.
pub fn replay_code(answer: Result<Replayed, NotRun>) -> u64 {
    match answer {
        Ok(Replayed::Ended { steps }) => u64::from(steps) << 16,
        Ok(Replayed::Limit { steps }) => 254 + (u64::from(steps) << 16),
        Ok(Replayed::Differs { step, register }) => 255 + u64::from(register) * 256 + ((u64::from(step) + 1) << 16),
        Err(NotRun { refusal, index, register, half }) => {
            verdict_code(Verdict::Refused { refusal, index, register, half })
        }
    }
}

/// The answer in the wrapper's types.
fn typed_replayed(replayed: Replayed) -> vsp::Replayed {
    match replayed {
        Replayed::Ended { steps } => vsp::Replayed::Ended { steps },
        Replayed::Limit { steps } => vsp::Replayed::Limit { steps },
        Replayed::Differs { step, register } => vsp::Replayed::Differs { step, register },
    }
}

fn typed_not_run(NotRun { refusal, index, register, half }: NotRun) -> vsp::NotRun {
    let vsp::Refusal { number, place } = from_refusal(refusal);
    vsp::NotRun { number, place, index, register, half: half.map(typed_half) }
}

/// Both parcels, for a message.
fn pair(first: &[u8], second: &[u8]) -> String {
    format!("{} against {}", hex(first), hex(second))
}

/// The line in the wrapper's types.
fn typed(line: &Difference) -> vsp::Difference {
    let what = match line.what {
        What::Version => vsp::What::Version,
        What::Row => vsp::What::Row,
        What::Page => vsp::What::Page,
        What::Flow => vsp::What::Flow,
        What::Destination => vsp::What::Destination,
        What::Source(index) => vsp::What::Source(index),
        What::Modifier(low) => vsp::What::Modifier(low),
        What::Added => vsp::What::Added,
        What::Removed => vsp::What::Removed,
        What::Entry(half) => vsp::What::Entry(half.map(typed_half)),
        What::Note(half) => vsp::What::Note(half.map(typed_half)),
    };
    vsp::Difference { what, index: line.index, first: line.first, second: line.second }
}

fn typed_unread(unread: &Unread) -> vsp::Unread {
    let side = match unread.side {
        Side::First => vsp::Side::First,
        Side::Second => vsp::Side::Second,
    };
    let vsp::Refusal { number, place } = from_refusal(unread.refusal);
    vsp::Unread { side, number, place, index: unread.index, register: 64 }
}

/// Upper-case digits without spaces.
pub fn hex(bytes: &[u8]) -> String {
    bytes.iter().map(|byte| format!("{byte:02X}")).collect()
}
