//! Times the library against the reference on the same inputs, in turns, and prints a table for
//! each version of the parcel; then the check of either version against that of the other, on the
//! same words; then the replay of loops, with a trace and without.
//!
//! The buffers hold the inputs before the clock starts; the form that a word is read into is
//! not cleared between words, nor the notes between programs, nor the lines between comparisons,
//! nor the text between instructions. The reference makes a new list for each comparison and a new
//! text for each instruction. An argument names the lister, which is timed as a whole process.

use inputs::{Program, Rng, Set, Shape, encode, instruction, refused_word, with_word};
use reference::{Instruction, ROW_COUNT, ROWS, Registers, Replayed, Verdict};
use std::fs::File;
use std::hint::black_box;
use std::path::Path;
use std::process::{Command, ExitCode};
use std::time::{Duration, Instant};

/// Instructions, or words, that one pass goes through: short, so that other processes
/// disturb few passes.
const PASS: usize = 8192;
/// Timings of each side; the median counts.
const REPEATS: usize = 501;
/// The same for the maker of notes, whose passes are long.
const MAKER_REPEATS: usize = 51;
/// The most instructions that a parcel has.
const LONGEST: usize = 2048;
/// Runs of the lister.
const RUNS: usize = 101;
/// Steps of a replay without a trace, and its timings; steps of one with a trace.
const STEPS: u32 = 1_000_000;
const REPLAY_REPEATS: usize = 101;
const TRACED_STEPS: u32 = 4096;

/// Accepted, refused for a read in the last instruction, refused for the last word.
#[derive(Clone, Copy)]
enum Outcome {
    Accepted,
    LastRead,
    LastWord,
}

fn main() -> ExitCode {
    heading("version 1, ns an instruction (median)", "Rattle", "Rust");
    let mut agreed = time_checks::<u64>();
    agreed &= time_read("read, legal words", &legal_words());
    agreed &= time_read("read, refused words", &refused_words());
    agreed &= time_text("text, legal words", &legal_words());
    agreed &= time_makers::<u64>();
    agreed &= time_comparisons::<u64>();
    heading("version 2, ns an instruction (median)", "Rattle", "Rust");
    agreed &= time_checks::<u128>();
    agreed &= time_makers::<u128>();
    agreed &= time_comparisons::<u128>();
    agreed &= time_differences("other versions", &different::<u64>().0, &different::<u128>().1);
    heading("the same words, ns an instruction (median)", "version 2", "version 1");
    for count in [16, 256, LONGEST] {
        agreed &= time_versions(count);
    }
    heading("replay, million steps a second (median)", "Rattle", "Rust");
    for scene in [adding(), nine_rows()] {
        agreed &= time_replays(&scene);
    }
    if !agreed {
        return ExitCode::FAILURE;
    }
    println!("Both are release builds on the same inputs, timed in turns; no buffer is cleared between calls.");
    println!("For infer an instruction's time is that of all its sweeps together, for diff that of a pair.");
    println!("A replay checks the parcel and reads its words as well; its ratio is that of the times.");
    match std::env::args_os().nth(1) {
        Some(lister) if Path::new(&lister).is_file() => time_lister(Path::new(&lister)),
        Some(_) => {
            println!("lister: not built");
            ExitCode::FAILURE
        }
        None => ExitCode::SUCCESS,
    }
}

fn heading(title: &str, first: &str, second: &str) {
    println!("{title:<44}{first:>12}{second:>12}{:>9}", "ratio");
}

/// Parcels with so many instructions, together one pass.
fn parcels<S: Set>(count: usize, outcome: Outcome) -> Vec<Vec<u8>> {
    let mut rng = Rng::new(count as u64);
    (0..PASS / count).map(|_| parcel::<S>(&mut rng, count, outcome)).collect()
}

fn parcel<S: Set>(rng: &mut Rng, count: usize, outcome: Outcome) -> Vec<u8> {
    let mut program = Program::<S>::safe(rng, Shape { count, branches: 10, ends: 0, registers: 32 });
    let last = count - 1;
    match outcome {
        Outcome::Accepted => program.parcel(&program.exact()),
        Outcome::LastRead => {
            program.instructions[last] = last_read();
            let mut notes = program.exact();
            notes[last] = notes[last] & !program.reads(last);
            program.parcel(&notes)
        }
        Outcome::LastWord => {
            let bytes = program.parcel(&program.exact());
            with_word(&bytes, last, refused_word(rng, 6).0)
        }
    }
}

/// MOV.i32 r1, r2 with `end`.
fn last_read() -> Instruction {
    let row = ROWS.iter().position(|row| row.name == "MOV.i32").unwrap_or(0) as u8;
    Instruction { row, flow: 15, register: 1, half_mask: 3, sources: [2, 0, 0, 0], ..Instruction::default() }
}

fn legal_words() -> Vec<[u8; 8]> {
    let mut rng = Rng::new(1);
    let word = |k| encode(&instruction(&mut rng, (k * 31 % ROW_COUNT) as u8)).to_le_bytes();
    (0..PASS).map(word).collect()
}

fn refused_words() -> Vec<[u8; 8]> {
    let mut rng = Rng::new(2);
    (0..PASS).map(|k| refused_word(&mut rng, 2 + (k % 6) as u8).0.to_le_bytes()).collect()
}

/// Accepted with the notes that are made for it.
fn branchy<S: Set>() -> Program<S> {
    Program::safe(&mut Rng::new(4), Shape { count: LONGEST, branches: 30, ends: 0, registers: 32 })
}

/// Two accepted parcels that differ in every instruction.
fn different<S: Set>() -> (Vec<u8>, Vec<u8>) {
    let mut rng = Rng::new(5);
    let shape = Shape { count: LONGEST, branches: 10, ends: 0, registers: 32 };
    let first = Program::<S>::safe(&mut rng, shape);
    let second = Program::<S>::safe(&mut rng, shape);
    assert!(first.words().iter().zip(second.words()).all(|(word, other)| *word != other));
    (first.parcel(&first.exact()), second.parcel(&second.exact()))
}

/// The check by outcome and length; whether the two sides agree.
fn time_checks<S: Set>() -> bool {
    let mut agreed = true;
    for (name, outcome) in [
        ("accepted", Outcome::Accepted),
        ("refused, 20 at the last", Outcome::LastRead),
        ("refused, 6 at the last", Outcome::LastWord),
    ] {
        for count in [16, 256, LONGEST] {
            agreed &= time_check(&format!("check, {name}, n = {count}"), &parcels::<S>(count, outcome));
        }
    }
    agreed
}

/// The maker on two kinds of programs; whether the two sides agree.
fn time_makers<S: Set>() -> bool {
    time_infer("straight", &Program::<S>::nops(LONGEST)) & time_infer("branchy", &branchy::<S>())
}

/// The comparison of equal parcels and of different ones; whether the two sides agree.
fn time_comparisons<S: Set>() -> bool {
    let (first, second) = different::<S>();
    time_differences("equal", &first, &first.clone()) & time_differences("all differ", &first, &second)
}

/// The check of the same words in both versions, by the library and by the reference; whether all
/// accept them.
fn time_versions(count: usize) -> bool {
    let mut rng = Rng::new(count as u64);
    let shape = Shape { count, branches: 10, ends: 0, registers: 32 };
    let programs: Vec<Program> = (0..PASS / count).map(|_| Program::safe(&mut rng, shape)).collect();
    let one: Vec<Vec<u8>> = programs.iter().map(|program| program.parcel(&program.exact())).collect();
    let halves = programs.into_iter().map(|Program { entry, instructions }| {
        let program = Program { entry: u128::from_halves([entry; 2]), instructions };
        program.parcel(&program.exact())
    });
    let two: Vec<Vec<u8>> = halves.collect();
    let accepted =
        |bytes: &Vec<u8>| vsp::check(bytes) == vsp::Verdict::Accepted && reference::check(bytes) == Verdict::Accepted;
    let agree = one.iter().chain(&two).all(accepted);
    let rattle =
        |parcels: &[Vec<u8>]| parcels.iter().for_each(|bytes| _ = black_box(vsp::raw::check(black_box(bytes))));
    let rust = |parcels: &[Vec<u8>]| parcels.iter().for_each(|bytes| _ = black_box(reference::check(black_box(bytes))));
    report(&format!("Rattle, check, accepted, n = {count}"), Pass::default(), agree, || rattle(&two), || rattle(&one))
        & report(&format!("Rust, check, accepted, n = {count}"), Pass::default(), agree, || rust(&two), || rust(&one))
}

/// The whole check on both sides; whether they agree.
fn time_check(name: &str, parcels: &[Vec<u8>]) -> bool {
    let agree = parcels.iter().all(|bytes| match (vsp::check(bytes), reference::check(bytes)) {
        (vsp::Verdict::Accepted, verdict) => verdict == Verdict::Accepted,
        (vsp::Verdict::Refused { number, .. }, Verdict::Refused { refusal, .. }) => number == refusal.number(),
        _ => false,
    });
    let rattle = || {
        for bytes in parcels {
            black_box(vsp::raw::check(black_box(bytes)));
        }
    };
    let rust = || {
        for bytes in parcels {
            black_box(reference::check(black_box(bytes)));
        }
    };
    report(name, Pass::default(), agree, rattle, rust)
}

/// The word reader on both sides; whether they agree.
fn time_read(name: &str, words: &[[u8; 8]]) -> bool {
    let agree = words.iter().all(|word| match (vsp::read(word), reference::read(word)) {
        (Ok(form), Ok(instruction)) => form.row == instruction.row && form.modifiers == instruction.modifiers,
        (Err(refusal), Err(other)) => refusal.number == other.number(),
        _ => false,
    });
    let rattle = || {
        let mut form = [0; vsp::FORM];
        for word in words {
            black_box(vsp::raw::read(black_box(word), black_box(&mut form)));
        }
    };
    let rust = || {
        for word in words {
            let _ = black_box(reference::read(black_box(word)));
        }
    };
    report(name, Pass::default(), agree, rattle, rust)
}

/// The text of each word's instruction on both sides; whether they agree.
fn time_text(name: &str, words: &[[u8; 8]]) -> bool {
    let forms: Vec<vsp::Form> = words.iter().flat_map(|word| vsp::read(word)).collect();
    let instructions: Vec<Instruction> = words.iter().flat_map(|word| reference::read(word)).collect();
    let agree = forms.iter().map(vsp::text).eq(instructions.iter().map(reference::text));
    let forms: Vec<[u8; vsp::FORM]> = forms.iter().map(vsp::Form::to_bytes).collect();
    let rattle = || {
        let mut text = [0; vsp::TEXT];
        for form in &forms {
            black_box(vsp::raw::text(black_box(form), black_box(&mut text)));
        }
    };
    let rust = || {
        for instruction in &instructions {
            black_box(reference::text(black_box(instruction)));
        }
    };
    report(name, Pass::default(), agree, rattle, rust)
}

/// The maker of notes on both sides, all its sweeps; whether they agree on them and on the notes.
fn time_infer<S: Set>(name: &str, program: &Program<S>) -> bool {
    let (version, words, [low, high]) = (S::VERSION.into(), program.word_bytes(), program.entry.halves());
    let mut notes = vec![0; S::BYTES * program.count()];
    let mut other = notes.clone();
    let sweeps = match vsp::infer(version, &words, low, high, &mut notes) {
        vsp::Inference::Proposed { sweeps } => sweeps,
        vsp::Inference::Refused { .. } => 0,
    };
    let agree = reference::infer(version, &words, [low, high], &mut other) == Ok(sweeps.into()) && notes == other;
    let rattle = || {
        black_box(vsp::raw::infer(version, black_box(&words), low, high, black_box(&mut notes)));
    };
    let rust = || {
        let _ = black_box(reference::infer(version, black_box(&words), [low, high], black_box(&mut other)));
    };
    let pass = Pass { instructions: program.count(), repeats: MAKER_REPEATS };
    report(&format!("infer, {name}, {sweeps} sweeps, n = {}", program.count()), pass, agree, rattle, rust)
}

/// The whole list of differences on both sides; whether they agree on it.
fn time_differences(name: &str, first: &[u8], second: &[u8]) -> bool {
    let (lines, agree) = match (vsp::differences(first, second), reference::differences(first, second)) {
        (Ok(list), Ok(other)) => {
            let contents = list.iter().map(|line| (line.index, line.first, line.second));
            (list.len(), contents.eq(other.iter().map(|line| (line.index, line.first, line.second))))
        }
        _ => (0, false),
    };
    let mut room = vec![[0; 3]; vsp::DIFF_LINES];
    let room = room.first_chunk_mut().expect("the room has this length");
    let rattle = || {
        black_box(vsp::raw::diff_lines(black_box(first), black_box(second), black_box(&mut *room)));
    };
    let rust = || {
        let _ = black_box(reference::differences(black_box(first), black_box(second)));
    };
    let pass = Pass { instructions: LONGEST, ..Pass::default() };
    report(&format!("diff, {name}, {lines} lines, n = {LONGEST}"), pass, agree, rattle, rust)
}

/// A loop that goes on for ever, and what it runs on.
struct Scene {
    name: &'static str,
    parcel: Vec<u8>,
    registers: Registers,
    uniforms: Vec<u32>,
}

impl Scene {
    /// The registers that are held before the start are the first ones.
    fn new(name: &'static str, words: &[u64], first: &[f32], uniforms: &[f32]) -> Scene {
        let instructions = words.iter().flat_map(|word| reference::read(&word.to_le_bytes())).collect();
        let program = Program { entry: (1_u64 << first.len()) - 1, instructions };
        let mut registers = [0; 64];
        registers.iter_mut().zip(first).for_each(|(register, number)| *register = number.to_bits());
        let uniforms = uniforms.iter().map(|number| number.to_bits()).collect();
        Scene { name, parcel: program.parcel(&program.exact()), registers, uniforms }
    }
}

/// The loop of the sample `loop`, with so large a number that it never comes to 0.
fn adding() -> Scene {
    let words = [
        // FADD.f32 r1, r1, u0
        0x00A4_C100_0000_8001,
        // FADD.f32 r0, r0, u1
        0x00A4_C000_0000_8100,
        // BRANCHZ r0, offset:-3
        0x001F_0007_FFFF_FD00,
        // NOP.end
        0x7800_0000_0000_0000,
    ];
    Scene::new("two sums", &words, &[1e30, 0.0], &[0.5, -1.0])
}

/// Each row that is run, once.
fn nine_rows() -> Scene {
    let words = [
        // NOP
        0x0000_0000_0000_0000,
        // MOV.i32 r1, r0
        0x0091_C100_0000_0000,
        // CLZ.u32 r2, r1
        0x0091_C200_0004_0001,
        // POPCOUNT.i32 r3, r1
        0x0091_C300_000C_0001,
        // BITREV.i32 r4, r1
        0x0091_C400_000D_0001,
        // NOT_OLD.i32 r5, r4
        0x0091_C500_000E_0004,
        // MUX.i32.neg r6, r4, r5, r5
        0x00B8_C600_0005_0504,
        // FADD.f32.clamp_m1_1 r0, r0, u0.neg
        0x00A4_C012_0000_8000,
        // BRANCHZ 0xFFFFFFFF, offset:-9
        0x001F_0007_FFFF_F7C1,
        // NOP.end
        0x7800_0000_0000_0000,
    ];
    Scene::new("nine rows", &words, &[1.0], &[0.001])
}

/// The loop without a trace and with one; whether the two sides agree.
fn time_replays(scene: &Scene) -> bool {
    let bare = Pass { instructions: STEPS as usize, repeats: REPLAY_REPEATS };
    let traced = Pass { instructions: TRACED_STEPS as usize, ..Pass::default() };
    let recorded = reference::record(&scene.parcel, &mut scene.registers.clone(), &scene.uniforms, TRACED_STEPS);
    let trace = recorded.map_or(Vec::new(), |(_, records)| records.concat());
    time_replay("no trace", scene, &[], STEPS, bare) & time_replay("traced", scene, &trace, TRACED_STEPS, traced)
}

/// A run to the limit on both sides; whether they agree on it and on the registers after it.
fn time_replay(name: &str, scene: &Scene, trace: &[u32], limit: u32, pass: Pass) -> bool {
    let Scene { parcel, registers, uniforms, .. } = scene;
    let (mut first, mut second) = (*registers, *registers);
    let agree = vsp::replay(parcel, &mut first, uniforms, trace, limit) == Ok(vsp::Replayed::Limit { steps: limit })
        && reference::replay(parcel, &mut second, uniforms, trace, limit) == Ok(Replayed::Limit { steps: limit })
        && first == second;
    let rattle = || {
        let mut now = *registers;
        black_box(vsp::raw::replay(black_box(parcel), black_box(&mut now), uniforms, trace, limit));
    };
    let rust = || {
        let mut now = *registers;
        let _ = black_box(reference::replay(black_box(parcel), black_box(&mut now), uniforms, trace, limit));
    };
    report_steps(&format!("{}, {name}, {limit} steps", scene.name), pass, agree, rattle, rust)
}

/// How many instructions a pass goes through, and how often it is timed.
struct Pass {
    instructions: usize,
    repeats: usize,
}

impl Default for Pass {
    fn default() -> Pass {
        Pass { instructions: PASS, repeats: REPEATS }
    }
}

/// Times two in turns and prints a line with the times of an instruction.
fn report(name: &str, pass: Pass, agree: bool, first: impl FnMut(), second: impl FnMut()) -> bool {
    report_as(name, pass, agree, |nanoseconds| nanoseconds, first, second)
}

/// The same with how many million steps each runs in a second.
fn report_steps(name: &str, pass: Pass, agree: bool, first: impl FnMut(), second: impl FnMut()) -> bool {
    report_as(name, pass, agree, |nanoseconds| 1e3 / nanoseconds, first, second)
}

fn report_as(
    name: &str,
    pass: Pass,
    agree: bool,
    shown: fn(f64) -> f64,
    mut first: impl FnMut(),
    mut second: impl FnMut(),
) -> bool {
    if !agree {
        println!("{name:<44}the answers differ");
        return false;
    }
    let (mut firsts, mut seconds) = (Vec::new(), Vec::new());
    for _ in 0..pass.repeats {
        firsts.push(time(&mut first));
        seconds.push(time(&mut second));
    }
    let nanoseconds = |times| median(times).as_nanos() as f64 / pass.instructions as f64;
    let (first, second) = (nanoseconds(firsts), nanoseconds(seconds));
    println!("{name:<44}{:>12.2}{:>12.2}{:>9.2}", shown(first), shown(second), first / second);
    true
}

fn time(pass: &mut impl FnMut()) -> Duration {
    let start = Instant::now();
    pass();
    start.elapsed()
}

fn median(mut times: Vec<Duration>) -> Duration {
    times.sort();
    times[times.len() / 2]
}

/// The lister's whole run on an accepted parcel of 2048 instructions, in either version, from its
/// start to its exit, with its output read through a pipe; and on empty input, for comparison.
fn time_lister(lister: &Path) -> ExitCode {
    let parcels = [
        (1, parcel::<u64>(&mut Rng::new(3), LONGEST, Outcome::Accepted)),
        (2, parcel::<u128>(&mut Rng::new(3), LONGEST, Outcome::Accepted)),
    ];
    for (version, long) in parcels {
        match (run_lister(lister, &long), run_lister(lister, &[])) {
            (Ok((time, 2049)), Ok((empty, _))) => println!(
                "lister, whole run, version {version}, n = 2048: {:.0} us (on empty input {:.0} us)",
                time.as_secs_f64() * 1e6,
                empty.as_secs_f64() * 1e6
            ),
            (Ok((_, lines)), Ok(_)) => {
                println!("lister, version {version}: {lines} lines, not 2049");
                return ExitCode::FAILURE;
            }
            (Err(error), _) | (_, Err(error)) => {
                println!("lister: {error}");
                return ExitCode::FAILURE;
            }
        }
    }
    ExitCode::SUCCESS
}

/// The median time of a run, and how many lines it wrote.
fn run_lister(lister: &Path, bytes: &[u8]) -> std::io::Result<(Duration, usize)> {
    let input = std::env::current_exe()?.with_file_name("lister.input");
    std::fs::write(&input, bytes)?;
    let mut times = Vec::new();
    let mut lines = 0;
    for _ in 0..RUNS {
        let file = File::open(&input)?;
        let start = Instant::now();
        let output = Command::new(lister).stdin(file).output()?;
        times.push(start.elapsed());
        lines = output.stdout.iter().filter(|byte| **byte == b'\n').count();
    }
    Ok((median(times), lines))
}
