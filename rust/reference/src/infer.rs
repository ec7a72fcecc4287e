//! The maker of notes.

use crate::check::{Effect, check_contents, effect};
use crate::codec::validate;
use crate::parcel::Contents;
use crate::sets::Set;
use crate::{Refusal, Verdict, Version};

/// Why nothing is proposed.
#[derive(Clone, Copy, Debug, PartialEq, Eq)]
pub struct Fault {
    pub refusal: Refusal,
    /// The instruction at fault, 0 where none is.
    pub index: u16,
    /// 64: none of the maker's refusals blames a register.
    pub register: u8,
}

/// What the sweeps come to, whether the check accepts it or not.
#[derive(Clone, Debug, PartialEq, Eq)]
pub struct Narrowed {
    /// The notes as they stand in a parcel.
    pub notes: Vec<u8>,
    /// The last sweep, which changes nothing, included.
    pub sweeps: u32,
}

/// How an instruction changes what is held, and where control goes after it.
struct Step<S> {
    keeps: S,
    fills: S,
    /// The fall-through and the branch target; a place outside the program where there is none.
    next: usize,
    target: usize,
}

/// No index of a program.
const OUTSIDE: usize = usize::MAX;

/// Proposes notes that the check accepts in a parcel of this version, the largest there are, and
/// gives the number of sweeps; a refusal leaves the notes as they were. The entry set is given as
/// low halves and high halves; in version 1 the low ones are the set and the high ones play no
/// part.
pub fn infer(version: u64, words: &[u8], entry: [u64; 2], notes: &mut [u8]) -> Result<u32, Fault> {
    match known(version)? {
        Version::One => propose(words, u64::from_halves(entry), notes),
        Version::Two => propose(words, u128::from_halves(entry), notes),
    }
}

/// The sweeps alone: from the entry set at instruction 0 and all that there is elsewhere, until
/// a sweep changes nothing.
pub fn narrow(version: u64, words: &[u8], entry: [u64; 2]) -> Result<Narrowed, Fault> {
    match known(version)? {
        Version::One => narrowed(words, u64::from_halves(entry)),
        Version::Two => narrowed(words, u128::from_halves(entry)),
    }
}

fn known(version: u64) -> Result<Version, Fault> {
    Version::numbered(version).ok_or(fault(Refusal::Version, 0))
}

fn propose<S: Set>(words: &[u8], entry: S, notes: &mut [u8]) -> Result<u32, Fault> {
    let words = split::<S>(words)?;
    let format = S::VERSION.format();
    if notes.len() != format.note * words.len() {
        return Err(fault(Refusal::Size, 0));
    }
    let (proposal, sweeps) = sweep_all(words, entry)?;
    let proposal: Vec<S::Bytes> = proposal.into_iter().map(S::store).collect();
    if check_contents(&Contents { entry, words, notes: &proposal }) != Verdict::Accepted {
        return Err(fault(Refusal::NoNotes, 0));
    }
    for (room, note) in notes.chunks_exact_mut(format.note).zip(&proposal) {
        room.copy_from_slice(note.as_ref());
    }
    Ok(sweeps)
}

fn narrowed<S: Set>(words: &[u8], entry: S) -> Result<Narrowed, Fault> {
    let (notes, sweeps) = sweep_all(split::<S>(words)?, entry)?;
    let notes = notes.into_iter().flat_map(|note| note.store().as_ref().to_vec()).collect();
    Ok(Narrowed { notes, sweeps })
}

/// The words one by one, if there are as many as a parcel can have.
fn split<S: Set>(words: &[u8]) -> Result<&[[u8; 8]], Fault> {
    match words.as_chunks() {
        (words, []) if S::VERSION.format().allows(words.len()) => Ok(words),
        _ => Err(fault(Refusal::Size, 0)),
    }
}

/// The notes that the sweeps come to, and their number.
fn sweep_all<S: Set>(words: &[[u8; 8]], entry: S) -> Result<(Vec<S>, u32), Fault> {
    let steps = words.iter().enumerate().map(|(index, word)| step(index, u64::from_le_bytes(*word)));
    let steps: Vec<Step<S>> = steps.collect::<Result<_, _>>()?;
    let mut notes = vec![S::ALL; steps.len()];
    notes[0] = entry;
    let mut narrower = notes.clone();
    let mut sweeps = 1;
    while sweep(&steps, &notes, &mut narrower) {
        std::mem::swap(&mut notes, &mut narrower);
        sweeps += 1;
    }
    Ok((notes, sweeps))
}

/// Narrows each note to what each of its predecessors leaves held; whether one changes.
fn sweep<S: Set>(steps: &[Step<S>], notes: &[S], narrower: &mut [S]) -> bool {
    narrower.copy_from_slice(notes);
    for (step, before) in steps.iter().zip(notes) {
        let after = *before & step.keeps | step.fills;
        for successor in [step.next, step.target] {
            if let Some(note) = narrower.get_mut(successor) {
                *note = *note & after;
            }
        }
    }
    narrower != notes
}

fn step<S: Set>(index: usize, word: u64) -> Result<Step<S>, Fault> {
    let layout = validate(word).map_err(|refusal| fault(refusal, index))?;
    let effect: Effect<S> = effect(word, layout);
    let next = if effect.ends { OUTSIDE } else { index + 1 };
    let target = match effect.branch {
        // Below 0 wraps to a number far above any index.
        Some(offset) if !effect.ends => next.wrapping_add_signed(offset as isize),
        _ => OUTSIDE,
    };
    Ok(Step { keeps: !effect.releases, fills: effect.fills, next, target })
}

#[cold]
fn fault(refusal: Refusal, index: usize) -> Fault {
    Fault { refusal, index: index as u16, register: 64 }
}
