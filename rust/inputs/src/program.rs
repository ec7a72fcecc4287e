use crate::{BRANCH, Rng, Set, as_replayed, encode, instruction, parcel_of, replayed_rows, source};
use reference::{Instruction, ROW_COUNT, ROWS};

pub(crate) const END: u8 = 15;

/// What a random program looks like.
#[derive(Clone, Copy, Debug)]
pub struct Shape {
    pub count: usize,
    /// Branches in a hundred instructions.
    pub branches: usize,
    /// Instructions, of a hundred, that end the program before its last one.
    pub ends: usize,
    /// How many registers are in use, 1 to 64.
    pub registers: u8,
}

/// An entry set and the instructions, for a parcel of the version whose sets these are.
#[derive(Clone, Debug)]
pub struct Program<S = u64> {
    pub entry: S,
    pub instructions: Vec<Instruction>,
}

impl<S: Set> Program<S> {
    /// Legal instructions whose successors all exist; they may read unheld registers.
    pub fn random(rng: &mut Rng, shape: Shape) -> Program<S> {
        let rows: [u8; ROW_COUNT] = std::array::from_fn(|row| row as u8);
        Program::of_rows(rng, shape, &rows)
    }

    /// The same with no other rows than these; branches are as many as the shape says.
    fn of_rows(rng: &mut Rng, shape: Shape, rows: &[u8]) -> Program<S> {
        let pool = Pool { first: rng.byte(), count: shape.registers };
        let instructions = (0..shape.count).map(|index| step(rng, shape, pool, rows, index)).collect();
        Program { entry: S::random(rng) | S::random(rng), instructions }
    }

    /// A program that is accepted with its exact notes.
    pub fn safe(rng: &mut Rng, shape: Shape) -> Program<S> {
        Program::random(rng, shape).made_safe(rng)
    }

    /// One that is accepted too and fills registers in two half writes only: it has no full write
    /// and an empty entry set. In version 1 it reads no register.
    pub fn in_halves(rng: &mut Rng, shape: Shape) -> Program<S> {
        let mut program = Program { entry: S::NONE, ..Program::random(rng, shape) };
        for instruction in program.instructions.iter_mut().filter(|instruction| instruction.half_mask == 3) {
            instruction.half_mask = rng.pick(&[1, 2]);
        }
        program.made_safe(rng)
    }

    /// One that is accepted too and that the replay runs, given all the uniforms that it names.
    pub fn replayed(rng: &mut Rng, shape: Shape) -> Program<S> {
        let mut program = Program::of_rows(rng, shape, &replayed_rows());
        program.instructions.iter_mut().for_each(as_replayed);
        program = program.made_safe(rng);
        // A source in place of a register that isn't held can be a special constant.
        program.instructions.iter_mut().for_each(as_replayed);
        program
    }

    /// The program without reads of what isn't held.
    fn made_safe(mut self, rng: &mut Rng) -> Program<S> {
        let notes = self.exact();
        for (instruction, note) in self.instructions.iter_mut().zip(notes) {
            // A source that loses a register releases no more, so the sets only grow.
            let (held, page) = (note.whole(), instruction.page);
            for byte in &mut instruction.sources[..ROWS[instruction.row as usize].sources] {
                if *byte < 128 && held >> (*byte % 64) & 1 == 0 {
                    *byte = replacement(rng, held, page);
                }
            }
        }
        self
    }

    /// NOPs, only the last with `end`, and an empty entry set.
    pub fn nops(count: usize) -> Program<S> {
        let mut instructions = vec![Instruction::default(); count];
        instructions[count - 1].flow = END;
        Program { entry: S::NONE, instructions }
    }

    /// NOPs, then a BRANCHZ back to the first that releases the one register of the entry set.
    pub fn releasing_loop(count: usize, register: u8) -> Program<S> {
        let mut instructions = vec![Instruction::default(); count];
        let sources = [64 + register, 0, 0, 0];
        instructions[count - 1] = Instruction { row: BRANCH, sources, offset: -(count as i32), ..Default::default() };
        Program { entry: S::register(register), instructions }
    }

    pub fn count(&self) -> usize {
        self.instructions.len()
    }

    pub fn words(&self) -> Vec<u64> {
        self.instructions.iter().map(encode).collect()
    }

    /// The words as they stand in a parcel.
    pub fn word_bytes(&self) -> Vec<u8> {
        self.instructions.iter().flat_map(|instruction| encode(instruction).to_le_bytes()).collect()
    }

    /// All of the registers that an instruction reads.
    pub fn reads(&self, index: usize) -> S {
        self.registers(index, |byte| byte < 128)
    }

    /// All of the registers whose last use it is.
    pub fn releases(&self, index: usize) -> S {
        self.registers(index, |byte| (64..128).contains(&byte))
    }

    /// The register that it writes, as far as it does; in version 1 only a full write counts.
    pub fn fills(&self, index: usize) -> S {
        let instruction = &self.instructions[index];
        match ROWS[instruction.row as usize].destination {
            true => S::filled(instruction.register, instruction.half_mask),
            false => S::NONE,
        }
    }

    /// The fall-through and then the branch target, inside the program or not.
    pub fn successors(&self, index: usize) -> impl Iterator<Item = i64> + use<S> {
        let instruction = &self.instructions[index];
        let next = index as i64 + 1;
        let target = (instruction.row == BRANCH).then_some(next + i64::from(instruction.offset));
        let ends = instruction.flow == END;
        [Some(next), target].into_iter().flatten().filter(move |_| !ends)
    }

    /// What is held after an instruction, from what is held before it.
    pub fn after(&self, index: usize, before: S) -> S {
        before & !self.releases(index) | self.fills(index)
    }

    /// The largest notes that agree with the entry set and with each other. Where every
    /// instruction is reached they are what is held on all walks that arrive.
    pub fn exact(&self) -> Vec<S> {
        let mut notes = vec![S::ALL; self.count()];
        notes[0] = self.entry;
        let mut changed = true;
        while changed {
            changed = false;
            for index in 0..self.count() {
                let after = self.after(index, notes[index]);
                for successor in self.successors(index) {
                    if let Some(note) = notes.get_mut(successor as usize) {
                        changed |= *note & !after != S::NONE;
                        *note = *note & after;
                    }
                }
            }
        }
        notes
    }

    /// The maker's sweeps, note by note: each is narrowed, all from the notes of the sweep
    /// before, to what each predecessor leaves held. The notes that come out, which are the
    /// exact ones, and the number of sweeps.
    pub fn sweeps(&self) -> (Vec<S>, u32) {
        let mut predecessors = vec![Vec::new(); self.count()];
        for index in 0..self.count() {
            for successor in self.successors(index) {
                if let Some(list) = predecessors.get_mut(successor as usize) {
                    list.push(index);
                }
            }
        }
        let mut notes = vec![S::ALL; self.count()];
        notes[0] = self.entry;
        let mut sweeps = 0;
        loop {
            let left = |from: &usize| self.after(*from, notes[*from]);
            let narrow = |(note, from): (&S, &Vec<usize>)| from.iter().map(left).fold(*note, |set, held| set & held);
            let next: Vec<S> = notes.iter().zip(&predecessors).map(narrow).collect();
            sweeps += 1;
            if next == notes {
                return (notes, sweeps);
            }
            notes = next;
        }
    }

    /// Notes below the exact ones that are accepted as well: what each instruction
    /// reads, some more of the exact ones, and what its successors' notes then need.
    pub fn weaker(&self, exact: &[S], mut some: impl FnMut() -> S) -> Vec<S> {
        let mut notes: Vec<S> =
            exact.iter().enumerate().map(|(index, set)| *set & (some() | self.reads(index))).collect();
        let mut changed = true;
        while changed {
            changed = false;
            for index in (0..self.count()).rev() {
                for successor in self.successors(index) {
                    let needed = notes[successor as usize] & !self.fills(index);
                    changed |= needed & !notes[index] != S::NONE;
                    notes[index] = notes[index] | needed;
                }
            }
        }
        notes
    }

    /// The parcel with these notes.
    pub fn parcel(&self, notes: &[S]) -> Vec<u8> {
        parcel_of(self.entry, &self.words(), notes)
    }

    fn registers(&self, index: usize, counts: impl Fn(u8) -> bool) -> S {
        let instruction = &self.instructions[index];
        let sources = &instruction.sources[..ROWS[instruction.row as usize].sources];
        sources.iter().filter(|byte| counts(**byte)).fold(S::NONE, |set, byte| set | S::register(byte % 64))
    }
}

/// Neighbouring registers; after 63 comes 0.
#[derive(Clone, Copy)]
struct Pool {
    first: u8,
    count: u8,
}

impl Pool {
    fn pick(self, rng: &mut Rng) -> u8 {
        self.first.wrapping_add(rng.below(self.count.into()) as u8) % 64
    }
}

/// A random instruction at an index, on the pool's registers; the last one ends.
fn step(rng: &mut Rng, shape: Shape, pool: Pool, rows: &[u8], index: usize) -> Instruction {
    let row = row(rng, shape, rows);
    let mut next = instruction(rng, row);
    if ROWS[row as usize].destination {
        next.register = pool.pick(rng);
    }
    for byte in &mut next.sources[..ROWS[row as usize].sources] {
        if *byte < 128 {
            *byte = *byte & 64 | pool.pick(rng);
        }
    }
    if row == BRANCH {
        next.offset = target(rng, index, shape.count) as i32 - index as i32 - 1;
    }
    if index + 1 == shape.count || rng.percent(shape.ends) {
        next.flow = END;
    } else if next.flow == END {
        next.flow = 0;
    }
    next
}

fn row(rng: &mut Rng, shape: Shape, rows: &[u8]) -> u8 {
    if rng.percent(shape.branches) {
        return BRANCH;
    }
    loop {
        let row = rng.pick(rows);
        if row != BRANCH {
            return row;
        }
    }
}

/// A target near the branch, or anywhere.
fn target(rng: &mut Rng, index: usize, count: usize) -> usize {
    if rng.percent(30) {
        return rng.below(count);
    }
    (index + rng.below(12)).saturating_sub(4).min(count - 1)
}

/// A held register, a uniform or a constant in place of an unheld register.
fn replacement(rng: &mut Rng, held: u64, page: u8) -> u8 {
    if held != 0 && rng.percent(70) {
        return rng.member(held).trailing_zeros() as u8;
    }
    loop {
        let byte = source(rng, page);
        if byte >= 128 {
            return byte;
        }
    }
}
