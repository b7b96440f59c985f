//! One case put to a builder, in memory of its own, and held to the original's answer.

use framing::{Answer, Case};

/// What a builder does: the text, the events and both buffers.
pub type Build = fn(&[u8], &[u8], &mut [u32], &mut [u32]) -> [u32; 3];

/// How the inputs and the buffers lie in memory.
#[derive(Debug, Clone, Copy, PartialEq)]
pub enum Memory {
    /// Guards on both sides of each, looked at afterwards.
    Guarded,
    /// Each an allocation of its exact size, for a memory checker.
    Exact,
}

/// What the buffers and the guards hold beforehand, and how many entries a guard has.
pub const BEFORE: u32 = 0xA5A5_A5A5;
pub const BEFORE_BYTE: u8 = 0xA5;
const GUARD: usize = 16;

/// Entries that are lent, between guards or alone.
pub struct Lent<T> {
    entries: Box<[T]>,
    guard: usize,
}

impl<T: Copy + PartialEq> Lent<T> {
    pub fn new(content: &[T], guard: T, memory: Memory) -> Self {
        let size = if memory == Memory::Guarded { GUARD } else { 0 };
        let guards = vec![guard; size];
        Self { entries: [&guards, content, &guards].concat().into_boxed_slice(), guard: size }
    }

    pub fn lent(&mut self) -> &mut [T] {
        let end = self.entries.len() - self.guard;
        &mut self.entries[self.guard..end]
    }

    /// Whether the guards are as before.
    pub fn is_guarded(&self, guard: T) -> bool {
        let (before, rest) = self.entries.split_at(self.guard);
        let after = &rest[rest.len() - self.guard..];
        before.iter().chain(after).all(|entry| *entry == guard)
    }
}

/// What a builder left.
pub struct Outcome {
    pub returned: [u32; 3],
    pub records: Vec<u32>,
    pub pieces: Vec<u32>,
    /// Whether the text and the events are as before, and all guards.
    pub kept: bool,
}

pub fn outcome(build: Build, case: &Case, memory: Memory) -> Outcome {
    let mut text = Lent::new(&case.text, BEFORE_BYTE, memory);
    let mut events = Lent::new(&case.events, BEFORE_BYTE, memory);
    let mut records = Lent::new(&vec![BEFORE; case.record_room as usize], BEFORE, memory);
    let mut pieces = Lent::new(&vec![BEFORE; case.piece_room as usize], BEFORE, memory);
    let returned = build(text.lent(), events.lent(), records.lent(), pieces.lent());
    let kept = text.lent() == case.text && events.lent() == case.events;
    let guarded = [text.is_guarded(BEFORE_BYTE), events.is_guarded(BEFORE_BYTE)] == [true; 2]
        && [records.is_guarded(BEFORE), pieces.is_guarded(BEFORE)] == [true; 2];
    Outcome { returned, records: records.lent().to_vec(), pieces: pieces.lent().to_vec(), kept: kept && guarded }
}

impl Outcome {
    /// Whether every number is the original's, and zero behind them. Where the original panicked, nothing is said but
    /// that nothing else was written.
    pub fn is(&self, answer: &Answer) -> bool {
        let same = self.returned == answer.returned
            && holds(&self.records, &answer.records)
            && holds(&self.pieces, &answer.pieces);
        self.kept && (same || answer.returned[0] == Answer::PANICKED)
    }
}

pub fn holds(buffer: &[u32], expected: &[u32]) -> bool {
    buffer.starts_with(expected) && buffer[expected.len()..].iter().all(|number| *number == 0)
}

/// Whether a builder does not answer a case as the original does.
pub fn differs(build: Build, case: &Case, memory: Memory) -> bool {
    !outcome(build, case, memory).is(&answers::answer(case))
}
