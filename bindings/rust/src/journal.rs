//! Entries of a session's journal.

use crate::code::numbers;

numbers! {
    /// Which call an entry is.
    Call: Input = 1, Transmit = 2, Copy = 3, Lose = 4, Arrive = 5, Finish = 6, Checkpoint = 7, Trim = 8, Crash = 9, Recover = 10,
    Alone = 11, Replay = 12, Resync = 13
}

numbers! {
    /// Which answer a call got.
    Answer: Logged = 1, Packet = 2, Lost = 3, Started = 4, Numbered = 5, Acknowledged = 6, Shown = 7, Duplicate = 8,
    ShownBefore = 9, Early = 10, Stale = 11, Unreachable = 12, Committed = 13, Replayed = 14, Saved = 15, Trimmed = 16,
    Crashed = 17, Kept = 18, Restored = 19
}

/// A call that was accepted, and what it was answered. Call and answer have numbers, in the order of the entry's line in the
/// trace, and zeros after them.
#[repr(C)]
#[derive(Clone, Copy, Debug, PartialEq, Eq)]
pub struct Entry {
    worker: u32,
    call: u32,
    answer: u32,
    payload_len: u32,
    /// The numbers of the call.
    pub call_numbers: [u64; 3],
    /// The numbers of the answer.
    pub answer_numbers: [u64; 2],
    payload: [u8; 256],
}

impl Entry {
    pub(crate) const BLANK: Entry =
        Entry { worker: 0, call: 0, answer: 0, payload_len: 0, call_numbers: [0; 3], answer_numbers: [0; 2], payload: [0; 256] };

    /// Which call.
    pub fn call(&self) -> Call {
        Call::of(self.call)
    }

    /// Which answer.
    pub fn answer(&self) -> Answer {
        Answer::of(self.answer)
    }

    /// What an input brought.
    pub fn payload(&self) -> &[u8] {
        &self.payload[..self.payload_len as usize]
    }
}
