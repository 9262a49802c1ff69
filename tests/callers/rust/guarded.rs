//! What is lent to a call, between guard bytes.

use std::ops::{Deref, DerefMut};

use reference::random::Random;
use second::interface::State;

const GUARD: u8 = 0xa5;
const GUARD_BYTES: usize = 64;
const ALIGNMENTS: u64 = 16;

/// A copy of bytes between guard bytes.
pub struct Guarded {
    all: Vec<u8>,
    start: usize,
    end: usize,
}

impl Guarded {
    /// Such a copy, of any alignment.
    pub fn new(bytes: &[u8], random: &mut Random) -> Guarded {
        let start = GUARD_BYTES + random.below(ALIGNMENTS) as usize;
        let end = start + bytes.len();
        let mut all = vec![GUARD; end + GUARD_BYTES];
        all[start..end].copy_from_slice(bytes);
        Guarded { all, start, end }
    }

    /// Whether every guard byte is as it was.
    pub fn intact(&self) -> bool {
        let around = self.all[..self.start].iter().chain(&self.all[self.end..]);
        around.copied().all(|byte| byte == GUARD)
    }
}

impl Deref for Guarded {
    type Target = [u8];

    fn deref(&self) -> &[u8] {
        &self.all[self.start..self.end]
    }
}

impl DerefMut for Guarded {
    fn deref_mut(&mut self) -> &mut [u8] {
        &mut self.all[self.start..self.end]
    }
}

/// A copy of a state between guard bytes.
#[repr(C)]
pub struct GuardedState {
    before: [u8; GUARD_BYTES],
    pub state: State,
    after: [u8; GUARD_BYTES],
}

impl GuardedState {
    pub fn new(state: State) -> GuardedState {
        GuardedState { before: [GUARD; GUARD_BYTES], state, after: [GUARD; GUARD_BYTES] }
    }

    /// Whether every guard byte is as it was.
    pub fn intact(&self) -> bool {
        self.before == [GUARD; GUARD_BYTES] && self.after == [GUARD; GUARD_BYTES]
    }
}
