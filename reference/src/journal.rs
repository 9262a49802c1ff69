//! A journal read in pieces of any size, its account worked out by replay.
//!
//! A journal is a header and records. The header is "TCO", the version in 16
//! bits low byte first, and the fragment maximum as a byte. A record is a
//! command, the link and a length, a byte each, and that many bytes of data. In
//! version 2 the address byte stands before them and the check byte behind them.

use crate::account::Account;
use crate::answer_numbers::DONE;
use crate::packet::LONGEST_PACKET;
use crate::settings::{FRESH_SETTINGS, SETTINGS_BYTES};
use crate::state::{self, State, CHECK_ON};
use crate::translator::{self, Transaction};

/// The size of a header: its name, the version and the maximum.
pub const HEADER_BYTES: usize = 6;
/// The size of the longest record, one with address and check byte. It is longer
/// than a header.
pub const LONGEST_RECORD: usize = 4 + u8::MAX as usize + 1;

const NAME: [u8; 3] = *b"TCO";

/// What a record of a journal holds, by the version in its header.
#[derive(Clone, Copy, Debug, PartialEq, Eq)]
pub enum Version {
    /// Neither address nor check byte; it is read with the check off.
    Unchecked = 1,
    /// Both of them; it is read with the check on.
    Checked = 2,
}

/// Both versions.
pub const VERSIONS: [Version; 2] = [Version::Unchecked, Version::Checked];

impl Version {
    /// The header of a journal of this version, for a maximum.
    pub fn header(self, maximum: u8) -> [u8; HEADER_BYTES] {
        let [t, c, o] = NAME;
        let [low, high] = (self as u16).to_le_bytes();
        [t, c, o, low, high, maximum]
    }
}

/// A journal that is being read.
pub struct Replay {
    held: [u8; LONGEST_RECORD],
    held_bytes: usize,
    known: Known,
}

/// What is known after the last whole header or record.
struct Known {
    stage: Stage,
    state: State,
    store: [u8; LONGEST_PACKET as usize],
    settings: [u8; SETTINGS_BYTES],
}

#[derive(Clone, Copy, PartialEq, Eq)]
enum Stage {
    Header,
    Records,
    Bad,
}

impl Replay {
    /// A journal of which nothing was read yet.
    pub fn new() -> Replay {
        let known = Known {
            stage: Stage::Header,
            state: State::default(),
            store: [0; LONGEST_PACKET as usize],
            settings: FRESH_SETTINGS,
        };
        Replay { held: [0; LONGEST_RECORD], held_bytes: 0, known }
    }

    /// Reads the next piece.
    pub fn feed(&mut self, piece: &[u8]) {
        let mut rest = piece;
        if self.held_bytes > 0 {
            // What is held has room for any record, so that one which is still
            // not whole has taken in the whole piece.
            let before = self.held_bytes;
            self.hold(&rest[..rest.len().min(LONGEST_RECORD - before)]);
            let size = match self.known.take(&self.held[..self.held_bytes]) {
                Some(size) => size,
                None => return,
            };
            self.held_bytes = 0;
            rest = &rest[size - before..];
        }
        while let Some(size) = self.known.take(rest) {
            rest = &rest[size..];
        }
        self.hold(rest);
    }

    /// The account, all pieces read; none of a bad journal.
    pub fn end(self) -> Option<Account> {
        let whole = self.known.stage == Stage::Records && self.held_bytes == 0;
        whole.then_some(self.known.state.account)
    }

    /// Whether the pieces so far make any journal bad, whatever comes behind them.
    pub fn is_bad(&self) -> bool {
        self.known.stage == Stage::Bad
    }

    fn hold(&mut self, bytes: &[u8]) {
        self.held[self.held_bytes..][..bytes.len()].copy_from_slice(bytes);
        self.held_bytes += bytes.len();
    }
}

impl Default for Replay {
    fn default() -> Replay {
        Replay::new()
    }
}

impl Known {
    /// Takes what comes next, and gives its size; nothing where it is not
    /// whole. All that follows what is bad is passed over.
    fn take(&mut self, bytes: &[u8]) -> Option<usize> {
        match self.stage {
            Stage::Header => self.header(bytes),
            Stage::Records => self.record(bytes),
            Stage::Bad => (!bytes.is_empty()).then_some(bytes.len()),
        }
    }

    fn header(&mut self, bytes: &[u8]) -> Option<usize> {
        let header = bytes.get(..HEADER_BYTES)?;
        let maximum = header[HEADER_BYTES - 1];
        self.stage = Stage::Bad;
        if let Some(version) = VERSIONS.iter().find(|version| version.header(maximum) == header) {
            let check = *version == Version::Checked;
            let (answer, state) = state::fresh(u32::from(maximum), check);
            self.state = state;
            if answer == DONE {
                self.stage = Stage::Records;
            }
        }
        Some(HEADER_BYTES)
    }

    fn record(&mut self, bytes: &[u8]) -> Option<usize> {
        let mut rest = bytes;
        let checked = self.state.check == CHECK_ON;
        let address = if checked { taken(&mut rest, 1)?[0] } else { 0 };
        let command = taken(&mut rest, 1)?[0];
        let link_up = match taken(&mut rest, 1)?[0] {
            0 => false,
            1 => true,
            _ => {
                self.stage = Stage::Bad;
                return Some(bytes.len());
            }
        };
        let length = taken(&mut rest, 1)?[0];
        let data = taken(&mut rest, usize::from(length))?;
        let code = if checked { taken(&mut rest, 1)?[0] } else { 0 };
        // Its answer is nobody's concern: what was counted stands in the
        // account, and a full one stays as it is.
        let Known { state, store, settings, .. } = self;
        let transaction = Transaction { address, command, code, link_up };
        translator::transact(state, store, settings, transaction, data);
        Some(bytes.len() - rest.len())
    }
}

/// Takes so many bytes off the front; nothing where there are fewer.
fn taken<'a>(rest: &mut &'a [u8], size: usize) -> Option<&'a [u8]> {
    let front = rest.get(..size)?;
    *rest = &rest[size..];
    Some(front)
}
