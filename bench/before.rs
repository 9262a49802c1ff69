//! The archive that TCO_BEFORE names, from before there was a check; its
//! `tco_transact` is linked as `before_transact`.

use reference::account::{self, COLUMNS};
use reference::state;
use second::interface::Reply;

use crate::{Call, Kept};

/// The numbers of its grid.
const GRID: usize = 27;

/// Its `tco_state`.
#[repr(C)]
pub struct State {
    grid: [u64; GRID],
    open_fragments: u64,
    open_bytes: u64,
    taken: u64,
    refused: u64,
    total: u64,
    maximum: u64,
}

extern "C" {
    fn before_transact(
        state: *mut State,
        store: *mut u8,
        store_len: usize,
        settings: *mut u8,
        settings_len: usize,
        command: u8,
        bytes: *const u8,
        bytes_len: usize,
        link_up: bool,
    ) -> Reply;
}

impl Kept for State {
    fn of(own: &state::State) -> State {
        let account = &own.account;
        State {
            grid: std::array::from_fn(|cell| account.grid[cell / COLUMNS][cell % COLUMNS]),
            open_fragments: account.open_fragments,
            open_bytes: account.open_bytes,
            taken: account.taken,
            refused: account.refused,
            total: account.total,
            maximum: own.maximum,
        }
    }

    fn own(&self) -> state::State {
        let mut account = account::Account {
            open_fragments: self.open_fragments,
            open_bytes: self.open_bytes,
            taken: self.taken,
            refused: self.refused,
            total: self.total,
            ..account::Account::default()
        };
        for (row, cells) in account.grid.iter_mut().zip(self.grid.chunks(COLUMNS)) {
            row.copy_from_slice(cells);
        }
        state::State { account, maximum: self.maximum, check: state::CHECK_OFF }
    }

    fn open(&mut self) -> [&mut u64; 3] {
        [&mut self.open_fragments, &mut self.open_bytes, &mut self.total]
    }

    fn transact(&mut self, call: Call) -> u32 {
        let Call { store, settings, transaction, bytes } = call;
        // SAFETY: a slice gives a pointer to as many bytes as its length says, and
        // no two of these share a byte where one of them can be written.
        let reply = unsafe {
            before_transact(
                self,
                store.as_mut_ptr(),
                store.len(),
                settings.as_mut_ptr(),
                settings.len(),
                transaction.command,
                bytes.as_ptr(),
                bytes.len(),
                transaction.link_up,
            )
        };
        reply.answer
    }
}
