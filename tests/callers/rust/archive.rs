//! The static library as a Rust program calls it.

use second::interface::{
    Account, Code, Link, Made, Part, Reply, State, Status, StatusRead, StatusWritten, Transaction,
};

extern "C" {
    fn tco_fresh_state(maximum: u32, check: bool) -> Made;
    fn tco_fresh_settings(settings: *mut u8, settings_len: usize) -> u32;
    fn tco_transact(
        state: *mut State,
        store: *mut u8,
        store_len: usize,
        settings: *mut u8,
        settings_len: usize,
        transaction: Transaction,
        bytes: *const u8,
        bytes_len: usize,
    ) -> Reply;
    fn tco_check_code(address: u8, command: u8, bytes: *const u8, bytes_len: usize) -> Code;
    fn tco_shown(store: *const u8, store_len: usize, length: usize) -> usize;
    fn tco_mac_in_force(
        settings: *const u8,
        settings_len: usize,
        flash: *const u8,
        flash_len: usize,
    ) -> Part;
    fn tco_ipv4_in_force(
        settings: *const u8,
        settings_len: usize,
        flash: *const u8,
        flash_len: usize,
    ) -> Part;
    fn tco_write_status(fields: Status) -> StatusWritten;
    fn tco_read_status(block: *const u8, block_len: usize) -> StatusRead;
    fn tco_set_link(in_force: u32, word: u32, host_present: bool, media: u32) -> Link;
    fn tco_print_account(account: Account, out: *mut u8, out_len: usize) -> usize;
}

// SAFETY, of every call below: a slice gives a pointer to as many bytes as its
// length says, and no two slices that are lent at once share a byte where one
// of them can be written.

pub fn fresh_state(maximum: u32, check: bool) -> Made {
    unsafe { tco_fresh_state(maximum, check) }
}

pub fn fresh_settings(settings: &mut [u8]) -> u32 {
    unsafe { tco_fresh_settings(settings.as_mut_ptr(), settings.len()) }
}

pub fn transact(
    state: &mut State,
    store: &mut [u8],
    settings: &mut [u8],
    transaction: Transaction,
    bytes: &[u8],
) -> Reply {
    unsafe {
        tco_transact(
            state,
            store.as_mut_ptr(),
            store.len(),
            settings.as_mut_ptr(),
            settings.len(),
            transaction,
            bytes.as_ptr(),
            bytes.len(),
        )
    }
}

pub fn check_code(address: u8, command: u8, bytes: &[u8]) -> Code {
    unsafe { tco_check_code(address, command, bytes.as_ptr(), bytes.len()) }
}

pub fn shown(store: &[u8], length: usize) -> usize {
    unsafe { tco_shown(store.as_ptr(), store.len(), length) }
}

pub fn mac_in_force(settings: &[u8], flash: &[u8]) -> Part {
    unsafe { tco_mac_in_force(settings.as_ptr(), settings.len(), flash.as_ptr(), flash.len()) }
}

pub fn ipv4_in_force(settings: &[u8], flash: &[u8]) -> Part {
    unsafe { tco_ipv4_in_force(settings.as_ptr(), settings.len(), flash.as_ptr(), flash.len()) }
}

pub fn write_status(fields: Status) -> StatusWritten {
    unsafe { tco_write_status(fields) }
}

pub fn read_status(block: &[u8]) -> StatusRead {
    unsafe { tco_read_status(block.as_ptr(), block.len()) }
}

pub fn set_link(in_force: u32, word: u32, host_present: bool, media: u32) -> Link {
    unsafe { tco_set_link(in_force, word, host_present, media) }
}

pub fn print_account(account: Account, out: &mut [u8]) -> usize {
    unsafe { tco_print_account(account, out.as_mut_ptr(), out.len()) }
}
