//! The second program as a C program links it: the operations of
//! `include/tco.h` with `second_` for `tco_`.
//!
//! # Safety
//!
//! What is lent is as `include/tco.h` asks for it: each pointer to as many
//! bytes as its length says, and no two of them to the same bytes.

#![allow(clippy::missing_safety_doc)]

use std::slice::{from_raw_parts, from_raw_parts_mut};

use crate::interface::{
    Account, Code, Link, Made, Part, Reply, State, Status, StatusRead, StatusWritten, Transaction,
};

#[no_mangle]
pub extern "C" fn second_fresh_state(maximum: u32, check: bool) -> Made {
    crate::fresh_state(maximum, check)
}

#[no_mangle]
pub unsafe extern "C" fn second_fresh_settings(settings: *mut u8, settings_len: usize) -> u32 {
    crate::fresh_settings(from_raw_parts_mut(settings, settings_len))
}

#[no_mangle]
pub unsafe extern "C" fn second_transact(
    state: &mut State,
    store: *mut u8,
    store_len: usize,
    settings: *mut u8,
    settings_len: usize,
    transaction: Transaction,
    bytes: *const u8,
    bytes_len: usize,
) -> Reply {
    crate::transact(
        state,
        from_raw_parts_mut(store, store_len),
        from_raw_parts_mut(settings, settings_len),
        transaction,
        from_raw_parts(bytes, bytes_len),
    )
}

#[no_mangle]
pub unsafe extern "C" fn second_check_code(
    address: u8,
    command: u8,
    bytes: *const u8,
    bytes_len: usize,
) -> Code {
    crate::check_code(address, command, from_raw_parts(bytes, bytes_len))
}

#[no_mangle]
pub unsafe extern "C" fn second_shown(store: *const u8, store_len: usize, length: usize) -> usize {
    crate::shown(from_raw_parts(store, store_len), length)
}

#[no_mangle]
pub unsafe extern "C" fn second_mac_in_force(
    settings: *const u8,
    settings_len: usize,
    flash: *const u8,
    flash_len: usize,
) -> Part {
    crate::mac_in_force(from_raw_parts(settings, settings_len), from_raw_parts(flash, flash_len))
}

#[no_mangle]
pub unsafe extern "C" fn second_ipv4_in_force(
    settings: *const u8,
    settings_len: usize,
    flash: *const u8,
    flash_len: usize,
) -> Part {
    crate::ipv4_in_force(from_raw_parts(settings, settings_len), from_raw_parts(flash, flash_len))
}

#[no_mangle]
pub extern "C" fn second_write_status(fields: Status) -> StatusWritten {
    crate::write_status(fields)
}

#[no_mangle]
pub unsafe extern "C" fn second_read_status(block: *const u8, block_len: usize) -> StatusRead {
    crate::read_status(from_raw_parts(block, block_len))
}

#[no_mangle]
pub extern "C" fn second_set_link(
    in_force: u32,
    word: u32,
    host_present: bool,
    media: u32,
) -> Link {
    crate::set_link(in_force, word, host_present, media)
}

#[no_mangle]
pub unsafe extern "C" fn second_print_account(
    account: Account,
    out: *mut u8,
    out_len: usize,
) -> usize {
    crate::print_account(account, from_raw_parts_mut(out, out_len))
}
