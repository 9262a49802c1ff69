//! The structs of the C interface, as `include/tco.h` declares them.

use std::mem::{align_of, size_of};
use std::ptr::addr_of;

/// The numbers of the grid.
pub const GRID: usize = 30;
/// The bytes of a status block.
pub const BLOCK_BYTES: usize = 8;

/// `tco_account`
#[repr(C)]
#[derive(Clone, Copy, Debug, Default, PartialEq, Eq)]
pub struct Account {
    pub grid: [u64; GRID],
    pub open_fragments: u64,
    pub open_bytes: u64,
    pub taken: u64,
    pub refused: u64,
    pub total: u64,
}

/// `tco_state`
#[repr(C)]
#[derive(Clone, Copy, Debug, Default, PartialEq, Eq)]
pub struct State {
    pub account: Account,
    pub maximum: u64,
    pub check: u8,
}

/// `tco_transaction`
#[repr(C)]
#[derive(Clone, Copy, Debug, Default, PartialEq, Eq)]
pub struct Transaction {
    pub address: u8,
    pub command: u8,
    pub code: u8,
    pub link_up: bool,
}

/// `tco_reply`
#[repr(C)]
#[derive(Clone, Copy, Debug, Default, PartialEq, Eq)]
pub struct Reply {
    pub answer: u32,
    pub sent: u32,
}

/// `tco_made`
#[repr(C)]
#[derive(Clone, Copy, Debug, Default, PartialEq, Eq)]
pub struct Made {
    pub answer: u32,
    pub state: State,
}

/// `tco_code`
#[repr(C)]
#[derive(Clone, Copy, Debug, Default, PartialEq, Eq)]
pub struct Code {
    pub answer: u32,
    pub code: u8,
}

/// `tco_part`
#[repr(C)]
#[derive(Clone, Copy, Debug, Default, PartialEq, Eq)]
pub struct Part {
    pub source: u32,
    pub start: u32,
    pub length: u32,
}

/// `tco_status`
#[repr(C)]
#[derive(Clone, Copy, Debug, Default, PartialEq, Eq)]
pub struct Status {
    pub length: u16,
    pub vlan: u16,
    pub decision_match: bool,
    pub decision_index: u8,
    pub vlan_match: bool,
    pub vlan_index: u8,
}

/// `tco_status_written`
#[repr(C)]
#[derive(Clone, Copy, Debug, Default, PartialEq, Eq)]
pub struct StatusWritten {
    pub answer: u32,
    pub field: u32,
    pub block: [u8; BLOCK_BYTES],
}

/// `tco_status_read`
#[repr(C)]
#[derive(Clone, Copy, Debug, Default, PartialEq, Eq)]
pub struct StatusRead {
    pub answer: u32,
    pub field: u32,
    pub fields: Status,
}

/// `tco_link`
#[repr(C)]
#[derive(Clone, Copy, Debug, Default, PartialEq, Eq)]
pub struct Link {
    pub response: u16,
    pub reason: u16,
    pub in_force: u32,
}

// The same numbers as in c/layout.c.
macro_rules! layout {
    ($($type:ty, size $size:literal, align $align:literal, $($field:ident $offset:literal),+;)+) => {
        $(const _: () = assert!(size_of::<$type>() == $size && align_of::<$type>() == $align);)+

        /// Stops where a field of a struct does not lie where the header has it.
        pub fn assert_offsets() {
            $({
                let whole = <$type>::default();
                $({
                    let offset = addr_of!(whole.$field) as usize - addr_of!(whole) as usize;
                    assert_eq!(offset, $offset, stringify!($type.$field));
                })+
            })+
        }
    };
}
layout! {
    Account, size 280, align 8, grid 0, open_fragments 240, open_bytes 248, taken 256, refused 264,
        total 272;
    State, size 296, align 8, account 0, maximum 280, check 288;
    Transaction, size 4, align 1, address 0, command 1, code 2, link_up 3;
    Reply, size 8, align 4, answer 0, sent 4;
    Made, size 304, align 8, answer 0, state 8;
    Code, size 8, align 4, answer 0, code 4;
    Part, size 12, align 4, source 0, start 4, length 8;
    Status, size 8, align 2, length 0, vlan 2, decision_match 4, decision_index 5, vlan_match 6,
        vlan_index 7;
    StatusWritten, size 16, align 4, answer 0, field 4, block 8;
    StatusRead, size 16, align 4, answer 0, field 4, fields 8;
    Link, size 8, align 4, response 0, reason 2, in_force 4;
}
