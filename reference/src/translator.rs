//! One transaction on the management bus: I210 data sheet, section 10.5.7.

use crate::account::{Account, Fate, BYTES, FRAGMENTS, HIGHEST_TOTAL, PACKETS};
use crate::answer_numbers::{
    ABORTED, ACCOUNT_FULL, BAD_CHECK, DONE, FRAGMENT_LENGTH, JOINED, LINK_DOWN, NOT_SOUND,
    PACKET_SENT, PACKET_TOO_LONG, PACKET_TOO_SHORT, RECEIVE_ENABLE_TAKEN, TOO_SHORT,
    UNKNOWN_COMMAND,
};
use crate::packet::{self, LONGEST_PACKET, SHORTEST_SENT};
use crate::pec;
use crate::settings::{self, SETTINGS_BYTES};
use crate::state::{self, State, CHECK_ON};

/// The shortest packet that can be sent.
pub const SHORTEST_PACKET: u64 = 17;

/// The F flag of a command: first fragment.
pub const FIRST: u8 = 1 << 7;
/// The L flag of a command: last fragment.
pub const LAST: u8 = 1 << 6;

/// First fragment of a packet.
pub const FIRST_FRAGMENT: u8 = 0x84;
/// Middle fragment of a packet.
pub const MIDDLE_FRAGMENT: u8 = 0x04;
/// Last fragment of a packet.
pub const LAST_FRAGMENT: u8 = 0x44;
/// A whole packet in one fragment.
pub const WHOLE_PACKET: u8 = 0xc4;
/// Receive Enable.
pub const RECEIVE_ENABLE: u8 = 0xca;

#[derive(Clone, Copy)]
enum Class {
    Fragment,
    ReceiveEnable,
    Unknown,
}

/// The class of every command that has one.
const CLASSES: [(u8, Class); 5] = [
    (FIRST_FRAGMENT, Class::Fragment),
    (MIDDLE_FRAGMENT, Class::Fragment),
    (LAST_FRAGMENT, Class::Fragment),
    (WHOLE_PACKET, Class::Fragment),
    (RECEIVE_ENABLE, Class::ReceiveEnable),
];

/// The class of every command, so that no transaction searches for it.
const CLASS_OF: [Class; 256] = {
    let mut class_of = [Class::Unknown; 256];
    let mut place = 0;
    while place < CLASSES.len() {
        let (command, class) = CLASSES[place];
        class_of[command as usize] = class;
        place += 1;
    }
    class_of
};

/// A transaction but for its data.
#[derive(Clone, Copy, Debug, PartialEq, Eq)]
pub struct Transaction {
    /// The address byte that it came under; without the check it is not read.
    pub address: u8,
    /// Its command byte.
    pub command: u8,
    /// Its check byte; without the check it is not read.
    pub code: u8,
    /// Whether the link was up at that moment.
    pub link_up: bool,
}

/// Does one transaction: the answer, and the sent length, which is zero unless
/// a packet is sent.
pub fn transact(
    state: &mut State,
    store: &mut [u8],
    settings: &mut [u8],
    transaction: Transaction,
    data: &[u8],
) -> (u8, u16) {
    if (store.len() as u64) < LONGEST_PACKET || settings.len() < SETTINGS_BYTES {
        return (TOO_SHORT, 0);
    }
    if !state::is_sound(state) || !settings::is_sound(settings) {
        return (NOT_SOUND, 0);
    }
    let State { account, maximum, check } = state;
    if account.total == HIGHEST_TOTAL {
        return (ACCOUNT_FULL, 0);
    }
    account.total += 1;
    if *check == CHECK_ON && !code_right(transaction, data) {
        not_received(account, Fate::BadCheck);
        return (BAD_CHECK, 0);
    }
    match CLASS_OF[usize::from(transaction.command)] {
        Class::Fragment => fragment(account, *maximum, store, transaction, data),
        Class::ReceiveEnable => (receive_enable(account, settings, data), 0),
        Class::Unknown => (unknown(account, transaction.command), 0),
    }
}

fn code_right(transaction: Transaction, data: &[u8]) -> bool {
    let Transaction { address, command, code, .. } = transaction;
    pec::code(address, command, data) == (DONE, code)
}

fn fragment(
    account: &mut Account,
    maximum: u64,
    store: &mut [u8],
    transaction: Transaction,
    data: &[u8],
) -> (u8, u16) {
    let Transaction { command, link_up, .. } = transaction;
    let bytes = data.len() as u64;
    if bytes == 0 || bytes > maximum {
        not_received(account, Fate::BadLength);
        return (FRAGMENT_LENGTH, 0);
    }
    if command & FIRST != 0 {
        end_packet(account, Fate::Superseded);
    } else if account.open_fragments == 0 {
        count_fragment(account, Fate::Aborted, bytes);
        return (ABORTED, 0);
    }
    // Once a packet is too long, so is every later total of it, and nothing
    // more of it is written.
    packet::append(store, account.open_bytes, data);
    account.open_fragments += 1;
    account.open_bytes += bytes;
    if command & LAST == 0 {
        return (JOINED, 0);
    }
    last(account, store, link_up)
}

/// Ends the open packet, which its Last has joined.
fn last(account: &mut Account, store: &mut [u8], link_up: bool) -> (u8, u16) {
    let total = account.open_bytes;
    let (answer, fate) = if total > LONGEST_PACKET {
        (PACKET_TOO_LONG, Fate::Over)
    } else if total < SHORTEST_PACKET {
        (PACKET_TOO_SHORT, Fate::Short)
    } else if !link_up {
        (LINK_DOWN, Fate::LinkDown)
    } else {
        (PACKET_SENT, Fate::Sent)
    };
    end_packet(account, fate);
    if fate != Fate::Sent {
        return (answer, 0);
    }
    packet::fill(store, total);
    (answer, total.max(SHORTEST_SENT) as u16)
}

fn receive_enable(account: &mut Account, settings: &mut [u8], data: &[u8]) -> u8 {
    end_packet(account, Fate::Flushed);
    let answer = settings::receive_enable(settings, data);
    if answer == RECEIVE_ENABLE_TAKEN {
        account.taken += 1;
    } else {
        account.refused += 1;
    }
    answer
}

fn unknown(account: &mut Account, command: u8) -> u8 {
    if command & FIRST != 0 && command & LAST != 0 {
        end_packet(account, Fate::Flushed);
    }
    account.refused += 1;
    UNKNOWN_COMMAND
}

/// Breaks the open packet, if there is one, by a transaction that was not
/// received correctly, which is counted without its bytes.
fn not_received(account: &mut Account, fate: Fate) {
    end_packet(account, Fate::Broken);
    count_fragment(account, fate, 0);
}

/// Moves the open packet, if there is one, into the row of its fate.
fn end_packet(account: &mut Account, fate: Fate) {
    if account.open_fragments == 0 {
        return;
    }
    let row = &mut account.grid[fate as usize];
    row[PACKETS] += 1;
    row[FRAGMENTS] += account.open_fragments;
    row[BYTES] += account.open_bytes;
    account.open_fragments = 0;
    account.open_bytes = 0;
}

/// Counts a transaction that belongs to no packet.
fn count_fragment(account: &mut Account, fate: Fate, bytes: u64) {
    let row = &mut account.grid[fate as usize];
    row[FRAGMENTS] += 1;
    row[BYTES] += bytes;
}
