//! The inputs of calls: plausible most of the time, else at an edge or anything
//! at all.

use reference::account::{
    Account, BYTES, FATES, FRAGMENTS, HIGHEST_TOTAL, LONGEST_FRAGMENT, PACKETS, ROWS,
};
use reference::packet::LONGEST_PACKET;
use reference::pec;
use reference::random::Random;
use reference::settings::{CBDM, LONG_FORM_BYTES, MAC_KEPT, SETTINGS_BYTES, SHORT_FORM_BYTES};
use reference::state::{State, HIGHEST_MAXIMUM};
use reference::translator::{
    FIRST, FIRST_FRAGMENT, LAST, LAST_FRAGMENT, MIDDLE_FRAGMENT, RECEIVE_ENABLE, WHOLE_PACKET,
};
use second::interface::{Status, Transaction, BLOCK_BYTES};

/// The most bytes of a store, of settings, of data and of a status block that
/// are lent.
pub const STORE_MOST: usize = 2100;
pub const SETTINGS_MOST: usize = 40;
pub const DATA_MOST: usize = 600;
pub const BLOCK_MOST: usize = 20;

/// More data bytes have no code.
const CODED_MOST: usize = u8::MAX as usize;

/// The lowest bits of the fields of a status block. The match of an index lies
/// above it.
const PACKET_STATUS_BIT: u64 = 16;
const VLAN_INDEX_BIT: u64 = 48;
const DECISION_INDEX_BIT: u64 = 52;
const MNG_RESERVED_BIT: u64 = 57;

/// A sound state: fresh, in use, or with little or no room left in its account.
pub fn state(random: &mut Random) -> State {
    let maximum =
        if random.one_in(2) { HIGHEST_MAXIMUM } else { random.between(1, HIGHEST_MAXIMUM) };
    let check = random.below(2) as u8;
    let mut account = Account::default();
    if random.one_in(2) {
        return State { account, maximum, check };
    }
    let many = random.pick(&[2, 1000, HIGHEST_TOTAL / (FATES as u64 + 1)]);
    for fate in ROWS {
        let fragments = random.below(many);
        let row = &mut account.grid[fate as usize];
        row[FRAGMENTS] = fragments;
        if fate.has_bytes() {
            row[BYTES] = random.between(0, LONGEST_FRAGMENT * fragments);
        }
        if fate.has_packets() {
            row[PACKETS] = random.between(0, fragments);
        }
    }
    account.open_fragments = random.pick(&[0, 0, 1, 2, 6, 7]);
    let most = maximum * account.open_fragments;
    account.open_bytes = random.between(account.open_fragments, most);
    account.taken = random.below(1000);
    account.refused = random.below(1000);
    account.total = sum(&account);
    if random.one_in(4) {
        let left = HIGHEST_TOTAL - account.total - random.pick(&[0, 1, 2, 30]);
        account.taken += left;
        account.total += left;
    }
    State { account, maximum, check }
}

/// The same sound state with one number or the check changed, often so that it
/// is not sound, or with all changed.
pub fn altered(random: &mut Random, state: &State) -> State {
    let mut altered = match random.below(8) {
        0 => {
            let numbers = std::array::from_fn(|_| random.u64() >> random.below(64));
            State::of_numbers(numbers, random.byte())
        }
        1 => return State { maximum: altered_number(random, state.maximum), ..*state },
        2 => return open_past_maximum(random, state),
        3 => return State { check: random.pick(&[0, 1, 2, 3, 0x80, 0x81, u8::MAX]), ..*state },
        _ => {
            let mut numbers = state.numbers();
            let place = random.below(numbers.len() as u64) as usize;
            numbers[place] = altered_number(random, numbers[place]);
            State::of_numbers(numbers, state.check)
        }
    };
    if random.one_in(2) {
        altered.account.total = sum(&altered.account);
    }
    altered
}

fn altered_number(random: &mut Random, number: u64) -> u64 {
    random.pick(&[
        number.wrapping_add(1),
        number.wrapping_sub(1),
        number ^ 1 << 32,
        number ^ 1 << 63,
        0,
        1,
        HIGHEST_MAXIMUM,
        HIGHEST_MAXIMUM + 1,
        HIGHEST_TOTAL,
        HIGHEST_TOTAL + 1,
        u64::MAX / HIGHEST_MAXIMUM,
        u64::MAX / HIGHEST_MAXIMUM + 1,
        1 << 63,
        u64::MAX,
    ])
}

/// The state with bytes that its maximum does not allow for so many open
/// fragments, though a larger one may.
fn open_past_maximum(random: &mut Random, state: &State) -> State {
    let mut account = state.account;
    account.open_fragments = random.pick(&[1, 2, 7]);
    let least = state.maximum * account.open_fragments + 1;
    account.open_bytes = random.between(least, LONGEST_FRAGMENT * account.open_fragments + 1);
    account.total = sum(&account);
    State { account, ..*state }
}

fn sum(account: &Account) -> u64 {
    let beside = [account.open_fragments, account.taken, account.refused];
    let in_grid = account.grid.iter().map(|row| row[FRAGMENTS]);
    in_grid.chain(beside).fold(0, u64::wrapping_add)
}

/// Sound settings, and any bytes after them.
pub fn settings(random: &mut Random) -> Vec<u8> {
    let mut settings = random.bytes(SETTINGS_MOST);
    settings[0] = control(random);
    settings[1] = random.below(4) as u8;
    if settings[0] & CBDM != 0 {
        settings[1] |= MAC_KEPT;
    }
    settings
}

/// The same settings with one of the bytes changed that decide whether they
/// are sound, or with all.
pub fn altered_settings(random: &mut Random, settings: &[u8]) -> Vec<u8> {
    if random.one_in(8) {
        return random.bytes(settings.len());
    }
    let mut settings = settings.to_vec();
    settings[random.below(2) as usize] = random.byte();
    settings
}

/// An allowed control byte.
fn control(random: &mut Random) -> u8 {
    random.pick(&[0x40, 0x41, 0x48, 0x49, 0x61, 0x6f, 0xc1, 0xc9, 0xdf])
}

/// A transaction for this state and its data: often one that goes on with the
/// open packet, most of the time with the right code.
pub fn transaction(random: &mut Random, state: &State) -> (Transaction, Vec<u8>) {
    let address = random.byte();
    let command = command(random, state.account.open_fragments > 0);
    let link_up = !random.one_in(8);
    let bytes = if command == RECEIVE_ENABLE {
        enable_bytes(random)
    } else {
        let length = fragment_length(random, state);
        random.bytes(length)
    };
    let code = code(random, address, command, &bytes);
    (Transaction { address, command, code, link_up }, bytes)
}

/// The right code most of the time, else with one bit turned, or any. Data that
/// have none get that of a count cut to a byte.
fn code(random: &mut Random, address: u8, command: u8, bytes: &[u8]) -> u8 {
    let before = pec::by_bits(0, &[address, command, bytes.len() as u8]);
    let code = pec::by_bits(before, bytes);
    match random.below(32) {
        0 => code ^ 1 << random.below(8),
        1 => random.byte(),
        _ => code,
    }
}

fn enable_bytes(random: &mut Random) -> Vec<u8> {
    let length = match random.below(8) {
        0..=2 => SHORT_FORM_BYTES,
        3..=5 => LONG_FORM_BYTES,
        _ => random.pick(&[0, 2, 13, 15, 255, 256 + SHORT_FORM_BYTES, 256 + LONG_FORM_BYTES]),
    };
    let mut bytes = random.bytes(length);
    if length > 0 && !random.one_in(4) {
        bytes[0] = control(random);
    }
    bytes
}

fn command(random: &mut Random, is_open: bool) -> u8 {
    match random.below(32) {
        0 => random.byte(),
        1 => random.byte() | FIRST | LAST,
        2 | 3 => RECEIVE_ENABLE,
        4 => random.pick(&[FIRST_FRAGMENT, MIDDLE_FRAGMENT, LAST_FRAGMENT, WHOLE_PACKET]),
        _ if is_open && random.one_in(8) => LAST_FRAGMENT,
        _ if is_open => MIDDLE_FRAGMENT,
        _ if random.one_in(4) => WHOLE_PACKET,
        _ => FIRST_FRAGMENT,
    }
}

fn fragment_length(random: &mut Random, state: &State) -> usize {
    let maximum = state.maximum;
    let length = match random.below(8) {
        0 => {
            let coded = coded_length(random) as u64;
            random.pick(&[0, 1, maximum - 1, maximum + 1, 240, 241, coded, coded])
        }
        1 => random.below(DATA_MOST as u64),
        2 => 1 + random.below(maximum),
        3 => {
            let edges =
                [16, 17, 59, 60, 61, LONGEST_PACKET - 1, LONGEST_PACKET, LONGEST_PACKET + 1];
            random.pick(&edges).saturating_sub(state.account.open_bytes).min(maximum)
        }
        _ => maximum,
    };
    length as usize
}

/// A length of data, often about the most that has a code.
pub fn coded_length(random: &mut Random) -> usize {
    let usual = 250 + random.below(11) as usize;
    length(random, usual, CODED_MOST, DATA_MOST)
}

/// Fields of status data that are allowed, but for one or two of them at times.
pub fn status(random: &mut Random) -> Status {
    let mut status = allowed_status(random);
    for _ in 0..random.below(3) {
        alter_status(random, &mut status);
    }
    status
}

fn allowed_status(random: &mut Random) -> Status {
    let mut status = Status {
        length: random.between(1, LONGEST_PACKET) as u16,
        vlan: random.u16(),
        decision_match: random.one_in(2),
        vlan_match: random.one_in(2),
        ..Status::default()
    };
    if status.decision_match {
        status.decision_index = random.below(8) as u8;
    }
    if status.vlan_match {
        status.vlan_index = random.below(8) as u8;
    }
    status
}

fn alter_status(random: &mut Random, status: &mut Status) {
    match random.below(3) {
        0 => status.length = length_word(random, status.length),
        1 => status.decision_index = random.pick(&[0, 1, 7, 8, 15, 16, u8::MAX]),
        _ => status.vlan_index = random.pick(&[0, 1, 7, 8, 16, u8::MAX]),
    }
}

/// A length, or the word of one in a block, at an edge or with reserved bits.
fn length_word(random: &mut Random, length: u16) -> u16 {
    random.pick(&[0, 1, 1536, 1537, 1 << 14, u16::MAX, length | 1 << 14, length | 1 << 15])
}

/// A status block: one that can be read, but for one or two fields or its size
/// at times, or any bytes.
pub fn block(random: &mut Random) -> Vec<u8> {
    let mut block = if random.one_in(8) {
        random.bytes(BLOCK_BYTES)
    } else {
        second::write_status(allowed_status(random)).block.to_vec()
    };
    for _ in 0..random.below(3) {
        alter_block(random, &mut block);
    }
    let size = length(random, BLOCK_BYTES, BLOCK_BYTES, BLOCK_MOST);
    block.resize(size, random.byte());
    block
}

/// Changes one field of a block, often so that it is bad, or any bit. Bits are
/// numbered through the whole block.
fn alter_block(random: &mut Random, block: &mut [u8]) {
    let bit = match random.below(6) {
        0 => {
            let length = u16::from_le_bytes([block[0], block[1]]);
            block[..2].copy_from_slice(&length_word(random, length).to_le_bytes());
            return;
        }
        1 => PACKET_STATUS_BIT + random.below(16),
        2 => VLAN_INDEX_BIT + random.below(4),
        3 => DECISION_INDEX_BIT + random.below(5),
        4 => MNG_RESERVED_BIT + random.below(7),
        _ => random.below(8 * BLOCK_BYTES as u64),
    } as usize;
    block[bit / 8] ^= 1 << (bit % 8);
}

/// A Set Link word.
pub fn word(random: &mut Random) -> u32 {
    let meant = random.u32() & 0xf1f;
    if random.one_in(4) {
        meant | 1 << random.below(32)
    } else {
        meant
    }
}

/// A length to lend: the usual one most of the time, else any, often at the
/// edge of what is needed.
pub fn length(random: &mut Random, usual: usize, needed: usize, most: usize) -> usize {
    if !random.one_in(8) {
        usual
    } else if random.one_in(2) {
        random.pick(&[0, 1, needed - 1, needed, needed + 1, most]).min(most)
    } else {
        random.below(most as u64 + 1) as usize
    }
}

/// The usual length of what a session lends.
pub fn usual_length(random: &mut Random, needed: usize, most: usize) -> usize {
    random.pick(&[needed, needed + 1, most])
}

const _: () = assert!(SETTINGS_BYTES < SETTINGS_MOST && (LONGEST_PACKET as usize) < STORE_MOST);
