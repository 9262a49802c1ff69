//! Fragments onto an open packet, on both sides of each edge: where they are
//! written, and where nothing is.

use super::{answers, down, send_pattern, sends, show, start, up, Send};
use crate::generate::account::{random_sound as random_account, set_open, summed};
use crate::generate::state::{unchecked, with_open};
use crate::generate::Cases;
use crate::random::Random;
use reference::account::{Account, HIGHEST_TOTAL};
use reference::settings::FRESH_SETTINGS;
use reference::state::{State, HIGHEST_MAXIMUM};

const SEED: u64 = 0x0000_701e;

/// More open fragments than these are not drawn.
const MOST_FRAGMENTS: u64 = 4_000_000_000;

/// Size of the store, the fragment maximum where it is not the size of the
/// fragment, sizes of the fragment, totals that it brings its packet to.
type Edge = (u16, Option<u64>, &'static [u16], &'static [u16]);

const EDGES: [Edge; 3] = [
    (1536, Some(240), &[1, 2, 9, 20, 64, 239, 240], &[1535, 1536, 1537]),
    (1537, Some(240), &[1, 9, 240], &[1534, 1535, 1536, 1537, 1538]),
    (2048, None, &[1, 2, 9, 20, 64, 239, 240], &[1535, 1536, 1537]),
];

/// What comes at each edge: name, command, link up, edges.
const TO_EDGES: [(&str, u8, bool, &[Edge]); 3] = [
    ("a Middle", 0x04, true, &EDGES),
    ("a Last", 0x44, true, &EDGES),
    ("a Last with the link down", 0x44, false, &[EDGES[2]]),
];

/// Name, place of a fragment without F, its bytes, and its answer as a Last
/// with the link up.
const PLACES: [(&str, u64, u16, u8); 10] = [
    ("one byte at 1", 1, 1, 5),
    ("one byte at 15", 15, 1, 5),
    ("one byte at 16, as a Last filled from 17 on", 16, 1, 1),
    ("9 bytes at 50, as a Last filled by one byte", 50, 9, 1),
    ("9 bytes at 51, as a Last not filled", 51, 9, 1),
    ("one byte at 700", 700, 1, 1),
    ("9 bytes at 700", 700, 9, 1),
    ("240 bytes at 700", 700, 240, 1),
    ("240 bytes at 1296, up to the end of the longest packet", 1296, 240, 1),
    ("one byte at 1535, the last of the longest packet", 1535, 1, 1),
];

/// Packets of 1536 bytes and more: name, bytes, and bytes of the fragment that
/// comes. At those past 65000 bytes a place or a total cut to 16, 31 or 32 bits
/// would be inside the store.
const LONG: [(&str, u64, u16); 18] = [
    ("1536 bytes, then 1", 1536, 1),
    ("1536 bytes, then 240", 1536, 240),
    ("1537 bytes, then 9", 1537, 9),
    ("1680 bytes, then 240", 1680, 240),
    ("2039 bytes, then 9 up to 2048", 2039, 9),
    ("65527 bytes, then 9 up to 2 to the power of 16", 65_527, 9),
    ("65535 bytes, then 2 past 2 to the power of 16", 65_535, 2),
    ("2 to the power of 16 bytes, then 9", 1 << 16, 9),
    ("2 to the power of 16 and 700 bytes, then 20", (1 << 16) + 700, 20),
    ("2 to the power of 16 and 1535 bytes, then 1", (1 << 16) + 1535, 1),
    ("2 to the power of 31 bytes, then 9", 1 << 31, 9),
    ("2 to the power of 32 less 9 bytes, then 9", (1 << 32) - 9, 9),
    ("2 to the power of 32 less 1 bytes, then 240", (1 << 32) - 1, 240),
    ("2 to the power of 32 bytes, then 9", 1 << 32, 9),
    ("2 to the power of 32 and 5 bytes, then 64", (1 << 32) + 5, 64),
    ("2 to the power of 32 and 1535 bytes, then 1", (1 << 32) + 1535, 1),
    ("2 to the power of 39 and 20 bytes, then 239", (1 << 39) + 20, 239),
    ("239 times 2 to the power of 32 and 16 bytes, then 240", 239 * (1 << 32) + 16, 240),
];

/// Packets that a First finds open: name, bytes.
const BEFORE_A_FIRST: [(&str, u64); 7] = [
    ("1 byte", 1),
    ("20 bytes", 20),
    ("1535 bytes", 1535),
    ("1536 bytes", 1536),
    ("1537 bytes", 1537),
    ("2 to the power of 16 and 700 bytes", (1 << 16) + 700),
    ("2 to the power of 32 and 5 bytes", (1 << 32) + 5),
];

/// Name, bytes of the open packet, and what comes.
const LATER: [(&str, u64, &[Send]); 10] = [
    (
        "1440 bytes, a Middle goes past 1536, more Middles and the Last write nothing",
        1440,
        &[up(0x04, 97, 0), up(0x04, 1, 0), up(0x04, 96, 0), up(0x04, 240, 0), up(0x44, 1, 4)],
    ),
    (
        "1440 bytes, a Middle goes past 1536, the Last with the link down writes nothing",
        1440,
        &[up(0x04, 240, 0), down(0x44, 96, 4)],
    ),
    (
        "1535 bytes, a Middle of 2 goes past 1536, then one byte that would have fitted",
        1535,
        &[up(0x04, 2, 0), up(0x04, 1, 0), up(0x44, 1, 4)],
    ),
    (
        "1296 bytes, Middles to 1535 and to 1536 are written, those behind them are not",
        1296,
        &[up(0x04, 239, 0), up(0x04, 1, 0), up(0x04, 1, 0), up(0x44, 1, 4)],
    ),
    (
        "1536 bytes, Middles of one byte write nothing, nor does the Last",
        1536,
        &[up(0x04, 1, 0).times(3), up(0x44, 1, 4)],
    ),
    (
        "1440 bytes, past 1536, a command that ends nothing, then more of it",
        1440,
        &[up(0x04, 97, 0), up(0x4a, 3, 7), up(0x04, 9, 0), up(0x44, 20, 4)],
    ),
    (
        "1440 bytes, past 1536, then a First and its Last, written from 0",
        1440,
        &[up(0x04, 97, 0), up(0x84, 30, 0), up(0x04, 40, 0), up(0x44, 50, 1)],
    ),
    (
        "1440 bytes, past 1536, then a whole packet, written from 0",
        1440,
        &[up(0x04, 97, 0), up(0xc4, 20, 1), up(0x04, 9, 2)],
    ),
    (
        "65400 bytes, Middles past 2 to the power of 16 write nothing, nor does the Last",
        65_400,
        &[up(0x04, 240, 0).times(3), up(0x44, 240, 4)],
    ),
    (
        "2 to the power of 32 less 100 bytes, Middles past it write nothing, nor does the Last",
        (1 << 32) - 100,
        &[up(0x04, 240, 0).times(3), up(0x44, 240, 4)],
    ),
];

/// Adds the cases of this subject.
pub fn generate(cases: &mut Cases) {
    edges(cases);
    places(cases);
    long(cases);
    longest(cases);
    superseded(cases);
    later(cases);
    random(cases);
}

/// Starts from an open packet, and does the transactions.
fn onto(cases: &mut Cases, state: &State, store: u16, list: &[Send]) {
    cases.case(start(state, store, &FRESH_SETTINGS));
    sends(cases, list);
}

/// A state with an open packet of so many bytes in as few fragments as there
/// can be.
fn open(bytes: u64, maximum: u64) -> State {
    with_open(maximum, fewest(bytes, maximum), bytes)
}

/// The fewest fragments of so many bytes.
fn fewest(bytes: u64, maximum: u64) -> u64 {
    (bytes + maximum - 1) / maximum
}

/// A Middle or a Last of each size onto a packet that it brings to each total.
fn edges(cases: &mut Cases) {
    for (name, command, link_up, edges) in TO_EDGES {
        for (store, maximum, sizes, totals) in edges {
            cases.group(&format!(
                "Transactions: {name} to a total around 1536, store of {store} bytes"
            ));
            for size in *sizes {
                let maximum = maximum.unwrap_or(u64::from(*size));
                let send = |total: &u16| to_total(command, link_up, *size, *total);
                let list: Vec<Send> = totals.iter().map(send).collect();
                let shown: Vec<String> = totals.iter().map(u16::to_string).collect();
                let shown = shown.join(", ");
                cases.name(&format!(
                    "size {size}, maximum {maximum}, totals {shown}: {}",
                    answers(&list)
                ));
                for (total, send) in totals.iter().zip(list) {
                    onto(cases, &open(u64::from(total - size), maximum), *store, &[send]);
                }
            }
        }
    }
}

/// A Middle or a Last that brings its packet to a total of at least 17 bytes.
fn to_total(command: u8, link_up: bool, size: u16, total: u16) -> Send {
    let answer = match command {
        0x04 => 0,
        _ if total > 1536 => 4,
        _ if !link_up => 6,
        _ => 1,
    };
    let send = up(command, size, answer);
    Send { link_up, ..send }
}

/// Fragments at a place of the store, the bytes on both sides as they were.
fn places(cases: &mut Cases) {
    cases.group("Transactions: a fragment at a place of the store");
    for size in [1, 240] {
        let answer = if size < 17 { 5 } else { 1 };
        let list = [up(0x84, size, 0), up(0xc4, size, answer)];
        cases.name(&format!("size {size} at 0, none open: {}", answers(&list)));
        for send in list {
            onto(cases, &open(0, HIGHEST_MAXIMUM), 2048, &[send]);
        }
    }
    for (name, at, size, answer) in PLACES {
        let list = [up(0x04, size, 0), up(0x44, size, answer)];
        cases.name(&format!("{name}: {}", answers(&list)));
        for send in list {
            onto(cases, &open(at, HIGHEST_MAXIMUM), 2048, &[send]);
        }
    }
}

/// Fragments onto a packet that has no room for any.
fn long(cases: &mut Cases) {
    cases.group("Transactions: nothing is written onto a packet of 1536 bytes or more");
    for (name, bytes, size) in LONG {
        onto_long(cases, name, &open(bytes, HIGHEST_MAXIMUM), size);
    }
    onto_long(cases, "1536 bytes in fragments of 1, then 1", &open(1536, 1), 1);
    onto_long(cases, "1537 bytes in fragments of 17, then 17", &open(1537, 17), 17);
}

/// A Last onto a packet that has no room for it, and a Middle and then a Last.
fn onto_long(cases: &mut Cases, name: &str, state: &State, size: u16) {
    cases.name(&format!("{name}: answers 4, 0, 4"));
    onto(cases, state, 1536, &[up(0x44, size, 4)]);
    onto(cases, state, 2048, &[up(0x04, size, 0), down(0x44, size, 4)]);
}

/// The open packet of the most fragments and bytes under an account that is
/// not full. Each transaction fills the account.
fn longest(cases: &mut Cases) {
    cases.group("Transactions: an open packet of 4294967294 fragments of 240 bytes");
    let mut account = Account::default();
    set_open(&mut account, HIGHEST_TOTAL - 1, HIGHEST_MAXIMUM * (HIGHEST_TOTAL - 1));
    let state = unchecked(summed(account), HIGHEST_MAXIMUM);
    let full = up(0x44, 240, 14);
    for (name, send) in [
        ("a Middle writes nothing", up(0x04, 240, 0)),
        ("a Last writes nothing", up(0x44, 240, 4)),
        ("a Last with the link down writes nothing", down(0x44, 240, 4)),
        ("a First is written from 0", up(0x84, 240, 0)),
        ("a whole packet is written from 0", up(0xc4, 240, 1)),
    ] {
        let list = [send, full];
        cases.name(&format!("{name}: {}", answers(&list)));
        onto(cases, &state, 2048, &list);
        cases.case(show());
    }
}

/// A First and a whole packet onto an open packet of any length.
fn superseded(cases: &mut Cases) {
    cases.group("Transactions: a First onto an open packet is written from 0");
    for (name, bytes) in BEFORE_A_FIRST {
        let state = open(bytes, HIGHEST_MAXIMUM);
        cases.name(&format!("{name}, then a whole packet; a First and its Last: answers 1, 0, 1"));
        onto(cases, &state, 1536, &[up(0xc4, 50, 1)]);
        onto(cases, &state, 2048, &[up(0x84, 30, 0), up(0x44, 40, 1)]);
        cases.case(show());
    }
}

/// What comes after a packet went past 1536 bytes.
fn later(cases: &mut Cases) {
    cases.group("Transactions: an open packet that goes past 1536 bytes, and what comes later");
    for (name, bytes, list) in LATER {
        cases.name(&format!("{name}: {}", answers(list)));
        onto(cases, &open(bytes, HIGHEST_MAXIMUM), 2048, list);
        cases.case(show());
    }
}

fn random(cases: &mut Cases) {
    let mut random = Random::new(SEED);
    cases.group("Transactions: random fragments onto random open packets");
    for _ in 0..120 {
        let maximum = if random.one_in(3) { 1 + random.below(240) } else { HIGHEST_MAXIMUM };
        let size = random.between(1, maximum);
        let state = random_open(&mut random, maximum, size);
        let store = random.between(1536, 2048) as u16;
        let command = random.pick(&[0x04, 0x04, 0x44, 0x44, 0x84, 0xc4]);
        let link_up = !random.one_in(4);
        cases.case(start(&state, store, &FRESH_SETTINGS));
        cases.case(send_pattern(command, link_up, size as u16, random.byte()));
    }
}

/// A sound state with an open packet: one of up to 1536 bytes, one that a
/// fragment of the size brings to a total around 1536, one of 1536 bytes or
/// more, or one at which a place cut to fewer bits would be inside the store.
fn random_open(random: &mut Random, maximum: u64, size: u64) -> State {
    let bytes = match random.below(6) {
        0 | 1 => 1 + random.below(1536),
        2 | 3 => 1534 + random.below(5) - size,
        4 => 1536 + random.below(600),
        _ => random.pick(&[1 << 16, 1 << 31, 1 << 32, 1 << 39]) + random.below(1537),
    };
    let bytes = bytes.min(maximum * MOST_FRAGMENTS);
    let fragments = random.between(fewest(bytes, maximum), bytes.min(MOST_FRAGMENTS));
    let mut account = random_account(random, maximum);
    set_open(&mut account, fragments, bytes);
    unchecked(summed(account), maximum)
}
