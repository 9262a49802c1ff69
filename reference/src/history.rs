//! The account as the list gives it: every counted transaction in order, cut into
//! runs from a First to its Last, with nothing replayed.
//!
//! Nothing is replayed: what a transaction means, how long it may be, whether its
//! check byte is right and what ends a run is read here afresh, from the list
//! alone.

use std::iter;

use crate::account::{Account, Fate, BYTES, COLUMNS, FRAGMENTS, PACKETS};
use crate::answer_numbers::{
    ABORTED, BAD_CHECK, CONTROL_NOT_ALLOWED, FRAGMENT_LENGTH, JOINED, LINK_DOWN, NO_MAC_KEPT,
    PACKET_SENT, PACKET_TOO_LONG, PACKET_TOO_SHORT, RECEIVE_ENABLE_LENGTH, RECEIVE_ENABLE_TAKEN,
    UNKNOWN_COMMAND,
};

const F: u8 = 0b1000_0000;
const L: u8 = 0b0100_0000;
/// What is left of a fragment's command without its flags.
const FRAGMENT: u8 = 0b0000_0100;
/// Receive Enable, both flags in it.
const RECEIVE_ENABLE: u8 = F | L | 0b0000_1010;

const MOST_BYTES: u64 = 1536;
const FEWEST_BYTES: u64 = 17;
const FILLED_TO: u64 = 60;

const SHORT_FORM: usize = 1;
const LONG_FORM: usize = 14;

/// What check bytes are the rest of a division by.
const DIVISOR: u16 = 0b1_0000_0111;

/// A counted transaction.
#[derive(Clone, Debug, PartialEq, Eq)]
pub struct Transaction {
    /// Its address byte.
    pub address: u8,
    /// Its command byte.
    pub command: u8,
    /// Its data bytes.
    pub data: Vec<u8>,
    /// Its check byte.
    pub code: u8,
    /// Whether the link was up at that moment.
    pub link_up: bool,
}

impl Transaction {
    /// Whether its check byte is right: with it at the end, the bits of all its
    /// bytes are a multiple of the divisor. More data than one byte can count is
    /// never right.
    pub fn code_right(&self) -> bool {
        let count = match u8::try_from(self.data.len()) {
            Ok(count) => count,
            Err(_) => return false,
        };
        let before = [self.address, self.command, count];
        let bytes = before.iter().chain(&self.data).chain(iter::once(&self.code));
        bytes.fold(0, |rest, byte| divided(rest, *byte)) == 0
    }
}

/// What is left when the bits of a byte, the highest first, come behind an
/// earlier rest and the divisor is taken away as often as it can be, without
/// carries.
fn divided(rest: u16, byte: u8) -> u16 {
    (0..8).rev().fold(rest, |rest, bit| {
        let rest = rest << 1 | u16::from(byte >> bit & 1);
        if rest >= 0x100 {
            rest ^ DIVISOR
        } else {
            rest
        }
    })
}

/// What a transaction does to the runs of the list.
#[derive(Clone, Copy, PartialEq, Eq)]
enum Reading {
    /// A fragment of an allowed length.
    Fragment { first: bool, last: bool },
    /// A fragment of a length that is not allowed.
    BadFragment,
    /// A transaction whose check byte is wrong.
    BadCheck,
    /// A command that ends a run.
    Flush,
    /// A command that ends nothing.
    Passed,
}

/// What ends a run.
#[derive(Clone, Copy, Debug, PartialEq, Eq)]
pub enum Ending {
    /// Its Last.
    Last,
    /// A First before its Last.
    First,
    /// A flush.
    Flush,
    /// A transaction that was not received correctly.
    NotReceived,
    /// The end of the list: the packet is open.
    Nothing,
}

/// The places of the list from a First to what ends its packet.
#[derive(Clone, Copy, Debug, PartialEq, Eq)]
pub struct Run {
    /// The place of the First.
    pub first: usize,
    /// The place after the Last, or the place of what ends the run instead.
    pub end: usize,
    /// What ends it.
    pub ending: Ending,
}

/// The line of the account in which a transaction stands.
#[derive(Clone, Copy, Debug, PartialEq, Eq)]
pub enum Place {
    /// With the packet of its run.
    InRun(Run),
    /// By itself, as a fragment of no packet.
    Aborted,
    /// By itself, as a fragment of a length that is not allowed.
    BadLength,
    /// By itself, as a transaction whose check byte is wrong.
    BadCheck,
    /// With the commands taken.
    Taken,
    /// With the commands refused, for this answer.
    Refused(u8),
}

/// What a list of transactions started from.
#[derive(Clone, Copy, Debug, PartialEq, Eq)]
pub struct Setup {
    /// The most data bytes of a fragment.
    pub maximum: u64,
    /// Whether check bytes are looked at.
    pub check: bool,
    /// Whether the settings at the start had a MAC kept; fresh ones have not.
    pub mac_kept_before: bool,
}

/// A list of counted transactions, the earliest first, each of them read once.
pub struct History<'a> {
    setup: Setup,
    list: &'a [Transaction],
    readings: Vec<Reading>,
}

impl<'a> History<'a> {
    /// The history of a list.
    pub fn of(setup: Setup, list: &'a [Transaction]) -> History<'a> {
        let readings = list.iter().map(|transaction| reading(&setup, transaction)).collect();
        History { setup, list, readings }
    }

    /// The account.
    pub fn account(&self) -> Account {
        let mut account = Account { total: self.list.len() as u64, ..Account::default() };
        for run in self.runs() {
            let fragments = self.places(run).count() as u64;
            let bytes = self.length(run);
            match self.fate(run) {
                Some(fate) => add(&mut account, fate, [1, fragments, bytes]),
                None => {
                    account.open_fragments += fragments;
                    account.open_bytes += bytes;
                }
            }
        }
        for (number, transaction) in self.list.iter().enumerate() {
            let bytes = transaction.data.len() as u64;
            match self.place(number) {
                Place::InRun(_) => {}
                Place::Aborted => add(&mut account, Fate::Aborted, [0, 1, bytes]),
                Place::BadLength => add(&mut account, Fate::BadLength, [0, 1, 0]),
                Place::BadCheck => add(&mut account, Fate::BadCheck, [0, 1, 0]),
                Place::Taken => account.taken += 1,
                Place::Refused(_) => account.refused += 1,
            }
        }
        account
    }

    /// The answer to a transaction of the list, and the sent length, which is
    /// zero unless a packet is sent.
    pub fn answer(&self, number: usize) -> (u8, u64) {
        match self.place(number) {
            Place::InRun(run) if run.ending == Ending::Last && run.end == number + 1 => {
                match self.fate(run) {
                    Some(Fate::Over) => (PACKET_TOO_LONG, 0),
                    Some(Fate::Short) => (PACKET_TOO_SHORT, 0),
                    Some(Fate::LinkDown) => (LINK_DOWN, 0),
                    _ => (PACKET_SENT, self.length(run).max(FILLED_TO)),
                }
            }
            Place::InRun(_) => (JOINED, 0),
            Place::Aborted => (ABORTED, 0),
            Place::BadLength => (FRAGMENT_LENGTH, 0),
            Place::BadCheck => (BAD_CHECK, 0),
            Place::Taken => (RECEIVE_ENABLE_TAKEN, 0),
            Place::Refused(answer) => (answer, 0),
        }
    }

    /// All runs.
    pub fn runs(&self) -> impl Iterator<Item = Run> + '_ {
        (0..self.list.len()).filter_map(|first| self.run_from(first))
    }

    /// The runs whose packets were sent.
    pub fn sent(&self) -> impl Iterator<Item = Run> + '_ {
        self.runs().filter(|run| self.fate(*run) == Some(Fate::Sent))
    }

    /// The run of the packet that is open.
    pub fn open(&self) -> Option<Run> {
        self.runs().find(|run| run.ending == Ending::Nothing)
    }

    /// The bytes of a sent packet with its fill.
    pub fn packet(&self, run: Run) -> impl Iterator<Item = u8> + '_ {
        let fill = FILLED_TO.saturating_sub(self.length(run)) as usize;
        self.places(run)
            .flat_map(move |number| self.list[number].data.iter().copied())
            .chain(iter::repeat(0).take(fill))
    }

    /// The bytes of an open packet that stand in the store: those before the
    /// first fragment that took it past the most bytes of a packet.
    pub fn stored(&self, run: Run) -> impl Iterator<Item = u8> + '_ {
        self.places(run)
            .scan(0, move |total, number| {
                *total += self.list[number].data.len() as u64;
                (*total <= MOST_BYTES).then_some(number)
            })
            .flat_map(move |number| self.list[number].data.iter().copied())
    }

    /// What became of the packet of a run; nothing yet where it is open.
    pub fn fate(&self, run: Run) -> Option<Fate> {
        match run.ending {
            Ending::First => Some(Fate::Superseded),
            Ending::Flush => Some(Fate::Flushed),
            Ending::NotReceived => Some(Fate::Broken),
            Ending::Nothing => None,
            Ending::Last => Some(match self.length(run) {
                length if length > MOST_BYTES => Fate::Over,
                length if length < FEWEST_BYTES => Fate::Short,
                _ if !self.list[run.end - 1].link_up => Fate::LinkDown,
                _ => Fate::Sent,
            }),
        }
    }

    /// The line of the account in which a transaction stands.
    pub fn place(&self, number: usize) -> Place {
        match self.readings[number] {
            // The nearest run is looked for first; any would do, since no two
            // take in the same place.
            Reading::Fragment { .. } => (0..=number)
                .rev()
                .filter_map(|first| self.run_from(first))
                .find(|run| run.end > number)
                .map_or(Place::Aborted, Place::InRun),
            Reading::BadFragment => Place::BadLength,
            Reading::BadCheck => Place::BadCheck,
            Reading::Flush if self.list[number].command == RECEIVE_ENABLE => {
                self.receive_enable(number)
            }
            Reading::Flush | Reading::Passed => Place::Refused(UNKNOWN_COMMAND),
        }
    }

    /// The run that begins at a place, by looking forward from there.
    fn run_from(&self, first: usize) -> Option<Run> {
        let last = match self.readings[first] {
            Reading::Fragment { first: true, last } => last,
            _ => return None,
        };
        if last {
            return Some(Run { first, end: first + 1, ending: Ending::Last });
        }
        for number in first + 1..self.list.len() {
            let (end, ending) = match self.readings[number] {
                Reading::Fragment { first: true, .. } => (number, Ending::First),
                Reading::Fragment { last: true, .. } => (number + 1, Ending::Last),
                Reading::Flush => (number, Ending::Flush),
                Reading::BadFragment | Reading::BadCheck => (number, Ending::NotReceived),
                Reading::Fragment { .. } | Reading::Passed => continue,
            };
            return Some(Run { first, end, ending });
        }
        Some(Run { first, end: self.list.len(), ending: Ending::Nothing })
    }

    /// The places of the fragments that a run takes in.
    fn places(&self, run: Run) -> impl Iterator<Item = usize> + '_ {
        (run.first..run.end)
            .filter(|number| matches!(self.readings[*number], Reading::Fragment { .. }))
    }

    /// The bytes of a run, without fill.
    fn length(&self, run: Run) -> u64 {
        self.places(run).map(|number| self.list[number].data.len() as u64).sum()
    }

    fn receive_enable(&self, number: usize) -> Place {
        let data = &self.list[number].data;
        if data.len() != SHORT_FORM && data.len() != LONG_FORM {
            return Place::Refused(RECEIVE_ENABLE_LENGTH);
        }
        if !control_allowed(data[0]) {
            return Place::Refused(CONTROL_NOT_ALLOWED);
        }
        if sets_mac(data[0]) && data.len() == SHORT_FORM && !self.mac_kept(number) {
            return Place::Refused(NO_MAC_KEPT);
        }
        Place::Taken
    }

    /// Whether a MAC is kept before a transaction of the list.
    fn mac_kept(&self, number: usize) -> bool {
        let keeps_mac = |earlier: usize| {
            let Transaction { command, data, .. } = &self.list[earlier];
            self.readings[earlier] != Reading::BadCheck
                && *command == RECEIVE_ENABLE
                && data.len() == LONG_FORM
                && sets_mac(data[0])
                && control_allowed(data[0])
        };
        self.setup.mac_kept_before || (0..number).any(keeps_mac)
    }
}

/// What a transaction does, whatever comes before and behind it.
fn reading(setup: &Setup, transaction: &Transaction) -> Reading {
    if setup.check && !transaction.code_right() {
        return Reading::BadCheck;
    }
    let Transaction { command, data, .. } = transaction;
    let (first, last) = (command & F == F, command & L == L);
    let is_fragment = command & !(F | L) == FRAGMENT;
    let allowed = !data.is_empty() && data.len() as u64 <= setup.maximum;
    match (is_fragment, allowed) {
        (true, true) => Reading::Fragment { first, last },
        (true, false) => Reading::BadFragment,
        (false, _) if first && last => Reading::Flush,
        (false, _) => Reading::Passed,
    }
}

fn sets_mac(control: u8) -> bool {
    control >= 0x80
}

fn control_allowed(control: u8) -> bool {
    let bit = |number: u32| control >> number & 1 == 1;
    bit(6) && !(bit(5) && bit(4)) && (bit(0) || !bit(7))
}

fn add(account: &mut Account, fate: Fate, counts: [u64; COLUMNS]) {
    for column in [PACKETS, FRAGMENTS, BYTES] {
        account.grid[fate as usize][column] += counts[column];
    }
}
