//! Cases of single transactions and of short lists of them, by name.

mod checked;
mod joining;
mod rejected;
mod sweeps;
mod worked;

use std::iter;

use super::state::fresh;
use super::Cases;
use crate::pattern::pattern;
use crate::text::Line;
use reference::pec;
use reference::settings::FRESH_SETTINGS;
use reference::state::State;
use reference::translator::Transaction;

/// The size of a store that is just large enough.
pub const STORE_BYTES: u16 = 1536;
/// The seed of a store before anything is written.
pub const STORE_SEED: u8 = 0x5b;

/// The address byte of every transaction that has one, unless it is given.
const ADDRESS: u8 = 0x92;

/// Makes the data of two fragments differ, also those of equal sizes.
const SEED_STEP: usize = 37;

/// A transaction and its answer.
#[derive(Clone, Copy)]
pub struct Send {
    command: u8,
    link_up: bool,
    size: u16,
    /// The first data byte, where it matters.
    control: Option<u8>,
    coded: Coded,
    answer: u8,
    /// How often it comes one after the other.
    times: usize,
}

/// Whether a transaction has address and check byte, and how good this one is.
#[derive(Clone, Copy)]
enum Coded {
    No,
    Right,
    /// With these bits turned.
    Wrong(u8),
}

impl Send {
    /// The same transaction so many times.
    const fn times(self, times: usize) -> Send {
        Send { times, ..self }
    }

    /// The same transaction with its right check byte.
    const fn right(self) -> Send {
        Send { coded: Coded::Right, ..self }
    }

    /// The same transaction with these bits of its check byte turned.
    const fn wrong(self, turned: u8) -> Send {
        Send { coded: Coded::Wrong(turned), answer: 17, ..self }
    }

    /// The same transaction with another answer.
    fn answered(self, answer: u8) -> Send {
        Send { answer, ..self }
    }

    /// The transaction but for these data.
    fn transaction(self, data: &[u8]) -> Transaction {
        let Send { command, link_up, .. } = self;
        let right = rightly_coded(ADDRESS, command, link_up, data);
        match self.coded {
            Coded::No => Transaction { address: 0, command, code: 0, link_up },
            Coded::Right => right,
            Coded::Wrong(turned) => Transaction { code: right.code ^ turned, ..right },
        }
    }
}

/// A transaction of these data with its right check byte.
pub fn rightly_coded(address: u8, command: u8, link_up: bool, data: &[u8]) -> Transaction {
    Transaction { address, command, code: pec::code(address, command, data).1, link_up }
}

/// Name, fragment maximum, and the transactions from a fresh state on.
type Named = (&'static str, u32, &'static [Send]);

/// Adds the cases of this subject.
pub fn generate(cases: &mut Cases) {
    worked::generate(cases);
    joining::generate(cases);
    rejected::generate(cases);
    checked::generate(cases);
    sweeps::generate(cases);
}

/// A transaction and its data.
pub type Whole = (Transaction, Vec<u8>);

/// The lists that show each rule by an example: name, fragment maximum and
/// transactions.
pub fn named_lists() -> impl Iterator<Item = (&'static str, u32, Vec<Whole>)> {
    worked::lists().map(|(name, maximum, list)| (name, maximum, whole(seeded(list))))
}

/// The same with right check bytes, then those that show the rules of them.
pub fn named_checked_lists() -> impl Iterator<Item = (&'static str, u32, Vec<Whole>)> {
    let right = |(send, seed): (Send, u8)| (send.right(), seed);
    let rules = worked::lists()
        .map(move |(name, maximum, list)| (name, maximum, whole(seeded(list).map(right))));
    let of_checks = checked::lists();
    rules.chain(of_checks.map(|(name, maximum, list)| (name, maximum, whole(seeded(list)))))
}

fn whole(list: impl Iterator<Item = (Send, u8)>) -> Vec<Whole> {
    let whole = |(send, seed): (Send, u8)| {
        let data = pattern(send.size, seed);
        (send.transaction(&data), data)
    };
    list.map(whole).collect()
}

/// A transaction of so many bytes with the link up, and its answer.
const fn up(command: u8, size: u16, answer: u8) -> Send {
    Send { command, link_up: true, size, control: None, coded: Coded::No, answer, times: 1 }
}

/// A transaction of so many bytes with the link down, and its answer.
const fn down(command: u8, size: u16, answer: u8) -> Send {
    Send { link_up: false, ..up(command, size, answer) }
}

/// A Receive Enable of so many bytes that begin with a control byte.
const fn enable(control: u8, size: u16, answer: u8) -> Send {
    Send { control: Some(control), ..up(0xca, size, answer) }
}

/// Names the list with its answers, does it, and shows the state.
fn list(cases: &mut Cases, name: &str, state: &State, store: u16, settings: &[u8], list: &[Send]) {
    cases.name(&format!("{name}: {}", answers(list)));
    cases.case(start(state, store, settings));
    sends(cases, list);
    cases.case(show());
}

/// The same from a fresh state on with the check off.
fn list_from_fresh(cases: &mut Cases, name: &str, maximum: u32, list: &[Send]) {
    self::list(cases, name, &fresh(maximum), STORE_BYTES, &FRESH_SETTINGS, list);
}

fn answers(list: &[Send]) -> String {
    let numbers: Vec<String> = single(list).map(|send| send.answer.to_string()).collect();
    format!("answers {}", numbers.join(", "))
}

fn sends(cases: &mut Cases, list: &[Send]) {
    for (send, seed) in seeded(list) {
        let Send { command, link_up, size, .. } = send;
        cases.case(match send.coded {
            Coded::No => send_pattern(command, link_up, size, seed),
            _ => send_coded_pattern(send.transaction(&pattern(size, seed)), size, seed),
        });
    }
}

/// The transactions of a list with the seeds of their data.
fn seeded(list: &[Send]) -> impl Iterator<Item = (Send, u8)> + '_ {
    single(list).enumerate().map(|(place, send)| {
        let seed = send.control.unwrap_or((SEED_STEP * (place + 1)) as u8);
        (send, seed)
    })
}

/// The transactions of a list, each as often as it comes.
fn single(list: &[Send]) -> impl Iterator<Item = Send> + '_ {
    list.iter().flat_map(|send| iter::repeat(*send).take(send.times))
}

/// The case that carries a state, a store of the pattern and settings.
pub fn start(state: &State, store: u16, settings: &[u8]) -> Line {
    Line::case("start").state(state).u16(store).u8(STORE_SEED).bytes(settings)
}

/// The case of a transaction with any data.
pub fn send(command: u8, link_up: bool, data: &[u8]) -> Line {
    Line::case("send").u8(command).bool(link_up).bytes(data)
}

/// The case of a transaction with data of the pattern.
pub fn send_pattern(command: u8, link_up: bool, size: u16, seed: u8) -> Line {
    Line::case("send-pattern").u8(command).bool(link_up).u16(size).u8(seed)
}

/// The case of a transaction with address, check byte and any data.
pub fn send_coded(transaction: Transaction, data: &[u8]) -> Line {
    coded("send-coded", transaction).bytes(data).u8(transaction.code)
}

/// The case of one with data of the pattern.
pub fn send_coded_pattern(transaction: Transaction, size: u16, seed: u8) -> Line {
    coded("send-coded-pattern", transaction).u16(size).u8(seed).u8(transaction.code)
}

/// What such a case begins with.
fn coded(operation: &str, transaction: Transaction) -> Line {
    let Transaction { address, command, link_up, .. } = transaction;
    Line::case(operation).u8(address).u8(command).bool(link_up)
}

/// The case that shows the state and the settings.
pub fn show() -> Line {
    Line::case("show")
}

/// The case that shows a part of the store.
pub fn packet(length: u64) -> Line {
    Line::case("packet").u64(length)
}
