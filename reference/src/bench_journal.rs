//! Writes journals to measure with, the same ones in every run.

use std::io::{self, Write};

use crate::journal_writer::JournalWriter;
use crate::random::Random;
use reference::journal::Version;
use reference::pec;
use reference::settings::{LONG_FORM_BYTES, SHORT_FORM_BYTES};
use reference::translator::{
    Transaction, FIRST, LAST, LAST_FRAGMENT, MIDDLE_FRAGMENT, RECEIVE_ENABLE,
};

const SEED: u64 = 0x000b_e7c4;

const PACKET_BYTES: u64 = 1440;
/// How far the length of a packet lies from that at most.
const SPREAD: u64 = 96;
const LONGEST_ABORTED: u64 = 20;
const CONTROLS: [u8; 6] = [0x40, 0x41, 0x49, 0x61, 0xc1, 0xc9];
/// The address byte of every record that has one.
const ADDRESS: u8 = 0x92;

/// What stands behind the name of a kind of journals with check bytes.
const CHECKED: &str = "-checked";

/// A kind of journals.
#[derive(Clone, Copy, Debug, PartialEq, Eq)]
pub struct Kind {
    content: Content,
    version: Version,
}

/// What a journal is full of.
#[derive(Clone, Copy, Debug, PartialEq, Eq)]
enum Content {
    /// Packets in fragments of so many bytes.
    Fragments(u8),
    /// Receive Enables of both forms, and aborted fragments.
    Commands,
}

impl Kind {
    /// The kind of this name.
    pub fn named(name: &str) -> Option<Kind> {
        let (content, version) = match name.strip_suffix(CHECKED) {
            Some(content) => (content, Version::Checked),
            None => (name, Version::Unchecked),
        };
        let content = match content {
            "fragments-240" => Content::Fragments(240),
            "fragments-20" => Content::Fragments(20),
            "commands" => Content::Commands,
            _ => return None,
        };
        Some(Kind { content, version })
    }

    fn maximum(self) -> u8 {
        match self.content {
            Content::Fragments(size) => size,
            Content::Commands => 240,
        }
    }
}

/// Writes a journal of at least so many bytes that ends with a whole packet or
/// command.
pub fn write(kind: Kind, bytes: u64, output: &mut impl Write) -> io::Result<()> {
    let mut random = Random::new(SEED);
    let mut journal = JournalWriter::new(kind.version, kind.maximum());
    let mut written = 0;
    loop {
        output.write_all(&journal.bytes)?;
        written += journal.bytes.len() as u64;
        if written >= bytes {
            return Ok(());
        }
        journal.bytes.clear();
        match kind.content {
            Content::Fragments(size) => packet(&mut journal, &mut random, u64::from(size)),
            Content::Commands => command(&mut journal, &mut random),
        }
    }
}

fn packet(journal: &mut JournalWriter, random: &mut Random, size: u64) {
    let mut left = PACKET_BYTES - SPREAD + random.below(2 * SPREAD + 1);
    let mut flags = FIRST;
    while left > 0 {
        let length = left.min(size);
        left -= length;
        if left == 0 {
            flags |= LAST;
        }
        record(journal, MIDDLE_FRAGMENT | flags, &random.bytes(length as usize));
        flags = 0;
    }
}

/// No packet is ever open, so that each fragment aborts.
fn command(journal: &mut JournalWriter, random: &mut Random) {
    if random.one_in(3) {
        let command = random.pick(&[MIDDLE_FRAGMENT, LAST_FRAGMENT]);
        let length = 1 + random.below(LONGEST_ABORTED);
        return record(journal, command, &random.bytes(length as usize));
    }
    let length = random.pick(&[SHORT_FORM_BYTES, LONG_FORM_BYTES]);
    let mut data = random.bytes(length);
    data[0] = random.pick(&CONTROLS);
    record(journal, RECEIVE_ENABLE, &data);
}

fn record(journal: &mut JournalWriter, command: u8, data: &[u8]) {
    let (address, (_, code)) = (ADDRESS, pec::code(ADDRESS, command, data));
    journal.record(Transaction { address, command, code, link_up: true }, data);
}
