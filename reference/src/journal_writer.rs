//! Writes journals.

use reference::journal::Version;
use reference::translator::Transaction;

/// A journal that is being written.
pub struct JournalWriter {
    version: Version,
    /// What was written.
    pub bytes: Vec<u8>,
}

impl JournalWriter {
    /// A journal of which the header is written.
    pub fn new(version: Version, maximum: u8) -> JournalWriter {
        JournalWriter { version, bytes: version.header(maximum).to_vec() }
    }

    /// Adds a record.
    ///
    /// # Panics
    ///
    /// Where the data have more bytes than one byte can count.
    pub fn record(&mut self, transaction: Transaction, data: &[u8]) {
        let length = u8::try_from(data.len()).expect("data that fit into a record");
        let Transaction { address, command, code, link_up } = transaction;
        let head = [address, command, u8::from(link_up), length];
        match self.version {
            Version::Unchecked => self.bytes.extend([&head[1..], data].concat()),
            Version::Checked => self.bytes.extend([&head[..], data, &[code]].concat()),
        }
    }
}
