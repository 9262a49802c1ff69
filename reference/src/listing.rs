//! A journal read whole into the list of its transactions.
//!
//! The layout of a journal is read here afresh, and nothing is replayed: the
//! history of the list gives the account.

use crate::history::{History, Setup, Transaction};

const NAME: &[u8] = b"TCO";
const WITHOUT_CODES: u16 = 1;
const WITH_CODES: u16 = 2;

/// The transactions of a journal.
#[derive(Clone, Debug, PartialEq, Eq)]
pub struct Listing {
    /// What they start from, fresh settings among it.
    pub setup: Setup,
    /// The transactions, the earliest first.
    pub list: Vec<Transaction>,
}

impl Listing {
    /// The transactions of a journal; none of a bad one.
    pub fn of(journal: &[u8]) -> Option<Listing> {
        let mut bytes = journal.iter().copied();
        let name: Vec<u8> = bytes.by_ref().take(NAME.len()).collect();
        let version = u16::from(bytes.next()?) + 256 * u16::from(bytes.next()?);
        let maximum = u64::from(bytes.next()?);
        let check = version == WITH_CODES;
        if name != NAME || !(check || version == WITHOUT_CODES) || maximum == 0 || maximum > 240 {
            return None;
        }
        let mut list = Vec::new();
        while let Some(first) = bytes.next() {
            let (address, command) = if check { (first, bytes.next()?) } else { (0, first) };
            let link = bytes.next()?;
            let length = usize::from(bytes.next()?);
            let data: Vec<u8> = bytes.by_ref().take(length).collect();
            if link > 1 || data.len() < length {
                return None;
            }
            let code = if check { bytes.next()? } else { 0 };
            list.push(Transaction { address, command, data, code, link_up: link == 1 });
        }
        Some(Listing { setup: Setup { maximum, check, mac_kept_before: false }, list })
    }

    /// The history of these transactions.
    pub fn history(&self) -> History<'_> {
        History::of(self.setup, &self.list)
    }
}
