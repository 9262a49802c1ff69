//! A controller that draws random transactions.

use super::transactions::rightly_coded;
use crate::pattern::pattern;
use crate::random::Random;
use reference::translator::Transaction;

/// Longer data is given as a pattern.
const LONGEST_GIVEN: u64 = 24;

/// Draws transactions in a plausible order, most of the time.
pub struct Controller {
    /// What it draws with.
    pub random: Random,
    maximum: u64,
    /// How many transactions there are for one that is out of order.
    calm: u64,
    /// Whether the controller means to go on with a packet.
    sending: bool,
    /// The bytes that it means to send before a Last.
    left: u64,
}

/// A transaction as it is drawn.
pub struct Drawn {
    /// Its command byte.
    pub command: u8,
    /// The link, up or down, as the transaction ends.
    pub link_up: bool,
    /// Its data bytes.
    pub data: Data,
}

impl Drawn {
    /// Its data bytes as they are.
    pub fn bytes(&self) -> Vec<u8> {
        match &self.data {
            Data::Given(data) => data.clone(),
            Data::Pattern { size, seed } => pattern(*size, *seed),
        }
    }
}

/// Data bytes.
pub enum Data {
    /// These.
    Given(Vec<u8>),
    /// Those of a pattern.
    Pattern { size: u16, seed: u8 },
}

impl Controller {
    /// A controller that has sent nothing yet.
    pub fn new(seed: u64, maximum: u64, calm: u64) -> Controller {
        Controller { random: Random::new(seed), maximum, calm, sending: false, left: 0 }
    }

    /// The next transaction.
    pub fn transaction(&mut self) -> Drawn {
        if !self.random.one_in(self.calm) {
            self.fragment()
        } else if self.random.one_in(2) {
            self.command()
        } else {
            self.out_of_order()
        }
    }

    /// A drawn transaction under some address, its check byte wrong once in a
    /// while.
    pub fn coded(&mut self, drawn: &Drawn, data: &[u8]) -> Transaction {
        let right = rightly_coded(self.random.byte(), drawn.command, drawn.link_up, data);
        let turned = match self.random.below(24) {
            0 => 1 << self.random.below(8),
            1 => self.random.byte(),
            _ => 0,
        };
        Transaction { code: right.code ^ turned, ..right }
    }

    /// The next fragment of a packet, or the first of a new one.
    fn fragment(&mut self) -> Drawn {
        let first = !self.sending;
        if first {
            let ends = [1, 16, 17, 40, 59, 60, 61, 300, 1535, 1536, 1537, 1700];
            // Packets of so many fragments that a list would hold only one of
            // them are drawn seldom.
            let most = if self.random.one_in(4) { u64::MAX } else { 70.max(12 * self.maximum) };
            self.left = self.random.pick(&ends).min(most);
        }
        let size = match self.random.below(10) {
            0 => 1,
            1 | 2 => 1 + self.random.below(self.maximum),
            _ => self.maximum,
        };
        let size = size.min(self.left);
        self.left -= size;
        let last = self.left == 0;
        self.sending = !last;
        let command = 0x04 + if first { 0x80 } else { 0 } + if last { 0x40 } else { 0 };
        let link_up = !self.random.one_in(8);
        self.drawn(command, link_up, size)
    }

    /// A fragment with any flags, and a length around the edges.
    fn out_of_order(&mut self) -> Drawn {
        let command = self.random.pick(&[0x84, 0x04, 0x44, 0xc4]);
        let size = match self.random.below(6) {
            0 => 0,
            1 => self.maximum + 1,
            2 => 1,
            3 => self.random.below(300),
            _ => self.maximum,
        };
        // A controller that noticed would begin anew; one that did not goes on.
        if self.random.one_in(2) {
            self.sending = false;
        }
        let link_up = !self.random.one_in(4);
        self.drawn(command, link_up, size)
    }

    fn command(&mut self) -> Drawn {
        if self.random.one_in(2) {
            self.sending = false;
        }
        let link_up = self.random.one_in(2);
        if self.random.one_in(3) {
            let command = self.random.byte();
            let size = self.random.below(20);
            return self.drawn(command, link_up, size);
        }
        let size = self.random.pick(&[1, 1, 1, 14, 14, 14, 0, 2, 13, 15]);
        let mut data = self.random.bytes(size);
        if size > 0 && !self.random.one_in(5) {
            data[0] = self.random.pick(&[0x40, 0x41, 0x49, 0x61, 0xc1, 0xc9]);
        }
        Drawn { command: 0xca, link_up, data: Data::Given(data) }
    }

    fn drawn(&mut self, command: u8, link_up: bool, size: u64) -> Drawn {
        let data = if size <= LONGEST_GIVEN && self.random.one_in(2) {
            Data::Given(self.random.bytes(size as usize))
        } else {
            Data::Pattern { size: size as u16, seed: self.random.byte() }
        };
        Drawn { command, link_up, data }
    }
}
