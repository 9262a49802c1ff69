//! An account as it is printed.

use std::fmt::{self, Write};

use crate::account::{self, Account, FATES};

/// What is printed in place of the account of a bad journal.
pub const BAD_JOURNAL: &str = "bad journal\n";

const HEADING: &str = "fate packets fragments bytes";
const NAMES: [&str; FATES] = [
    "sent",
    "superseded",
    "flushed",
    "broken",
    "over",
    "short",
    "linkdown",
    "aborted",
    "badlength",
    "badcheck",
];

const LINES: usize = FATES + 5;
const LONGEST_NAME: usize = "superseded".len();
/// 240 times 4,294,967,295 has no more.
const MOST_DIGITS: usize = 13;
/// No printout of a sound account is longer.
pub const ENOUGH_ROOM: usize = LINES * (LONGEST_NAME + 3 * (1 + MOST_DIGITS) + 1);

/// Prints an account at the start of the room, and gives the length; prints
/// nothing where the account is not sound or the room not large enough.
pub fn print(account: &Account, room: &mut [u8]) -> usize {
    let mut text = Text { bytes: [0; ENOUGH_ROOM], length: 0 };
    if !account::is_sound(account) || write_lines(&mut text, account).is_err() {
        return 0;
    }
    match room.get_mut(..text.length) {
        Some(room) => {
            room.copy_from_slice(&text.bytes[..text.length]);
            text.length
        }
        None => 0,
    }
}

fn write_lines(text: &mut Text, account: &Account) -> fmt::Result {
    let open_packets = u64::from(account.open_fragments > 0);
    writeln!(text, "{HEADING}")?;
    for (name, [packets, fragments, bytes]) in NAMES.iter().zip(account.grid) {
        writeln!(text, "{name} {packets} {fragments} {bytes}")?;
    }
    writeln!(text, "open {open_packets} {} {}", account.open_fragments, account.open_bytes)?;
    writeln!(text, "taken {}", account.taken)?;
    writeln!(text, "refused {}", account.refused)?;
    writeln!(text, "total {}", account.total)
}

struct Text {
    bytes: [u8; ENOUGH_ROOM],
    length: usize,
}

impl Write for Text {
    fn write_str(&mut self, part: &str) -> fmt::Result {
        let room = self.bytes[self.length..].get_mut(..part.len()).ok_or(fmt::Error)?;
        room.copy_from_slice(part.as_bytes());
        self.length += part.len();
        Ok(())
    }
}
