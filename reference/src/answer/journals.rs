//! Answers cases of journals and of printouts.

use reference::account::Account;
use reference::journal::Replay;
use reference::listing::Listing;
use reference::printout::{self, BAD_JOURNAL, ENOUGH_ROOM};

use super::carried::Disagreement;
use super::transactions::{self, limited};
use super::Stopped;
use crate::text::{Fields, Line};

/// The seed of a buffer before anything is printed into it.
const BUFFER_SEED: u8 = 0xaa;

/// Reads a journal in pieces, and prints its account.
pub fn journal(mut fields: Fields) -> Result<Line, Stopped> {
    let piece = fields.u16()?;
    let journal = fields.bytes()?;
    fields.end()?;
    let account = replayed(&journal, usize::from(piece));
    check(account, &journal).map_err(Stopped::Disagreement)?;
    let mut text = [0; ENOUGH_ROOM];
    Ok(match account {
        Some(account) => {
            let length = printout::print(&account, &mut text);
            Line::answer().bytes(&text[..length])
        }
        None => Line::answer().bytes(BAD_JOURNAL.as_bytes()),
    })
}

/// Prints an account into a buffer.
pub fn print(mut fields: Fields) -> Result<Line, Stopped> {
    let account = transactions::account(&mut fields)?;
    let room = fields.u16()?;
    fields.end()?;
    let mut buffer = limited(room, BUFFER_SEED)?;
    // A length is never above the room.
    let length = printout::print(&account, &mut buffer) as u16;
    Ok(Line::answer().u16(length).bytes(&buffer))
}

fn replayed(journal: &[u8], piece: usize) -> Option<Account> {
    let mut replay = Replay::new();
    if piece == 0 {
        replay.feed(journal);
    } else {
        journal.chunks(piece).for_each(|piece| replay.feed(piece));
    }
    replay.end()
}

/// Compares a replay with the history of the journal's list.
fn check(replayed: Option<Account>, journal: &[u8]) -> Result<(), Disagreement> {
    let listed = Listing::of(journal).map(|listing| listing.history().account());
    match (replayed, listed) {
        (Some(replayed), Some(listed)) if replayed != listed => Err("another account of a journal"),
        (Some(_), None) | (None, Some(_)) => Err("a journal is bad to one of them"),
        _ => Ok(()),
    }
}
