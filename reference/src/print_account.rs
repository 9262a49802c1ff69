//! Prints the account of a journal of any size.

use std::fs::File;
use std::io::{self, ErrorKind, Read, Write};
use std::path::Path;

use reference::account::Account;
use reference::journal::Replay;
use reference::printout::{self, BAD_JOURNAL, ENOUGH_ROOM};

/// The journal is read in pieces of at most so many bytes.
const PIECE_BYTES: usize = 64 * 1024;

/// Prints the account of a file, or of standard input where none is named;
/// gives whether the journal was a good one.
pub fn print_account(file: Option<&Path>) -> Result<bool, String> {
    let account = match file {
        Some(path) => File::open(path)
            .and_then(|mut file| replay(&mut file))
            .map_err(|error| format!("{}: {error}", path.display())),
        None => replay(&mut io::stdin().lock()).map_err(|error| format!("standard input: {error}")),
    }?;
    let mut text = [0; ENOUGH_ROOM];
    let text = match &account {
        Some(account) => {
            let length = printout::print(account, &mut text);
            &text[..length]
        }
        None => BAD_JOURNAL.as_bytes(),
    };
    let mut output = io::stdout().lock();
    output
        .write_all(text)
        .and_then(|()| output.flush())
        .map_err(|error| format!("standard output: {error}"))?;
    Ok(account.is_some())
}

fn replay(input: &mut impl Read) -> io::Result<Option<Account>> {
    let mut replay = Replay::new();
    let mut buffer = [0; PIECE_BYTES];
    loop {
        match input.read(&mut buffer) {
            Ok(0) => return Ok(replay.end()),
            Ok(length) => replay.feed(&buffer[..length]),
            Err(error) if error.kind() == ErrorKind::Interrupted => {}
            Err(error) => return Err(error),
        }
    }
}
