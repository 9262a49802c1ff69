//! Generates test cases and answers them, and prints the account of a journal.
//!
//! Cases are ASCII lines ended by a line feed. An empty line and a line that
//! starts with `#` are copied to the answers. Every other line is an operation
//! and its fields, parted by single spaces. A field is a byte string in
//! lower-case hexadecimal, `-` for no bytes; a number is a byte string of the
//! size given below, high byte first; a bool is 00 or 01. The answer to a case
//! is one line of such fields.
//!
//! | case | answer |
//! |---|---|
//! | `link IN_FORCE/4 WORD/4 HOST_PRESENT/1 MEDIA/1` | `RESPONSE/2 REASON/2 IN_FORCE/4` |
//! | `links IN_FORCE/4 FROM/4 COUNT/2` | `DIGEST/4` |
//! | `write-status STATUS` | `ANSWER/1 FIELD/1 BLOCK/8` |
//! | `read-status BLOCK` | `ANSWER/1 FIELD/1 STATUS` |
//! | `fresh-settings SETTINGS` | `ANSWER/1 SETTINGS` |
//! | `sound-settings SETTINGS` | `SOUND/1` |
//! | `enable SETTINGS DATA` | `ANSWER/1 SETTINGS` |
//! | `mac SETTINGS FLASH` | `SOURCE/1 PART` |
//! | `ipv4 SETTINGS FLASH` | `SOURCE/1 PART` |
//! | `fill SIZE/2 SEED/1 LENGTH/8` | `DIGEST/4` |
//! | `shown SIZE/2 SEED/1 LENGTH/8` | `LENGTH/2 DIGEST/4` |
//! | `crc START/1 BYTES` | `BY_BITS/1 BY_TABLE/1` |
//! | `code ADDRESS/1 COMMAND/1 DATA` | `ANSWER/1 CODE/1` |
//! | `code-pattern ADDRESS/1 COMMAND/1 SIZE/2 SEED/1` | as for `code` |
//! | `sound-account ACCOUNT` | `SOUND/1` |
//! | `fresh-state MAXIMUM/4 CHECK/1` | `ANSWER/1 STATE` |
//! | `sound-state STATE` | `SOUND/1` |
//! | `start STATE STORE_SIZE/2 STORE_SEED/1 SETTINGS` | `SOUND/1` |
//! | `send COMMAND/1 LINK/1 DATA` | `ANSWER/1 SENT/2 DIGEST/4 DIGEST/4 DIGEST/4` |
//! | `send-pattern COMMAND/1 LINK/1 SIZE/2 SEED/1` | as for `send` |
//! | `send-coded ADDRESS/1 COMMAND/1 LINK/1 DATA CODE/1` | as for `send` |
//! | `send-coded-pattern ADDRESS/1 COMMAND/1 LINK/1 SIZE/2 SEED/1 CODE/1` | as for `send` |
//! | `show` | `STATE SETTINGS` |
//! | `packet LENGTH/8` | `LENGTH/2 DIGEST/4` |
//! | `journal PIECE/2 JOURNAL` | `PRINTOUT` |
//! | `print ACCOUNT ROOM/2` | `LENGTH/2 BUFFER` |
//!
//! The medium is 00 for copper and 01 for fibre. `links` judges COUNT words
//! from FROM on, each with the same word in force: host driver absent on
//! copper, absent on fibre, present on copper, present on fibre; its digest is
//! over the bytes of the answers that `link` would give. STATUS stands for the
//! fields `LENGTH/2 VLAN/2 DECISION_MATCH/1 DECISION_INDEX/1 VLAN_MATCH/1
//! VLAN_INDEX/1`. FIELD is the first that is bad: 01 for the size of the block,
//! 02 for the length, 03 for the packet status, 04 for the reserved bits of the
//! MNG status, 05 for the decision index, 06 for the VLAN index; 00 for none.
//! SOURCE is 00 for no address, 01 for the settings and 02 for the Flash block.
//!
//! A pattern of a size and a seed has the byte (seed + 7 * i) mod 256 at place
//! i. `fill` and `shown` work on a store of that pattern; `fill` answers with
//! the digest of the whole store afterwards, `shown` with the length and the
//! digest of the part. ACCOUNT is 280 bytes: 35 numbers of eight bytes, which
//! are the ten rows of packets, fragments and bytes (sent, superseded, flushed,
//! broken, over, short, linkdown, aborted, badlength, badcheck), open fragments,
//! open bytes, taken, refused and total. STATE is 289 bytes: those of the
//! account, then the maximum as a number of eight bytes and the check, 00 or 01
//! where it is sound.
//!
//! `crc` takes the rest of any bytes from any start, bit by bit and by the table.
//! `code` gives the check byte of a transaction, `code-pattern` the same for data
//! of a pattern of at most 2048 bytes; it is compared with the long division of
//! the history, and the program stops if they disagree.
//!
//! `start` gives the state, a store of a pattern of at most 2048 bytes and at
//! most 64 bytes of settings that are carried from there on; before it they are
//! zeros and no bytes. `send` does one transaction on them, with zeros in place
//! of address and check byte, and `send-coded` one with these; `send-pattern` and
//! `send-coded-pattern` do the same with data of a pattern of at most 2048 bytes.
//! The three digests are those of the state, the store and the settings
//! afterwards. `show` shows the state and the settings that are carried, `packet`
//! what is shown of the store. Where the state that was given was fresh, every
//! transaction is compared with the history, and the program stops if they
//! disagree.
//!
//! `journal` reads a journal of either version in pieces of PIECE bytes, of
//! which the last may be shorter, or whole where PIECE is zero; the answer is
//! all that is printed of it. It is compared with the history of the journal's
//! list, and the program stops if they disagree. `print` prints an account into
//! a buffer of ROOM bytes, at most 2048, that has the pattern of the seed aa
//! before; the answer is the length of the printout, zero where nothing is
//! printed, and the whole buffer afterwards.
//!
//! A digest starts from 1 and becomes (257 * digest + byte) mod 4294967291 with
//! each byte.

#![forbid(unsafe_code)]

mod answer;
mod bench_journal;
mod generate;
mod journal_writer;
mod pattern;
mod print_account;
mod text;

use std::env;
use std::ffi::OsString;
use std::io::{self, BufWriter, Write};
use std::path::Path;
use std::process::ExitCode;

use reference::random;

use self::bench_journal::Kind;

const USAGE: &str = "\
usage: reference generate [SUBJECT]
       reference answer
       reference account [FILE]
       reference bench-journal KIND BYTES
       reference --help";

const HELP: &str = "
generate       prints all test cases, or those of a subject: setlink, status,
               settings, packet, codes, account, state, transactions, lists,
               journals, printouts
answer         reads test cases on standard input and prints their answers
account        reads a journal, from standard input where no file is named, and
               prints its account, or `bad journal` alone
bench-journal  prints a journal of about so many bytes to measure with; KIND is
               fragments-240, fragments-20 or commands, with -checked behind it
               where records have address and check byte

Exit status: 0 if all went well; 1 if a journal is bad, a line is no test case,
or something cannot be read or written, which is told on standard error; 2 for
arguments that are none of these.";

const EXIT_FAILURE: u8 = 1;
const EXIT_USAGE: u8 = 2;

fn main() -> ExitCode {
    let arguments: Vec<OsString> = env::args_os().skip(1).collect();
    match run(&arguments) {
        None => {
            eprintln!("{USAGE}");
            ExitCode::from(EXIT_USAGE)
        }
        Some(Ok(true)) => ExitCode::SUCCESS,
        Some(Ok(false)) => ExitCode::from(EXIT_FAILURE),
        Some(Err(message)) => {
            eprintln!("{message}");
            ExitCode::from(EXIT_FAILURE)
        }
    }
}

/// Does what the arguments ask for, and gives whether all was well; nothing
/// where they ask for nothing that there is.
fn run(arguments: &[OsString]) -> Option<Result<bool, String>> {
    let (mode, rest) = arguments.split_first()?;
    let result = match (mode.to_str()?, rest) {
        ("generate", []) => print_text(&generate::cases()),
        ("generate", [subject]) => print_text(&generate::cases_of(subject.to_str()?)?),
        ("answer", []) => print_answers(),
        ("account", []) => return Some(print_account::print_account(None)),
        ("account", [file]) => return Some(print_account::print_account(Some(Path::new(file)))),
        ("bench-journal", [kind, bytes]) => {
            let kind = Kind::named(kind.to_str()?)?;
            print_journal(kind, bytes.to_str()?.parse().ok()?)
        }
        ("--help", []) => print_text(&format!("{USAGE}\n{HELP}\n")),
        _ => return None,
    };
    Some(result.map(|()| true))
}

fn print_text(text: &str) -> Result<(), String> {
    io::stdout().write_all(text.as_bytes()).map_err(not_printed)
}

fn print_answers() -> Result<(), String> {
    let mut output = BufWriter::new(io::stdout().lock());
    let result = answer::answer_all(&mut io::stdin().lock(), &mut output);
    output.flush().map_err(not_printed)?;
    result
}

fn print_journal(kind: Kind, bytes: u64) -> Result<(), String> {
    let mut output = BufWriter::new(io::stdout().lock());
    bench_journal::write(kind, bytes, &mut output)
        .and_then(|()| output.flush())
        .map_err(not_printed)
}

fn not_printed(error: io::Error) -> String {
    format!("standard output: {error}")
}
