//! Measures `tco_print_account` against the second program's own call that does
//! the same, in turns; each gives the length of the printout.

use std::cell::RefCell;
use std::process::ExitCode;

use reference::account::{Account, Fate, BYTES, HIGHEST_TOTAL};
use reference::printout;
use second::interface;

#[allow(dead_code)]
#[path = "../tests/callers/rust/archive.rs"]
mod archive;
mod turns;

use turns::Row;

const ROOM: usize = 1024;

/// An account, as each program has it, and where it is printed.
struct Input {
    own: Account,
    lent: interface::Account,
    room: RefCell<[u8; ROOM]>,
}

fn main() -> ExitCode {
    let zeros = Account::default();
    let mixed = Account {
        grid: [
            [123_456, 987_654, 98_765_432],
            [7, 19, 2_280],
            [0, 0, 0],
            [12, 34, 567],
            [1, 7, 1_543],
            [2_345, 2_345, 30_000],
            [60, 240, 57_600],
            [0, 9, 1_234],
            [0, 101, 0],
            [0, 11, 0],
        ],
        open_fragments: 2,
        open_bytes: 300,
        taken: 4_321,
        refused: 56,
        total: 994_799,
    };
    let above = Account { total: HIGHEST_TOTAL + 1, ..zeros };
    let mut bad_length = zeros;
    bad_length.grid[Fate::BadLength as usize][BYTES] = 1;
    let rows = [
        ("all zeros", Input::new(zeros), 204),
        ("small and large numbers", Input::new(mixed), 266),
        ("total above the limit", Input::new(above), 0),
        ("badlength with a byte", Input::new(bad_length), 0),
    ];
    let rows: Vec<_> = rows.iter().map(|(name, input, length)| row(name, input, *length)).collect();
    turns::print("bench-print", "account", &rows)
}

impl Input {
    fn new(own: Account) -> Input {
        Input { own, lent: (&own).into(), room: RefCell::new([0; ROOM]) }
    }
}

fn row<'a>(name: &'static str, input: &'a Input, length: u32) -> Row<'a, Input> {
    Row {
        name,
        proved: |input| archive::print_account(input.lent, &mut *input.room.borrow_mut()) as u32,
        second: |input| printout::print(&input.own, &mut *input.room.borrow_mut()) as u32,
        input,
        wanted: length,
    }
}
