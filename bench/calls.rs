//! Measures a call of `tco_transact` against the second program's own call that
//! does the same on a state where it lies, in turns, on buffers that are warm;
//! with the feature `before`, against that of an older archive too.

use std::env;
use std::process::ExitCode;
use std::time::Instant;

use reference::account::{FATES, FRAGMENTS};
use reference::packet::LONGEST_PACKET;
use reference::pec;
use reference::settings::{FRESH_SETTINGS, SETTINGS_BYTES};
use reference::state::{self, HIGHEST_MAXIMUM};
use reference::translator::{
    self, FIRST_FRAGMENT, LAST_FRAGMENT, MIDDLE_FRAGMENT, RECEIVE_ENABLE, WHOLE_PACKET,
};
use second::interface::{State, Transaction};

#[allow(dead_code)]
#[path = "../tests/callers/rust/archive.rs"]
mod archive;
#[cfg(feature = "before")]
mod before;

const ROUNDS: u32 = 300;
const CALLS: u32 = 2000;
const STORE_BYTES: usize = LONGEST_PACKET as usize;
const UNKNOWN: u8 = 0;
const ADDRESS: u8 = 0x92;
/// A Receive Enable of the long form: the MAC and the IPv4 address are set.
const LONG_FORM: [u8; 14] = [0xc9, 2, 3, 4, 5, 6, 7, 8, 9, 10, 11, 12, 13, 14];

/// A transaction that is made again and again, and its answer.
struct Row {
    name: &'static str,
    command: u8,
    bytes: &'static [u8],
    open: Option<Open>,
    check: Check,
    answer: u32,
}

/// Whether the check is on, and with which code a transaction then comes.
#[derive(Clone, Copy, PartialEq)]
enum Check {
    Off,
    Right,
    Wrong,
}

/// The numbers of the packet that is opened anew before each call.
#[derive(Clone, Copy)]
struct Open {
    fragments: u64,
    bytes: u64,
}

/// The state stays as the call before left it.
const KEPT: Option<Open> = None;
const NONE_OPEN: Option<Open> = Some(Open { fragments: 0, bytes: 0 });
const FOUR_OPEN: Option<Open> = Some(Open { fragments: 4, bytes: 960 });
/// A packet that is too long already.
const SEVEN_OPEN: Option<Open> = Some(Open { fragments: 7, bytes: 1680 });

const ROWS: &[Row] = &[
    row("whole, 1 byte", WHOLE_PACKET, &[0x5a; 1], KEPT, 5),
    row("whole, 20 bytes", WHOLE_PACKET, &[0x5a; 20], KEPT, 1),
    row("whole, 64 bytes", WHOLE_PACKET, &[0x5a; 64], KEPT, 1),
    row("whole, 240 bytes", WHOLE_PACKET, &[0x5a; 240], KEPT, 1),
    row("Receive Enable", RECEIVE_ENABLE, &LONG_FORM, KEPT, 11),
    row("refused", UNKNOWN, &[], KEPT, 7),
    row("First, 1 byte", FIRST_FRAGMENT, &[0x5a; 1], NONE_OPEN, 0),
    row("First, 20 bytes", FIRST_FRAGMENT, &[0x5a; 20], NONE_OPEN, 0),
    row("First, 64 bytes", FIRST_FRAGMENT, &[0x5a; 64], NONE_OPEN, 0),
    row("First, 240 bytes", FIRST_FRAGMENT, &[0x5a; 240], NONE_OPEN, 0),
    row("Middle, 1 byte", MIDDLE_FRAGMENT, &[0x5a; 1], FOUR_OPEN, 0),
    row("Middle, 20 bytes", MIDDLE_FRAGMENT, &[0x5a; 20], FOUR_OPEN, 0),
    row("Middle, 64 bytes", MIDDLE_FRAGMENT, &[0x5a; 64], FOUR_OPEN, 0),
    row("Middle, 240 bytes", MIDDLE_FRAGMENT, &[0x5a; 240], FOUR_OPEN, 0),
    row("Last, 1 byte", LAST_FRAGMENT, &[0x5a; 1], FOUR_OPEN, 1),
    row("Last, 20 bytes", LAST_FRAGMENT, &[0x5a; 20], FOUR_OPEN, 1),
    row("Last, 64 bytes", LAST_FRAGMENT, &[0x5a; 64], FOUR_OPEN, 1),
    row("Last, 240 bytes", LAST_FRAGMENT, &[0x5a; 240], FOUR_OPEN, 1),
    row("Middle past 1536, 20 bytes", MIDDLE_FRAGMENT, &[0x5a; 20], SEVEN_OPEN, 0),
    row("Middle past 1536, 240 bytes", MIDDLE_FRAGMENT, &[0x5a; 240], SEVEN_OPEN, 0),
    row("Last past 1536, 20 bytes", LAST_FRAGMENT, &[0x5a; 20], SEVEN_OPEN, 4),
    row("Last past 1536, 240 bytes", LAST_FRAGMENT, &[0x5a; 240], SEVEN_OPEN, 4),
    checked(row("checked whole, 1 byte", WHOLE_PACKET, &[0x5a; 1], KEPT, 5)),
    checked(row("checked whole, 20 bytes", WHOLE_PACKET, &[0x5a; 20], KEPT, 1)),
    checked(row("checked whole, 64 bytes", WHOLE_PACKET, &[0x5a; 64], KEPT, 1)),
    checked(row("checked whole, 240 bytes", WHOLE_PACKET, &[0x5a; 240], KEPT, 1)),
    checked(row("checked Receive Enable", RECEIVE_ENABLE, &LONG_FORM, KEPT, 11)),
    checked(row("checked, refused", UNKNOWN, &[], KEPT, 7)),
    checked(row("checked Middle, 20 bytes", MIDDLE_FRAGMENT, &[0x5a; 20], FOUR_OPEN, 0)),
    checked(row("checked Middle, 240 bytes", MIDDLE_FRAGMENT, &[0x5a; 240], FOUR_OPEN, 0)),
    wrong(row("wrong code, 20 bytes", MIDDLE_FRAGMENT, &[0x5a; 20], FOUR_OPEN, 17)),
    wrong(row("wrong code, 240 bytes", MIDDLE_FRAGMENT, &[0x5a; 240], FOUR_OPEN, 17)),
    wrong(row("no code, 256 bytes", MIDDLE_FRAGMENT, &[0x5a; 256], FOUR_OPEN, 17)),
];

/// A row with the check off.
const fn row(
    name: &'static str,
    command: u8,
    bytes: &'static [u8],
    open: Option<Open>,
    answer: u32,
) -> Row {
    Row { name, command, bytes, open, check: Check::Off, answer }
}

const fn checked(row: Row) -> Row {
    Row { check: Check::Right, ..row }
}

const fn wrong(row: Row) -> Row {
    Row { check: Check::Wrong, ..row }
}

/// What the calls of a program work on; at the start of a page, and with it the
/// stack of the calls, so that every run lays them out alike.
#[derive(PartialEq)]
#[repr(align(4096))]
struct Lent {
    state: state::State,
    store: [u8; STORE_BYTES],
    settings: [u8; SETTINGS_BYTES],
}

/// A program that is measured, and how it makes so many calls of a row, with
/// nanoseconds a call.
struct Program {
    name: &'static str,
    has_check: bool,
    make: fn(&Row, &mut Lent, u32) -> f64,
}

impl Program {
    fn makes(&self, row: &Row) -> bool {
        self.has_check || row.check == Check::Off
    }
}

const PROGRAMS: &[Program] = &[
    Program { name: "proved", has_check: true, make: make::<State> },
    Program { name: "second", has_check: true, make: make::<state::State> },
    #[cfg(feature = "before")]
    Program { name: "before", has_check: false, make: make::<before::State> },
];
const PROVED: usize = 0;
const SECOND: usize = 1;
#[cfg(feature = "before")]
const BEFORE: usize = 2;

/// What a call is handed beside the state.
struct Call<'a> {
    store: &'a mut [u8],
    settings: &'a mut [u8],
    transaction: Transaction,
    bytes: &'a [u8],
}

/// A state as a program has it, and the program's call on it.
trait Kept {
    fn of(own: &state::State) -> Self;
    fn own(&self) -> state::State;
    /// Fragments and bytes of the open packet, and the total.
    fn open(&mut self) -> [&mut u64; 3];
    /// Gives the answer.
    fn transact(&mut self, call: Call) -> u32;
}

impl Kept for State {
    fn of(own: &state::State) -> State {
        own.into()
    }

    fn own(&self) -> state::State {
        self.into()
    }

    fn open(&mut self) -> [&mut u64; 3] {
        let account = &mut self.account;
        [&mut account.open_fragments, &mut account.open_bytes, &mut account.total]
    }

    fn transact(&mut self, call: Call) -> u32 {
        archive::transact(self, call.store, call.settings, call.transaction, call.bytes).answer
    }
}

impl Kept for state::State {
    fn of(own: &state::State) -> state::State {
        *own
    }

    fn own(&self) -> state::State {
        *self
    }

    fn open(&mut self) -> [&mut u64; 3] {
        let account = &mut self.account;
        [&mut account.open_fragments, &mut account.open_bytes, &mut account.total]
    }

    fn transact(&mut self, call: Call) -> u32 {
        let Call { store, settings, transaction, bytes } = call;
        translator::transact(self, store, settings, transaction.into(), bytes).0.into()
    }
}

/// Nanoseconds a call of each program, the best so far; none of a row that the
/// program cannot make.
type Best = [f64; PROGRAMS.len()];

/// A column of the table: its number for a fresh state and an aged one.
struct Column {
    head: &'static str,
    decimals: usize,
    number: fn(&Best, &Best) -> f64,
}

const COLUMNS: &[Column] = &[
    #[cfg(feature = "before")]
    Column { head: "before", decimals: 1, number: |fresh, _| fresh[BEFORE] },
    Column { head: "proved", decimals: 1, number: |fresh, _| fresh[PROVED] },
    Column { head: "second", decimals: 1, number: |fresh, _| fresh[SECOND] },
    Column { head: "proved/second", decimals: 2, number: |fresh, _| fresh[PROVED] / fresh[SECOND] },
    #[cfg(feature = "before")]
    Column { head: "proved/before", decimals: 2, number: |fresh, _| fresh[PROVED] / fresh[BEFORE] },
    Column { head: "proved, aged", decimals: 1, number: |_, aged| aged[PROVED] },
    Column { head: "aged/fresh", decimals: 2, number: |fresh, aged| aged[PROVED] / fresh[PROVED] },
];

fn main() -> ExitCode {
    let arguments: Vec<String> = env::args().skip(1).collect();
    if run(&arguments).is_none() {
        eprintln!("usage: bench-calls [ROUNDS | PROGRAM ROW CALLS]");
        return ExitCode::from(2);
    }
    ExitCode::SUCCESS
}

/// Prints the table, or only makes calls of one row with one program, from a
/// fresh state; nothing where the arguments ask for neither.
fn run(arguments: &[String]) -> Option<()> {
    match arguments {
        [] => print(ROUNDS, &measured(ROUNDS)),
        [rounds] => {
            let rounds = rounds.parse().ok()?;
            print(rounds, &measured(rounds));
        }
        [program, row, calls] => {
            let program = PROGRAMS.iter().find(|known| known.name == program)?;
            let row = ROWS.iter().find(|known| known.name == row)?;
            if !program.makes(row) {
                return None;
            }
            (program.make)(row, &mut lent(&fresh(row.check)), calls.parse().ok()?);
        }
        _ => return None,
    }
    Some(())
}

/// The best times of each row, from a fresh state and from an aged one.
fn measured(rounds: u32) -> [[Best; 2]; ROWS.len()] {
    let mut best = [[[f64::NAN; PROGRAMS.len()]; 2]; ROWS.len()];
    for _ in 0..rounds {
        for (row, best) in ROWS.iter().zip(&mut best) {
            for (state, best) in [fresh(row.check), aged(row.check)].iter().zip(best) {
                measure(row, state, best);
            }
        }
    }
    best
}

/// Measures a row with one program after the other, which all leave the same;
/// the first calls, which warm the buffers, do not count.
fn measure(row: &Row, state: &state::State, best: &mut Best) {
    let mut ends = Vec::new();
    for (program, best) in PROGRAMS.iter().zip(best) {
        if !program.makes(row) {
            continue;
        }
        let mut lent = lent(state);
        (program.make)(row, &mut lent, CALLS / 10);
        *best = best.min((program.make)(row, &mut lent, CALLS));
        ends.push(lent);
    }
    assert!(ends.windows(2).all(|two| two[0] == two[1]), "{}: what is left differs", row.name);
}

fn fresh(check: Check) -> state::State {
    state::fresh(HIGHEST_MAXIMUM as u32, check != Check::Off).1
}

/// A state whose account has counted four billion transactions, of every fate
/// that there is with the check off.
fn aged(check: Check) -> state::State {
    const EACH: u64 = 400_000_000;
    let mut state = fresh(check);
    for row in &mut state.account.grid[..FATES - 1] {
        row[FRAGMENTS] = EACH;
    }
    state.account.taken = EACH;
    state.account.total = EACH * FATES as u64;
    state
}

fn lent(state: &state::State) -> Lent {
    Lent { state: *state, store: [0xff; STORE_BYTES], settings: FRESH_SETTINGS }
}

/// Makes calls of the program that keeps a state as this type.
fn make<S: Kept>(row: &Row, lent: &mut Lent, calls: u32) -> f64 {
    let Lent { state: own, store, settings } = lent;
    let mut state = S::of(own);
    let transaction = row.transaction();
    let nanoseconds = time(row, calls, || {
        if let Some(open) = row.open {
            open.anew(state.open());
        }
        state.transact(Call { store, settings, transaction, bytes: row.bytes })
    });
    *own = state.own();
    nanoseconds
}

fn time(row: &Row, calls: u32, mut call: impl FnMut() -> u32) -> f64 {
    let start = Instant::now();
    let others: u32 = (0..calls).map(|_| call() ^ row.answer).fold(0, |all, bits| all | bits);
    let nanoseconds = start.elapsed().as_nanos() as f64 / f64::from(calls);
    assert_eq!(others, 0, "{}: another answer", row.name);
    nanoseconds
}

impl Row {
    fn transaction(&self) -> Transaction {
        let (_, right) = pec::code(ADDRESS, self.command, self.bytes);
        let code = if self.check == Check::Wrong { !right } else { right };
        Transaction { address: ADDRESS, command: self.command, code, link_up: true }
    }
}

impl Open {
    /// Opens the packet anew in an account; its total stays the sum.
    fn anew(self, [fragments, bytes, total]: [&mut u64; 3]) {
        *total = *total - *fragments + self.fragments;
        *fragments = self.fragments;
        *bytes = self.bytes;
    }
}

fn print(rounds: u32, best: &[[Best; 2]]) {
    println!("nanoseconds a call, the best of {rounds} rounds of {CALLS} calls; an aged account has counted");
    println!("{} transactions\n", aged(Check::Off).account.total);
    print!("{:<28}{:>6}", "transaction", "answer");
    for column in COLUMNS {
        print!("  {:>6}", column.head);
    }
    println!();
    for (row, [fresh, aged]) in ROWS.iter().zip(best) {
        print!("{:<28}{:>6}", row.name, row.answer);
        for column in COLUMNS {
            let width = column.head.len().max(6);
            let number = (column.number)(fresh, aged);
            if number.is_nan() {
                print!("  {:>width$}", "-");
            } else {
                print!("  {number:>width$.*}", column.decimals);
            }
        }
        println!();
    }
}
