//! Calls of the archive and of the second program, measured in turns.

use std::env;
use std::process::ExitCode;
use std::ptr::read_volatile;
use std::time::Instant;

const ROUNDS: u32 = 300;
const CALLS: u32 = 20_000;

/// A call with one input that is made again and again by the archive and by the
/// second program; both give the number that is wanted.
pub struct Row<'a, Input> {
    pub name: &'static str,
    pub proved: fn(&Input) -> u32,
    pub second: fn(&Input) -> u32,
    pub input: &'a Input,
    pub wanted: u32,
}

/// Prints a line for each row, after as many rounds as the argument asks for.
pub fn print<Input>(program: &str, what: &str, rows: &[Row<Input>]) -> ExitCode {
    let rounds = match env::args().nth(1).map(|rounds| rounds.parse()) {
        None => ROUNDS,
        Some(Ok(rounds)) => rounds,
        Some(Err(_)) => {
            eprintln!("usage: {program} [ROUNDS]");
            return ExitCode::from(2);
        }
    };
    println!("nanoseconds a call, the best of {rounds} rounds of {CALLS} calls\n");
    println!("{what:<32}  proved  second  proved/second");
    for row in rows {
        let [mut proved, mut second] = [f64::MAX; 2];
        for _ in 0..rounds {
            proved = proved.min(time(row.proved, row));
            second = second.min(time(row.second, row));
        }
        println!("{:<32}  {proved:>6.2}  {second:>6.2}  {:>13.2}", row.name, proved / second);
    }
    ExitCode::SUCCESS
}

fn time<Input>(call: fn(&Input) -> u32, row: &Row<Input>) -> f64 {
    let start = Instant::now();
    let others = (0..CALLS).fold(0, |all, _| all | call(unknown(&row.input)) ^ row.wanted);
    let nanoseconds = start.elapsed().as_nanos() as f64 / f64::from(CALLS);
    assert_eq!(others, 0, "{}: another answer", row.name);
    nanoseconds
}

/// An input of which the compiler does not know that it is the same in each call.
fn unknown<'a, Input>(input: &&'a Input) -> &'a Input {
    unsafe { read_volatile(input) }
}
