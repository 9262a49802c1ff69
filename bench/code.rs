//! Measures `tco_check_code`, which goes by a table, against the second
//! program's own call that does the same, in turns, and against the second
//! program's code bit by bit; each gives the code. Of the code bit by bit
//! rustc 1.95 makes a table of its own, rustc 1.63 does not.

use std::process::ExitCode;

use reference::pec;

#[allow(dead_code)]
#[path = "../tests/callers/rust/archive.rs"]
mod archive;
mod turns;

use turns::Row;

const ADDRESS: u8 = 0x92;
const COMMAND: u8 = 0x04;

/// Data bytes, one more than have a code.
static DATA: [u8; 256] = [0x5a; 256];

struct Input {
    data: &'static [u8],
}

fn main() -> ExitCode {
    let inputs = [0, 1, 20, 64, 240, 255, 256].map(|length| Input { data: &DATA[..length] });
    let [none, one, twenty, sixty_four, maximum, most, too_many] = &inputs;
    let rows = [
        row("no data", none, by_table),
        row("1 byte", one, by_table),
        row("20 bytes", twenty, by_table),
        row("64 bytes", sixty_four, by_table),
        row("240 bytes", maximum, by_table),
        row("255 bytes", most, by_table),
        row("256 bytes, no code", too_many, by_table),
        row("20 bytes, second bit by bit", twenty, by_bits),
        row("240 bytes, second bit by bit", maximum, by_bits),
    ];
    turns::print("bench-code", "packet error code", &rows)
}

fn row<'a>(name: &'static str, input: &'a Input, second: fn(&Input) -> u32) -> Row<'a, Input> {
    Row {
        name,
        proved: |input| archive::check_code(ADDRESS, COMMAND, input.data).code.into(),
        second,
        input,
        wanted: by_table(input),
    }
}

fn by_table(input: &Input) -> u32 {
    pec::code(ADDRESS, COMMAND, input.data).1.into()
}

fn by_bits(input: &Input) -> u32 {
    let before = pec::by_bits(0, &[ADDRESS, COMMAND, input.data.len() as u8]);
    pec::by_bits(before, input.data).into()
}
