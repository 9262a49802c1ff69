//! Measures `tco_write_status` and `tco_read_status` against the second
//! program's own calls that do the same, in turns; each gives the number of the
//! bad field, and the VLAN index is judged last.

use std::process::ExitCode;

use reference::status::{answered, read, write, StatusData};
use second::interface::Status;

#[allow(dead_code)]
#[path = "../tests/callers/rust/archive.rs"]
mod archive;
mod turns;

use turns::Row;

/// What the calls are handed: fields, as the second program has them and as the
/// C interface has them, or a block.
struct Input {
    own: StatusData,
    lent: Status,
    block: [u8; 8],
}

fn main() -> ExitCode {
    let good = StatusData {
        length: 1500,
        vlan: 0x0123,
        decision_match: true,
        decision_index: 7,
        vlan_match: true,
        vlan_index: 5,
    };
    let last_bad = StatusData { vlan_index: 8, ..good };
    let good = Input::new(good, [0xdc, 0x05, 0x01, 0x00, 0x23, 0x01, 0x7d, 0x01]);
    let last_bad = Input::new(last_bad, [0xdc, 0x05, 0x01, 0x00, 0x23, 0x01, 0x75, 0x01]);
    let rows = [
        written("written", &good, 0),
        written("written, VLAN index bad", &last_bad, 6),
        parsed("read", &good, 0),
        parsed("read, VLAN index bad", &last_bad, 6),
    ];
    turns::print("bench-status", "status data", &rows)
}

impl Input {
    fn new(own: StatusData, block: [u8; 8]) -> Input {
        Input { own, lent: own.into(), block }
    }
}

fn written<'a>(name: &'static str, input: &'a Input, field: u32) -> Row<'a, Input> {
    Row {
        name,
        proved: |input| archive::write_status(input.lent).field,
        second: |input| answered(write(&input.own)).1.into(),
        input,
        wanted: field,
    }
}

fn parsed<'a>(name: &'static str, input: &'a Input, field: u32) -> Row<'a, Input> {
    Row {
        name,
        proved: |input| archive::read_status(&input.block).field,
        second: |input| answered(read(&input.block)).1.into(),
        input,
        wanted: field,
    }
}
