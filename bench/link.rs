//! Measures `tco_set_link` against the second program's own call that does the
//! same, in turns; each gives the reason.

use std::process::ExitCode;

use reference::setlink::{decide, Media};
use second::{COPPER, FIBRE};

#[allow(dead_code)]
#[path = "../tests/callers/rust/archive.rs"]
mod archive;
mod turns;

use turns::Row;

const IN_FORCE: u32 = 0x204;

/// A word, and its medium as each program has it.
struct Input {
    word: u32,
    own: Media,
    lent: u32,
}

fn main() -> ExitCode {
    let on_copper = |word| Input { word, own: Media::Copper, lent: COPPER };
    let on_fibre = |word| Input { word, own: Media::Fibre, lent: FIBRE };
    let rows = [
        ("copper, negotiated 1000 full", on_copper(0x219), 0x0000),
        ("copper, forced 10 half", on_copper(0x102), 0x0000),
        ("copper, forced 1000 full", on_copper(0x208), 0x0000),
        ("copper, two speeds", on_copper(0x30c), 0x0905),
        ("fibre, negotiated 1000 full", on_fibre(0x219), 0x0000),
        ("fibre, forced 1000 full", on_fibre(0x208), 0x0000),
        ("fibre, forced 100 full", on_fibre(0x204), 0x0902),
        ("fibre, two speeds", on_fibre(0x30c), 0x0905),
    ];
    let rows: Vec<_> = rows.iter().map(|(name, input, reason)| row(name, input, *reason)).collect();
    turns::print("bench-link", "Set Link", &rows)
}

fn row<'a>(name: &'static str, input: &'a Input, reason: u32) -> Row<'a, Input> {
    Row {
        name,
        proved: |input| archive::set_link(IN_FORCE, input.word, false, input.lent).reason.into(),
        second: |input| decide(IN_FORCE, input.word, false, input.own).reason.into(),
        input,
        wanted: reason,
    }
}
