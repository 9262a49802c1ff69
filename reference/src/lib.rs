//! The rules of the I210 management bus translator, written in plain Rust as
//! a second opinion: its answers are compared with those of the translator.
//!
//! Nothing that replays allocates or keeps anything of its own; states, stores,
//! settings, blocks and journals are the caller's. What checks it, the history
//! and the listing of a journal, works on lists.

#![forbid(unsafe_code)]

pub mod account;
pub mod answer_numbers;
pub mod history;
pub mod journal;
pub mod listing;
pub mod packet;
pub mod pec;
pub mod printout;
pub mod random;
pub mod setlink;
pub mod settings;
pub mod state;
pub mod status;
pub mod translator;
