//! Generates cases, the same ones in every run.

mod account;
mod codes;
mod controller;
mod journals;
mod lists;
mod packet;
mod printouts;
mod setlink;
mod settings;
mod state;
mod status;
mod transactions;

use crate::text::Line;

/// A subject by its name, and what adds its cases.
type Subject = (&'static str, fn(&mut Cases));

/// The subjects in the order of their cases.
const SUBJECTS: [Subject; 11] = [
    ("setlink", setlink::generate),
    ("status", status::generate),
    ("settings", settings::generate),
    ("packet", packet::generate),
    ("codes", codes::generate),
    ("account", account::generate),
    ("state", state::generate),
    ("transactions", transactions::generate),
    ("lists", lists::generate),
    ("journals", journals::generate),
    ("printouts", printouts::generate),
];

/// All cases, grouped by subject.
pub fn cases() -> String {
    text(&SUBJECTS)
}

/// The cases of the subject of this name.
pub fn cases_of(name: &str) -> Option<String> {
    let subject = SUBJECTS.iter().find(|(its_name, _)| *its_name == name)?;
    Some(text(&[*subject]))
}

fn text(subjects: &[Subject]) -> String {
    let mut cases = Cases { text: String::new() };
    for (_, generate) in subjects {
        generate(&mut cases);
    }
    cases.text
}

/// The cases so far.
pub struct Cases {
    text: String,
}

impl Cases {
    /// Begins a group of cases, set off by an empty line.
    fn group(&mut self, title: &str) {
        if !self.text.is_empty() {
            self.text.push('\n');
        }
        self.name(title);
    }

    /// Names the case or cases that follow.
    fn name(&mut self, name: &str) {
        self.text.push_str("# ");
        self.text.push_str(name);
        self.text.push('\n');
    }

    /// Adds a group of cases, each named with what becomes of it.
    fn named_group(
        &mut self,
        title: &str,
        outcome: &str,
        cases: impl IntoIterator<Item = (String, Line)>,
    ) {
        self.group(title);
        for (name, case) in cases {
            self.name(&format!("{name}: {outcome}"));
            self.case(case);
        }
    }

    /// Adds a case.
    fn case(&mut self, case: Line) {
        self.text.push_str(&case.text());
        self.text.push('\n');
    }
}
