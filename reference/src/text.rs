//! The text of cases and answers.

use std::str::Split;

use reference::state::State;

/// The longest line, without its line feed.
pub const LONGEST_LINE: usize = 8000;

const NO_BYTES: &str = "-";

/// What is wrong with a line that is no case.
pub type NotACase = &'static str;

/// A line of fields, built from the left.
pub struct Line {
    text: String,
}

impl Line {
    /// A case, so far without fields.
    pub fn case(operation: &str) -> Line {
        Line { text: operation.to_string() }
    }

    /// An answer, so far without fields.
    pub fn answer() -> Line {
        Line { text: String::new() }
    }

    /// Adds a byte string.
    pub fn bytes(mut self, bytes: &[u8]) -> Line {
        if !self.text.is_empty() {
            self.text.push(' ');
        }
        if bytes.is_empty() {
            self.text.push_str(NO_BYTES);
        }
        for byte in bytes {
            self.text.push_str(&format!("{byte:02x}"));
        }
        self
    }

    /// Adds a number of one byte.
    pub fn u8(self, number: u8) -> Line {
        self.bytes(&[number])
    }

    /// Adds a number of two bytes.
    pub fn u16(self, number: u16) -> Line {
        self.bytes(&number.to_be_bytes())
    }

    /// Adds a number of four bytes.
    pub fn u32(self, number: u32) -> Line {
        self.bytes(&number.to_be_bytes())
    }

    /// Adds a number of eight bytes.
    pub fn u64(self, number: u64) -> Line {
        self.bytes(&number.to_be_bytes())
    }

    /// Adds numbers of eight bytes as one byte string.
    pub fn numbers(self, numbers: &[u64]) -> Line {
        self.bytes(&bytes_of(numbers))
    }

    /// Adds a state.
    pub fn state(self, state: &State) -> Line {
        self.bytes(&bytes_of_state(state))
    }

    /// Adds a bool.
    pub fn bool(self, value: bool) -> Line {
        self.u8(u8::from(value))
    }

    /// The finished text, without a line feed.
    pub fn text(self) -> String {
        self.text
    }
}

/// The fields of a case, taken from the left.
pub struct Fields<'a> {
    rest: Split<'a, char>,
}

impl<'a> Fields<'a> {
    /// Parts a case into its operation and its fields.
    pub fn of(case: &'a str) -> (&'a str, Fields<'a>) {
        let mut rest = case.split(' ');
        let operation = rest.next().unwrap_or_default();
        (operation, Fields { rest })
    }

    /// Takes a byte string of any length.
    pub fn bytes(&mut self) -> Result<Vec<u8>, NotACase> {
        let field = self.rest.next().ok_or("a field is missing")?;
        if field == NO_BYTES {
            return Ok(Vec::new());
        }
        if field.is_empty() {
            return Err("an empty field");
        }
        if field.len() % 2 != 0 {
            return Err("half a byte in a field");
        }
        field
            .as_bytes()
            .chunks(2)
            .map(|digits| Ok(digit(digits[0])? << 4 | digit(digits[1])?))
            .collect()
    }

    /// Takes a number of one byte.
    pub fn u8(&mut self) -> Result<u8, NotACase> {
        Ok(u8::from_be_bytes(self.array()?))
    }

    /// Takes a number of two bytes.
    pub fn u16(&mut self) -> Result<u16, NotACase> {
        Ok(u16::from_be_bytes(self.array()?))
    }

    /// Takes a number of four bytes.
    pub fn u32(&mut self) -> Result<u32, NotACase> {
        Ok(u32::from_be_bytes(self.array()?))
    }

    /// Takes a number of eight bytes.
    pub fn u64(&mut self) -> Result<u64, NotACase> {
        Ok(u64::from_be_bytes(self.array()?))
    }

    /// Takes a bool.
    pub fn bool(&mut self) -> Result<bool, NotACase> {
        match self.u8()? {
            0 => Ok(false),
            1 => Ok(true),
            _ => Err("a field of two values has a third"),
        }
    }

    /// Makes sure that no field is left.
    pub fn end(mut self) -> Result<(), NotACase> {
        match self.rest.next() {
            None => Ok(()),
            Some(_) => Err("a field too many"),
        }
    }

    fn array<const SIZE: usize>(&mut self) -> Result<[u8; SIZE], NotACase> {
        self.bytes()?.try_into().map_err(|_| "a number of the wrong size")
    }
}

/// The bytes of numbers of eight bytes, one after the other.
fn bytes_of(numbers: &[u64]) -> Vec<u8> {
    numbers.iter().flat_map(|number| number.to_be_bytes()).collect()
}

/// The bytes of the numbers of a state, then its check.
pub fn bytes_of_state(state: &State) -> Vec<u8> {
    let mut bytes = bytes_of(&state.numbers());
    bytes.push(state.check);
    bytes
}

fn digit(character: u8) -> Result<u8, NotACase> {
    match character {
        b'0'..=b'9' => Ok(character - b'0'),
        b'a'..=b'f' => Ok(character - b'a' + 10),
        _ => Err("a field that is not lower-case hexadecimal"),
    }
}
