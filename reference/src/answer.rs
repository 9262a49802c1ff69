//! Answers cases.

mod carried;
mod journals;
mod transactions;

use std::fmt;
use std::io::{BufRead, Write};

use reference::setlink::{self, Media};
use reference::settings::{self, AddressInForce};
use reference::status::{self, StatusData};

use self::carried::{Carried, Disagreement};
use self::transactions::{given, limited_pattern};
use crate::text::{Fields, Line, NotACase, LONGEST_LINE};

const DIGEST_START: u64 = 1;
const DIGEST_FACTOR: u64 = 257;
/// The greatest prime below two to the power of 32.
const DIGEST_MODULUS: u64 = 4_294_967_291;

const SOURCE_NONE: u8 = 0;
const SOURCE_SETTINGS: u8 = 1;
const SOURCE_FLASH: u8 = 2;

/// Why a line is not answered.
pub enum Stopped {
    NotACase(NotACase),
    Disagreement(Disagreement),
}

impl From<NotACase> for Stopped {
    fn from(reason: NotACase) -> Stopped {
        Stopped::NotACase(reason)
    }
}

impl fmt::Display for Stopped {
    fn fmt(&self, formatter: &mut fmt::Formatter) -> fmt::Result {
        match self {
            Stopped::NotACase(reason) => write!(formatter, "not a case: {reason}"),
            Stopped::Disagreement(what) => {
                write!(formatter, "the translator and the history disagree: {what}")
            }
        }
    }
}

/// Answers every line of the input, up to the first that is no case or on
/// which the translator and the history disagree.
pub fn answer_all(input: &mut dyn BufRead, output: &mut dyn Write) -> Result<(), String> {
    let mut carried = Carried::default();
    let mut line = Vec::new();
    let mut number = 0;
    loop {
        line.clear();
        let length = input
            .read_until(b'\n', &mut line)
            .map_err(|error| format!("standard input: {error}"))?;
        if length == 0 {
            return Ok(());
        }
        number += 1;
        let answer = answer_line(&mut carried, &line)
            .map_err(|stopped| format!("line {number}: {stopped}"))?;
        writeln!(output, "{answer}").map_err(|error| format!("standard output: {error}"))?;
    }
}

fn answer_line(carried: &mut Carried, line: &[u8]) -> Result<String, Stopped> {
    let line = line.strip_suffix(b"\n").ok_or("no line feed at its end")?;
    if line.len() > LONGEST_LINE {
        return Err("too long".into());
    }
    if !line.is_ascii() {
        return Err("not ASCII".into());
    }
    let line = std::str::from_utf8(line).map_err(|_| "not ASCII")?;
    if line.is_empty() || line.starts_with('#') {
        return Ok(line.to_string());
    }
    answer_case(carried, line)
}

fn answer_case(carried: &mut Carried, case: &str) -> Result<String, Stopped> {
    let (operation, fields) = Fields::of(case);
    let answer = match operation {
        "link" => link(fields)?,
        "links" => links(fields)?,
        "write-status" => write_status(fields)?,
        "read-status" => read_status(fields)?,
        "fresh-settings" => fresh_settings(fields)?,
        "sound-settings" => sound_settings(fields)?,
        "enable" => enable(fields)?,
        "mac" => address(fields, settings::mac_in_force)?,
        "ipv4" => address(fields, settings::ipv4_in_force)?,
        "fill" => transactions::fill(fields)?,
        "shown" => transactions::shown(fields)?,
        "sound-account" => transactions::sound_account(fields)?,
        "fresh-state" => transactions::fresh_state(fields)?,
        "sound-state" => transactions::sound_state(fields)?,
        "start" => transactions::start(carried, fields)?,
        "code" => transactions::code(fields, given)?,
        "code-pattern" => transactions::code(fields, limited_pattern)?,
        "crc" => transactions::crc(fields)?,
        "send" => transactions::send(carried, fields, given)?,
        "send-pattern" => transactions::send(carried, fields, limited_pattern)?,
        "send-coded" => transactions::send_coded(carried, fields, given)?,
        "send-coded-pattern" => transactions::send_coded(carried, fields, limited_pattern)?,
        "show" => transactions::show(carried, fields)?,
        "packet" => transactions::packet(carried, fields)?,
        "journal" => journals::journal(fields)?,
        "print" => journals::print(fields)?,
        _ => return Err("an unknown operation".into()),
    };
    Ok(answer.text())
}

fn link(mut fields: Fields) -> Result<Line, NotACase> {
    let in_force = fields.u32()?;
    let word = fields.u32()?;
    let host_driver_present = fields.bool()?;
    let media = if fields.bool()? { Media::Fibre } else { Media::Copper };
    fields.end()?;
    let decision = setlink::decide(in_force, word, host_driver_present, media);
    Ok(Line::answer().u16(decision.response).u16(decision.reason).u32(decision.in_force))
}

fn links(mut fields: Fields) -> Result<Line, NotACase> {
    let in_force = fields.u32()?;
    let from = fields.u32()?;
    let count = fields.u16()?;
    fields.end()?;
    let end = u64::from(from) + u64::from(count);
    if end > 1 << 32 {
        return Err("words past the highest");
    }
    let mut digest = DIGEST_START;
    for word in u64::from(from)..end {
        for host_driver_present in [false, true] {
            for media in [Media::Copper, Media::Fibre] {
                let decision = setlink::decide(in_force, word as u32, host_driver_present, media);
                digest = digest_of(digest, &decision.response.to_be_bytes());
                digest = digest_of(digest, &decision.reason.to_be_bytes());
                digest = digest_of(digest, &decision.in_force.to_be_bytes());
            }
        }
    }
    Ok(Line::answer().u32(digest as u32))
}

fn digest(bytes: &[u8]) -> u32 {
    digest_of(DIGEST_START, bytes) as u32
}

fn digest_of(before: u64, bytes: &[u8]) -> u64 {
    bytes
        .iter()
        .fold(before, |digest, byte| (digest * DIGEST_FACTOR + u64::from(*byte)) % DIGEST_MODULUS)
}

fn write_status(mut fields: Fields) -> Result<Line, NotACase> {
    let data = StatusData {
        length: fields.u16()?,
        vlan: fields.u16()?,
        decision_match: fields.bool()?,
        decision_index: fields.u8()?,
        vlan_match: fields.bool()?,
        vlan_index: fields.u8()?,
    };
    fields.end()?;
    let (answer, field, block) = status::answered(status::write(&data));
    Ok(Line::answer().u8(answer).u8(field).bytes(&block))
}

fn read_status(mut fields: Fields) -> Result<Line, NotACase> {
    let block = fields.bytes()?;
    fields.end()?;
    let (answer, field, data) = status::answered(status::read(&block));
    Ok(Line::answer()
        .u8(answer)
        .u8(field)
        .u16(data.length)
        .u16(data.vlan)
        .bool(data.decision_match)
        .u8(data.decision_index)
        .bool(data.vlan_match)
        .u8(data.vlan_index))
}

fn fresh_settings(mut fields: Fields) -> Result<Line, NotACase> {
    let mut lent = fields.bytes()?;
    fields.end()?;
    let answer = settings::fresh(&mut lent);
    Ok(Line::answer().u8(answer).bytes(&lent))
}

fn sound_settings(mut fields: Fields) -> Result<Line, NotACase> {
    let lent = fields.bytes()?;
    fields.end()?;
    Ok(Line::answer().bool(settings::is_sound(&lent)))
}

fn enable(mut fields: Fields) -> Result<Line, NotACase> {
    let mut lent = fields.bytes()?;
    let data = fields.bytes()?;
    fields.end()?;
    let answer = settings::receive_enable(&mut lent, &data);
    Ok(Line::answer().u8(answer).bytes(&lent))
}

fn address(
    mut fields: Fields,
    in_force: for<'a> fn(&'a [u8], &'a [u8]) -> AddressInForce<'a>,
) -> Result<Line, NotACase> {
    let lent = fields.bytes()?;
    let flash = fields.bytes()?;
    fields.end()?;
    let address = in_force(&lent, &flash);
    let source = match address {
        AddressInForce::Nowhere => SOURCE_NONE,
        AddressInForce::Settings(_) => SOURCE_SETTINGS,
        AddressInForce::Flash(_) => SOURCE_FLASH,
    };
    Ok(Line::answer().u8(source).bytes(address.part()))
}
