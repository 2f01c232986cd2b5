//! The script format: one call a line, one answer a call.

use crate::device::{Device, LEAST_OUTPUT};
use crate::value::Reading;
use std::fmt::Display;
use std::io::{self, BufRead, Write};

/// The longest line of a script.
pub const LONGEST: usize = 65_536;

/// A call of a script. A reading whose time is left out has the clock of the
/// device at hand; an opening whose profile is left out has profile 0.
#[derive(Clone, PartialEq, Debug)]
pub enum Call {
    Open { sheet: Vec<u8>, profile: Option<u8> },
    Connect { lent: u64, client: u64, address: Vec<u8> },
    Disconnect { lent: u64, client: u64 },
    Tick { lent: u64, ms: u64 },
    Reading { lent: u64, sensor: u64, reading: Reading, time: Option<u64> },
    Log { lent: u64, level: u8, logger: Vec<u8>, message: Vec<u8> },
    Line { lent: u64, client: u64, line: Vec<u8> },
}

/// What a line of a script is.
pub enum Entry {
    PassedOver,
    Error,
    Call(Call),
}

/// Reads a line of a script. Empty lines and comments are passed over; a line
/// too long is an error, whatever it holds.
pub fn read_entry(line: &[u8]) -> Entry {
    if line.len() > LONGEST {
        return Entry::Error;
    }
    if line.is_empty() || line[0] == b';' {
        return Entry::PassedOver;
    }
    match read_call(line) {
        Some(call) => Entry::Call(call),
        None => Entry::Error,
    }
}

/// Reads a call: a verb and its words, parted by exactly one space.
fn read_call(line: &[u8]) -> Option<Call> {
    let words: Vec<&[u8]> = line.split(|&byte| byte == b' ').collect();
    match words[..] {
        [b"open", sheet, ref profile @ ..] => {
            Some(Call::Open { sheet: bytes(sheet)?, profile: optional(profile, small)? })
        }
        [b"connect", lent, client, address] => {
            Some(Call::Connect { lent: unsigned(lent)?, client: unsigned(client)?, address: bytes(address)? })
        }
        [b"disconnect", lent, client] => {
            Some(Call::Disconnect { lent: unsigned(lent)?, client: unsigned(client)? })
        }
        [b"tick", lent, ms] => Some(Call::Tick { lent: unsigned(lent)?, ms: unsigned(ms)? }),
        [b"reading", lent, sensor, kind, value, ref time @ ..] => Some(Call::Reading {
            lent: unsigned(lent)?,
            sensor: unsigned(sensor)?,
            reading: read_reading(kind, value)?,
            time: optional(time, unsigned)?,
        }),
        [b"log", lent, level, logger, message] => Some(Call::Log {
            lent: unsigned(lent)?,
            level: small(level)?,
            logger: bytes(logger)?,
            message: bytes(message)?,
        }),
        [b"line", lent, client, line] => {
            Some(Call::Line { lent: unsigned(lent)?, client: unsigned(client)?, line: bytes(line)? })
        }
        _ => None,
    }
}

/// A reading: its kind and its value.
fn read_reading(kind: &[u8], value: &[u8]) -> Option<Reading> {
    match kind {
        b"integer" => Some(Reading::Integer(signed(value)?)),
        b"float" => Some(Reading::Float(double(value)?)),
        b"boolean" => Some(Reading::Boolean(small(value)?)),
        b"option" => Some(Reading::Option(small(value)?)),
        b"timestamp" => Some(Reading::Timestamp(unsigned(value)?)),
        b"failure" if value == b"-" => Some(Reading::Failure),
        b"unreachable" if value == b"-" => Some(Reading::Unreachable),
        b"inactive" if value == b"-" => Some(Reading::Inactive),
        _ => None,
    }
}

/// A last number that may be left out: a profile, a reading's time. The outer
/// option is empty where the words that are left are no such number, or more
/// than one.
fn optional<T>(words: &[&[u8]], read: fn(&[u8]) -> Option<T>) -> Option<Option<T>> {
    match words {
        [] => Some(None),
        [word] => read(word).map(Some),
        _ => None,
    }
}

/// A decimal of type u64: digits without leading zeros.
fn unsigned(word: &[u8]) -> Option<u64> {
    let fits =
        !word.is_empty() && word.iter().all(u8::is_ascii_digit) && (word.len() == 1 || word[0] != b'0');
    if !fits {
        return None;
    }
    std::str::from_utf8(word).ok()?.parse().ok()
}

/// A decimal of type u8.
fn small(word: &[u8]) -> Option<u8> {
    u8::try_from(unsigned(word)?).ok()
}

/// A decimal of type i32; `-0` is none.
fn signed(word: &[u8]) -> Option<i32> {
    match word.strip_prefix(b"-") {
        None => i32::try_from(unsigned(word)?).ok(),
        Some(b"0") => None,
        Some(digits) => i32::try_from(-i128::from(unsigned(digits)?)).ok(),
    }
}

/// The 16 lower-case hex digits of a double's bits.
fn double(word: &[u8]) -> Option<f64> {
    if word.len() != 16 {
        return None;
    }
    let bits = bytes(word)?.iter().fold(0u64, |sum, &byte| sum << 8 | u64::from(byte));
    Some(f64::from_bits(bits))
}

/// Bytes in lower-case hex, `-` for none.
pub fn bytes(word: &[u8]) -> Option<Vec<u8>> {
    if word == b"-" {
        return Some(Vec::new());
    }
    if word.is_empty() || !word.len().is_multiple_of(2) {
        return None;
    }
    word.chunks(2).map(|pair| Some(hex_digit(pair[0])? << 4 | hex_digit(pair[1])?)).collect()
}

/// A lower-case hex digit.
fn hex_digit(byte: u8) -> Option<u8> {
    match byte {
        b'0'..=b'9' => Some(byte - b'0'),
        b'a'..=b'f' => Some(byte - b'a' + 10),
        _ => None,
    }
}

/// Bytes written in lower-case hex, `-` for none.
pub fn hex(bytes: &[u8]) -> String {
    const DIGITS: &[u8; 16] = b"0123456789abcdef";
    if bytes.is_empty() {
        return "-".to_string();
    }
    let mut text = String::with_capacity(bytes.len() * 2);
    for &byte in bytes {
        text.push(char::from(DIGITS[usize::from(byte >> 4)]));
        text.push(char::from(DIGITS[usize::from(byte & 15)]));
    }
    text
}

impl Call {
    /// The verb of the call.
    pub fn verb(&self) -> &'static str {
        match self {
            Call::Open { .. } => "open",
            Call::Connect { .. } => "connect",
            Call::Disconnect { .. } => "disconnect",
            Call::Tick { .. } => "tick",
            Call::Reading { .. } => "reading",
            Call::Log { .. } => "log",
            Call::Line { .. } => "line",
        }
    }

    /// The length of the lent output, where there is one.
    pub fn lent_mut(&mut self) -> Option<&mut u64> {
        match self {
            Call::Open { .. } => None,
            Call::Connect { lent, .. }
            | Call::Disconnect { lent, .. }
            | Call::Tick { lent, .. }
            | Call::Reading { lent, .. }
            | Call::Log { lent, .. }
            | Call::Line { lent, .. } => Some(lent),
        }
    }

    /// The call as a line of a script, without its end.
    pub fn text(&self) -> String {
        let verb = self.verb();
        match self {
            Call::Open { sheet, profile } => format!("{verb} {}{}", hex(sheet), last_word(*profile)),
            Call::Connect { lent, client, address } => format!("{verb} {lent} {client} {}", hex(address)),
            Call::Disconnect { lent, client } => format!("{verb} {lent} {client}"),
            Call::Tick { lent, ms } => format!("{verb} {lent} {ms}"),
            Call::Reading { lent, sensor, reading, time } => {
                format!("{verb} {lent} {sensor} {}{}", reading_text(*reading), last_word(*time))
            }
            Call::Log { lent, level, logger, message } => {
                format!("{verb} {lent} {level} {} {}", hex(logger), hex(message))
            }
            Call::Line { lent, client, line } => format!("{verb} {lent} {client} {}", hex(line)),
        }
    }
}

/// A reading's two words.
fn reading_text(reading: Reading) -> String {
    match reading {
        Reading::Integer(value) => format!("integer {value}"),
        Reading::Float(value) => format!("float {:016x}", value.to_bits()),
        Reading::Boolean(value) => format!("boolean {value}"),
        Reading::Option(place) => format!("option {place}"),
        Reading::Timestamp(ms) => format!("timestamp {ms}"),
        Reading::Failure => "failure -".to_string(),
        Reading::Unreachable => "unreachable -".to_string(),
        Reading::Inactive => "inactive -".to_string(),
    }
}

/// A number as its call's last word, or nothing where it is left out.
pub fn last_word(number: Option<impl Display>) -> String {
    number.map_or_else(String::new, |number| format!(" {number}"))
}

/// A device answering a script; before the first `open` it is the blank one.
pub struct Session {
    pub device: Device,
    pub out: Vec<u8>,
}

impl Default for Session {
    fn default() -> Session {
        Session { device: Device::blank(), out: Vec::new() }
    }
}

impl Session {
    /// Performs a call; the bytes counted as written are then in `out`.
    pub fn perform(&mut self, call: &Call) -> u8 {
        let (device, out) = (&mut self.device, &mut self.out);
        match call {
            Call::Open { sheet, profile } => self.open(sheet, profile.unwrap_or(0)),
            Call::Connect { lent, client, address } => {
                device.connect(lend(*lent), *client as usize, address, out)
            }
            Call::Disconnect { lent, client } => device.disconnect(lend(*lent), *client as usize, out),
            Call::Tick { lent, ms } => device.tick(lend(*lent), *ms, out),
            Call::Reading { lent, sensor, reading, time } => {
                let time = time.unwrap_or(device.clock);
                device.reading(lend(*lent), *sensor as usize, *reading, time, out)
            }
            Call::Log { lent, level, logger, message } => {
                device.log(lend(*lent), *level, logger, message, out)
            }
            Call::Line { lent, client, line } => device.line(lend(*lent), *client as usize, line, out),
        }
    }

    /// `open` replaces the device; the visits counted go on.
    fn open(&mut self, sheet: &[u8], profile: u8) -> u8 {
        let (number, device) = Device::open(sheet, profile);
        let visits = self.device.visits;
        self.device = device;
        self.device.visits = visits;
        self.out.clear();
        number
    }

    /// The answer to a line of a script, or none when it is passed over.
    pub fn answer(&mut self, line: &[u8]) -> Option<String> {
        match read_entry(line) {
            Entry::PassedOver => None,
            Entry::Error => Some("error".to_string()),
            Entry::Call(call) => {
                let number = self.perform(&call);
                Some(format!("{} {}", number, hex(&self.out)))
            }
        }
    }
}

/// The length of the lent output; above 65,536 it is lent as 65,536.
fn lend(lent: u64) -> usize {
    lent.min(LEAST_OUTPUT as u64) as usize
}

/// Answers a whole script; a last line without byte 10 is a line.
pub fn answer_all(input: impl BufRead, mut output: impl Write) -> io::Result<()> {
    let mut session = Session::default();
    for line in input.split(b'\n') {
        if let Some(answer) = session.answer(&line?) {
            writeln!(output, "{answer}")?;
        }
    }
    output.flush()
}
