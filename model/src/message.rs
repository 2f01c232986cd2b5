//! Message lines, read and written.

use crate::number;

/// "A line has 0 to 2,048 bytes, without its end."
pub const LONGEST_LINE: usize = 2048;

/// "a name ([...] 64 bytes at most)".
const LONGEST_NAME: usize = 64;

/// "A message is `?` (request), `!` (reply) or `#` (inform)".
#[derive(Clone, Copy, PartialEq, Eq, Debug)]
pub enum Sort {
    Request,
    Reply,
    Inform,
}

impl Sort {
    /// "`?` (request), `!` (reply) or `#` (inform)".
    fn read(byte: u8) -> Option<Sort> {
        match byte {
            b'?' => Some(Sort::Request),
            b'!' => Some(Sort::Reply),
            b'#' => Some(Sort::Inform),
            _ => None,
        }
    }

    /// "`?` (request), `!` (reply) or `#` (inform)".
    fn byte(self) -> u8 {
        match self {
            Sort::Request => b'?',
            Sort::Reply => b'!',
            Sort::Inform => b'#',
        }
    }
}

/// A message as sent: "kind, name, id, arguments before escaping".
#[derive(Clone, PartialEq, Eq, Debug)]
pub struct Message {
    pub sort: Sort,
    pub name: Vec<u8>,
    pub id: Option<u32>,
    pub arguments: Vec<Vec<u8>>,
}

/// "A line of only spaces and tabs, or empty".
pub fn is_blank(line: &[u8]) -> bool {
    line.iter().all(|&byte| is_space(byte))
}

/// "one or more spaces or tabs".
fn is_space(byte: u8) -> bool {
    byte == b' ' || byte == b'\t'
}

/// "Those seven bytes never stand raw.": "backslash, space, null, newline,
/// return, escape, tab".
fn is_plain(byte: u8) -> bool {
    !matches!(byte, b'\\' | b' ' | 0 | 10 | 13 | 27 | 9)
}

/// A place in a line that is being read.
struct Reader<'a> {
    line: &'a [u8],
    at: usize,
}

impl Message {
    /// "A message is `?` (request), `!` (reply) or `#` (inform); a name [...];
    /// optionally `[id]` [...]; then arguments, each after one or more spaces
    /// or tabs. Trailing spaces and tabs are allowed."
    pub fn read(line: &[u8]) -> Option<Message> {
        let sort = Sort::read(*line.first()?)?;
        let mut reader = Reader { line, at: 1 };
        let name = reader.name()?;
        let id = reader.optional_id()?;
        let mut arguments = Vec::new();
        while let Some(byte) = reader.peek() {
            if !is_space(byte) {
                return None;
            }
            reader.skip_spaces();
            if reader.peek().is_some() {
                arguments.push(reader.argument()?);
            }
        }
        Some(Message { sort, name, id, arguments })
    }
}

impl Reader<'_> {
    /// The byte at the place, if the line has not ended.
    fn peek(&self) -> Option<u8> {
        self.line.get(self.at).copied()
    }

    /// "each after one or more spaces or tabs".
    fn skip_spaces(&mut self) {
        while self.peek().is_some_and(is_space) {
            self.at += 1;
        }
    }

    /// "a name (a letter, then letters, digits, `-`; 64 bytes at most)".
    fn name(&mut self) -> Option<Vec<u8>> {
        let start = self.at;
        if !self.peek()?.is_ascii_alphabetic() {
            return None;
        }
        while self.peek().is_some_and(|byte| byte.is_ascii_alphanumeric() || byte == b'-') {
            self.at += 1;
        }
        let name = &self.line[start..self.at];
        if name.len() > LONGEST_NAME {
            return None;
        }
        Some(name.to_vec())
    }

    /// "optionally `[id]`, id 1 to 2,147,483,647 without leading zero". The
    /// outer option is empty when a bracket opens but no id stands in it.
    fn optional_id(&mut self) -> Option<Option<u32>> {
        if self.peek() != Some(b'[') {
            return Some(None);
        }
        let rest = &self.line[self.at + 1..];
        let end = rest.iter().position(|&byte| byte == b']')?;
        let id = number::identifier(&rest[..end])?;
        self.at += end + 2;
        Some(Some(id))
    }

    /// "An argument is one or more plain bytes or escapes".
    fn argument(&mut self) -> Option<Vec<u8>> {
        let mut bytes = Vec::new();
        while let Some(byte) = self.peek() {
            if is_space(byte) {
                break;
            }
            self.at += 1;
            if byte == b'\\' {
                bytes.extend(unescape(self.peek()?)?);
                self.at += 1;
            } else if is_plain(byte) {
                bytes.push(byte);
            } else {
                return None;
            }
        }
        Some(bytes)
    }
}

/// "escapes: `\\` backslash, `\_` space, `\0` byte 0, `\n` 10, `\r` 13, `\e` 27,
/// `\t` 9, `\@` nothing.", taken "in the order of the standard's own text:
/// backslash, space, null, newline, return, escape, tab, empty". The outer
/// option is empty for any other byte.
fn unescape(code: u8) -> Option<Option<u8>> {
    match code {
        b'\\' => Some(Some(b'\\')), // backslash
        b'_' => Some(Some(b' ')),   // space
        b'0' => Some(Some(0)),      // null
        b'n' => Some(Some(10)),     // newline
        b'r' => Some(Some(13)),     // return
        b'e' => Some(Some(27)),     // escape
        b't' => Some(Some(9)),      // tab
        b'@' => Some(None),         // empty
        _ => None,
    }
}

/// A line in the making.
pub struct Line {
    bytes: Vec<u8>,
}

impl Line {
    /// "`!` (reply) or `#` (inform); a name [...]; optionally `[id]`".
    pub fn new(sort: Sort, name: &[u8], id: Option<u32>) -> Line {
        let mut bytes = vec![sort.byte()];
        bytes.extend_from_slice(name);
        if let Some(id) = id {
            bytes.extend_from_slice(format!("[{id}]").as_bytes());
        }
        Line { bytes }
    }

    /// An inform without id.
    pub fn inform(name: &str) -> Line {
        Line::new(Sort::Inform, name.as_bytes(), None)
    }

    /// "Written lines use one space, `\@` only for an empty argument".
    pub fn with(mut self, argument: impl AsRef<[u8]>) -> Line {
        let argument = argument.as_ref();
        self.bytes.push(b' ');
        for &byte in argument {
            self.push_escaped(byte);
        }
        if argument.is_empty() {
            self.bytes.extend_from_slice(b"\\@"); // empty
        }
        self
    }

    /// "`\\` backslash, `\_` space, `\0` byte 0, `\n` 10, `\r` 13, `\e` 27, `\t` 9".
    fn push_escaped(&mut self, byte: u8) {
        let code = match byte {
            b'\\' => b'\\', // backslash
            b' ' => b'_',   // space
            0 => b'0',      // null
            10 => b'n',     // newline
            13 => b'r',     // return
            27 => b'e',     // escape
            9 => b't',      // tab
            plain => return self.bytes.push(plain),
        };
        self.bytes.extend_from_slice(&[b'\\', code]);
    }

    /// "Output: deliveries of client (1 byte), line length (16 bits), line, its
    /// byte 10 counted." Written lines "end in byte 10"; numbers are
    /// "big-endian, as all here".
    pub fn deliver(&self, client: usize, out: &mut Vec<u8>) {
        let length = (self.bytes.len() + 1) as u16;
        out.push(client as u8);
        out.extend_from_slice(&length.to_be_bytes());
        out.extend_from_slice(&self.bytes);
        out.push(10);
    }
}
