//! The sheet: what the unit's sensors are.

/// "type 1 integer, 2 float, 3 boolean, 4 discrete, 5 timestamp."
#[derive(Clone, Copy, PartialEq, Eq, Debug)]
pub enum Kind {
    Integer,
    Float,
    Boolean,
    Discrete,
    Timestamp,
}

impl Kind {
    /// "type 1 integer, 2 float, 3 boolean, 4 discrete, 5 timestamp."
    fn read(number: u8) -> Option<Kind> {
        match number {
            1 => Some(Kind::Integer),
            2 => Some(Kind::Float),
            3 => Some(Kind::Boolean),
            4 => Some(Kind::Discrete),
            5 => Some(Kind::Timestamp),
            _ => None,
        }
    }

    /// "1 integer, 2 float, 3 boolean, 4 discrete, 5 timestamp", as words.
    pub fn text(self) -> &'static str {
        match self {
            Kind::Integer => "integer",
            Kind::Float => "float",
            Kind::Boolean => "boolean",
            Kind::Discrete => "discrete",
            Kind::Timestamp => "timestamp",
        }
    }
}

/// "nominal-min, nominal-max, warn-min, warn-max": none, the first two, or all.
#[derive(Clone, Copy, PartialEq, Eq, Debug)]
pub enum Limits {
    None,
    Nominal { min: i32, max: i32 },
    Both { min: i32, max: i32, warn_min: i32, warn_max: i32 },
}

impl Limits {
    /// "nominal-min, nominal-max, warn-min, warn-max", in this order.
    pub fn listed(&self) -> Vec<i32> {
        match *self {
            Limits::None => vec![],
            Limits::Nominal { min, max } => vec![min, max],
            Limits::Both { min, max, warn_min, warn_max } => vec![min, max, warn_min, warn_max],
        }
    }
}

/// "Each sensor: name [...], description [...] and units [...], type".
#[derive(Clone, PartialEq, Eq, Debug)]
pub struct Sensor {
    pub name: Vec<u8>,
    pub description: Vec<u8>,
    pub units: Vec<u8>,
    pub kind: Kind,
    pub limits: Limits,
    pub options: Vec<Vec<u8>>,
}

/// "API text and build text", and the sensors in sheet order.
#[derive(Clone, PartialEq, Eq, Debug, Default)]
pub struct Sheet {
    pub api: Vec<u8>,
    pub build: Vec<u8>,
    pub sensors: Vec<Sensor>,
}

/// "a-z A-Z 0-9 . - _".
pub fn is_name_byte(byte: u8) -> bool {
    byte.is_ascii_alphanumeric() || matches!(byte, b'.' | b'-' | b'_')
}

/// "bytes 0x21–0x7E".
pub fn is_visible(byte: u8) -> bool {
    (0x21..=0x7E).contains(&byte)
}

/// "bytes 0x20–0x7E".
fn is_printable(byte: u8) -> bool {
    (0x20..=0x7E).contains(&byte)
}

/// What is left of a sheet that is being read.
struct Reader<'a> {
    rest: &'a [u8],
}

impl Sheet {
    /// "Mark `LGU`, 16-bit version 1 (big-endian, as all here). API text and
    /// build text: length byte 1–32, bytes 0x21–0x7E. Sensor count 0–32. [...]
    /// Nothing follows."
    pub fn read(bytes: &[u8]) -> Option<Sheet> {
        let mut reader = Reader { rest: bytes };
        if reader.take(3)? != b"LGU" || reader.take(2)? != [0, 1] {
            return None;
        }
        let api = reader.text(1, 32, is_visible)?;
        let build = reader.text(1, 32, is_visible)?;
        let count = reader.byte()?;
        if count > 32 {
            return None;
        }
        let mut sensors: Vec<Sensor> = Vec::new();
        for _ in 0..count {
            let sensor = reader.sensor()?;
            if sensors.iter().any(|earlier| earlier.name == sensor.name) {
                return None;
            }
            sensors.push(sensor);
        }
        if !reader.rest.is_empty() {
            return None;
        }
        Some(Sheet { api, build, sensors })
    }

    /// The place of a sensor in the sheet, "from 0".
    pub fn place(&self, name: &[u8]) -> Option<usize> {
        self.sensors.iter().position(|sensor| sensor.name == name)
    }
}

impl<'a> Reader<'a> {
    /// So many bytes, unless the sheet is cut short.
    fn take(&mut self, count: usize) -> Option<&'a [u8]> {
        if self.rest.len() < count {
            return None;
        }
        let (taken, rest) = self.rest.split_at(count);
        self.rest = rest;
        Some(taken)
    }

    /// One byte, unless the sheet is cut short.
    fn byte(&mut self) -> Option<u8> {
        Some(self.take(1)?[0])
    }

    /// "length byte, as for every text here".
    fn text(&mut self, least: usize, most: usize, fits: fn(u8) -> bool) -> Option<Vec<u8>> {
        let length = usize::from(self.byte()?);
        if length < least || length > most {
            return None;
        }
        let text = self.take(length)?;
        if !text.iter().all(|&byte| fits(byte)) {
            return None;
        }
        Some(text.to_vec())
    }

    /// "Each sensor: name (length byte, as for every text here, 1–32; a-z A-Z
    /// 0-9 . - _; all distinct), description (0–64) and units (0–8) of bytes
    /// 0x20–0x7E, type 1 integer, 2 float, 3 boolean, 4 discrete, 5 timestamp."
    fn sensor(&mut self) -> Option<Sensor> {
        let name = self.text(1, 32, is_name_byte)?;
        let description = self.text(0, 64, is_printable)?;
        let units = self.text(0, 8, is_printable)?;
        let kind = Kind::read(self.byte()?)?;
        let (mut limits, mut options) = (Limits::None, Vec::new());
        match kind {
            Kind::Integer => limits = self.limits(i32::MIN, i32::MAX)?,
            Kind::Float => limits = self.limits(-(1 << 30), 1 << 30)?,
            Kind::Discrete => options = self.options()?,
            Kind::Boolean | Kind::Timestamp => {}
        }
        Some(Sensor { name, description, units, kind, limits, options })
    }

    /// "Types 1, 2: a byte 0, 2 or 4, then so many signed 32-bit numbers:
    /// nominal-min, nominal-max, warn-min, warn-max, with warn-min ≤
    /// nominal-min ≤ nominal-max ≤ warn-max. Type 2 counts 1024ths, within
    /// ±2^30."
    fn limits(&mut self, least: i32, most: i32) -> Option<Limits> {
        let count = self.byte()?;
        if count == 0 {
            return Some(Limits::None);
        }
        if count != 2 && count != 4 {
            return None;
        }
        let (min, max) = self.range(least, most)?;
        if count == 2 {
            return Some(Limits::Nominal { min, max });
        }
        let (warn_min, warn_max) = self.range(least, most)?;
        if warn_min > min || max > warn_max {
            return None;
        }
        Some(Limits::Both { min, max, warn_min, warn_max })
    }

    /// Two "signed 32-bit numbers", the first not above the second.
    fn range(&mut self, least: i32, most: i32) -> Option<(i32, i32)> {
        let low = self.signed()?;
        let high = self.signed()?;
        if low < least || high > most || low > high {
            return None;
        }
        Some((low, high))
    }

    /// "signed 32-bit numbers", "big-endian, as all here".
    fn signed(&mut self) -> Option<i32> {
        let bytes = self.take(4)?;
        Some(i32::from_be_bytes([bytes[0], bytes[1], bytes[2], bytes[3]]))
    }

    /// "Type 4: option count 1–8, options 1–16 name bytes, distinct."
    fn options(&mut self) -> Option<Vec<Vec<u8>>> {
        let count = self.byte()?;
        if !(1..=8).contains(&count) {
            return None;
        }
        let mut options = Vec::new();
        for _ in 0..count {
            let option = self.text(1, 16, is_name_byte)?;
            if options.contains(&option) {
                return None;
            }
            options.push(option);
        }
        Some(options)
    }
}
