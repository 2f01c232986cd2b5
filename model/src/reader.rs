//! A planner's reader of one client's file: the lines that the client was given since it last connected, and
//! the sheet for names, types and options. It reads text and knows nothing of the device; so its numbers are
//! read and compared here anew.

use crate::message::{Message, Sort};
use crate::number;
use crate::sheet::{Kind, Sensor, Sheet};
use crate::strategy::{Difference, Rate, Report, Strategy};
use crate::value::{value_text, State, STATUSES};

/// What a line tells.
#[derive(Clone, PartialEq, Eq, Debug)]
pub enum Told {
    /// `!sensor-sampling ok`: the sensors that it names and their strategy. A query's reply looks the same.
    Sampling { sensors: Vec<usize>, strategy: Strategy },
    /// `#sensor-status`: a report of a sensor.
    Report { sensor: usize, report: Report },
    /// `#log`: nothing of sensors, but a clock.
    Log { clock: u64 },
    /// Any other line.
    Other,
}

impl Told {
    /// Reads a line without its end; none where no device of this sheet writes it.
    pub fn read(sheet: &Sheet, line: &[u8]) -> Option<Told> {
        let message = Message::read(line)?;
        let arguments: Vec<&[u8]> = message.arguments.iter().map(Vec::as_slice).collect();
        match (message.sort, &message.name[..], &arguments[..]) {
            (Sort::Reply, b"sensor-sampling", [b"ok", names, words @ ..]) => {
                Some(Told::Sampling { sensors: places(sheet, names)?, strategy: read_strategy(words)? })
            }
            (Sort::Inform, b"sensor-status", arguments) => read_report(sheet, arguments),
            (Sort::Inform, b"log", arguments) => Some(Told::Log { clock: milliseconds(arguments.get(1)?)? }),
            _ => Some(Told::Other),
        }
    }

    /// The clock that the line shows: a report's first argument, a log entry's second.
    pub fn clock(&self) -> Option<u64> {
        match self {
            Told::Report { report, .. } => Some(report.time),
            Told::Log { clock } => Some(*clock),
            _ => None,
        }
    }

    /// Whether the call that gave this line may have given more lines that tell of sensors, as far as the
    /// next line shows that the reader sees; then nothing may be concluded of that call's end.
    pub fn leaves_open(&self, next: Option<&Told>) -> bool {
        match (self, next) {
            (Told::Report { .. }, None) => true,
            (Told::Report { report, .. }, Some(Told::Report { report: after, .. })) => {
                after.time == report.time
            }
            (Told::Sampling { strategy, .. }, None | Some(Told::Report { .. })) => {
                *strategy != Strategy::None
            }
            _ => false,
        }
    }
}

/// The sensors of a comma list.
fn places(sheet: &Sheet, names: &[u8]) -> Option<Vec<usize>> {
    names.split(|&byte| byte == b',').map(|name| sheet.place(name)).collect()
}

/// A strategy's name and parameters, as replies write them.
fn read_strategy(words: &[&[u8]]) -> Option<Strategy> {
    match *words {
        [b"none"] => Some(Strategy::None),
        [b"auto"] => Some(Strategy::Auto),
        [b"event"] => Some(Strategy::Event),
        [b"period", period] => Some(Strategy::Period(milliseconds(period)?)),
        [b"differential", difference] => Some(Strategy::Differential(read_difference(difference)?)),
        [b"event-rate", shortest, longest] => Some(Strategy::EventRate(read_rate(shortest, longest)?)),
        [b"differential-rate", difference, shortest, longest] => {
            Some(Strategy::DifferentialRate(read_difference(difference)?, read_rate(shortest, longest)?))
        }
        _ => None,
    }
}

/// A difference in millionths.
fn read_difference(text: &[u8]) -> Option<Difference> {
    Some(Difference { millionths: u64::try_from(decimal(text, 6)?).ok()? })
}

/// The shortest and the longest period.
fn read_rate(shortest: &[u8], longest: &[u8]) -> Option<Rate> {
    Some(Rate { shortest: milliseconds(shortest)?, longest: milliseconds(longest)? })
}

/// A report's arguments: clock, `1`, name, status, value.
fn read_report(sheet: &Sheet, arguments: &[&[u8]]) -> Option<Told> {
    let [clock, b"1", name, status, value] = *arguments else { return None };
    let sensor = sheet.place(name)?;
    let status = *STATUSES.iter().find(|known| known.text().as_bytes() == status)?;
    let value = read_value(&sheet.sensors[sensor], value)?;
    Some(Told::Report {
        sensor,
        report: Report { time: milliseconds(clock)?, state: State { status, value } },
    })
}

/// A value as an exact number: a float in 1024ths, of which each is 9,765,625 of the tenth fraction digit; an
/// option by its place; a time in milliseconds.
fn read_value(sensor: &Sensor, text: &[u8]) -> Option<i64> {
    match sensor.kind {
        Kind::Integer | Kind::Boolean => decimal(text, 0),
        Kind::Float => {
            let digits = decimal(text, 10)?;
            (digits % 9_765_625 == 0).then_some(digits / 9_765_625)
        }
        Kind::Discrete => Some(sensor.options.iter().position(|option| option == text)? as i64),
        Kind::Timestamp => decimal(text, 3),
    }
}

/// Seconds with their fraction, in milliseconds.
fn milliseconds(text: &[u8]) -> Option<u64> {
    u64::try_from(decimal(text, 3)?).ok()
}

/// A decimal in units of so many places behind the point, exactly.
fn decimal(text: &[u8], places: usize) -> Option<i64> {
    let text = std::str::from_utf8(text).ok()?;
    let (sign, size) = match text.strip_prefix('-') {
        Some(size) => (-1, size),
        None => (1, text),
    };
    let (whole, fraction) = size.split_once('.').unwrap_or((size, ""));
    let digits = format!("{whole}{fraction:0<places$}");
    if fraction.len() > places || !digits.bytes().all(|byte| byte.is_ascii_digit()) {
        return None;
    }
    Some(sign * digits.parse::<i64>().ok()?)
}

/// What is concluded of a sensor's present reading: document 02, (g), "the last that superseded the one stored
/// before it".
#[derive(Clone, Copy, PartialEq, Eq, Debug)]
pub enum Conclusion {
    Nothing,
    /// Its status and value.
    Same(State),
    /// Its status and, where that is valid, a value that lies at most so far away.
    Within(State, Difference),
}

/// Whether a distance is at most a difference, exactly: an integer counts ones, a float 1024ths.
fn at_most(kind: Kind, distance: i64, difference: Difference) -> bool {
    let parts = if kind == Kind::Float { 1024 } else { 1 };
    i128::from(distance) * 1_000_000 <= i128::from(difference.millionths) * parts
}

impl Conclusion {
    /// Whether it is true of a reading.
    pub fn holds(self, kind: Kind, present: State) -> bool {
        match self {
            Conclusion::Nothing => true,
            Conclusion::Same(state) => present == state,
            Conclusion::Within(state, difference) => {
                let near = at_most(kind, (present.value - state.value).abs(), difference);
                present.status == state.status && (near || !state.status.is_valid())
            }
        }
    }

    /// In words.
    pub fn text(self, sensor: &Sensor) -> String {
        match self {
            Conclusion::Nothing => "nothing".to_string(),
            Conclusion::Same(state) => state_text(sensor, state),
            Conclusion::Within(state, _) if !state.status.is_valid() => state.status.text().to_string(),
            Conclusion::Within(state, difference) => {
                let far = number::float_difference_text(difference.millionths);
                let far = far.strip_suffix(".0").unwrap_or(&far);
                format!("{}, within {far}", state_text(sensor, state))
            }
        }
    }
}

/// A status and a value, as a report shows them.
pub fn state_text(sensor: &Sensor, state: State) -> String {
    let value = value_text(sensor, state.value);
    format!("{} {}", state.status.text(), String::from_utf8_lossy(&value))
}

/// The lowest and the highest of some values.
#[derive(Clone, Copy, PartialEq, Eq, Debug)]
pub struct Extremes {
    pub lowest: i64,
    pub highest: i64,
}

impl Extremes {
    /// With a reading or report more, which counts if it is valid.
    pub fn with(before: Option<Extremes>, state: State) -> Option<Extremes> {
        if !state.status.is_valid() {
            return before;
        }
        let before = before.unwrap_or(Extremes { lowest: state.value, highest: state.value });
        Some(Extremes { lowest: before.lowest.min(state.value), highest: before.highest.max(state.value) })
    }

    /// Whether readings went at most a difference below the lowest report and above the highest.
    pub fn hold(self, kind: Kind, readings: Extremes, difference: Difference) -> bool {
        at_most(kind, self.lowest - readings.lowest, difference)
            && at_most(kind, readings.highest - self.highest, difference)
    }
}

/// What the lines so far tell of one sensor.
#[derive(Clone, Copy, PartialEq, Eq, Debug)]
pub struct Known {
    pub strategy: Strategy,
    pub last: Option<Report>,
    /// Of the valid reports since the strategy became what it is.
    pub extremes: Option<Extremes>,
}

/// A reader with the lines that it has read so far.
pub struct Reader {
    /// The last clock that a line showed.
    pub clock: Option<u64>,
    pub sensors: Vec<Known>,
}

impl Reader {
    /// Before the first line.
    pub fn new(sheet: &Sheet) -> Reader {
        let unset = Known { strategy: Strategy::None, last: None, extremes: None };
        Reader { clock: None, sensors: vec![unset; sheet.sensors.len()] }
    }

    /// Takes the next line.
    pub fn take(&mut self, told: &Told) {
        self.clock = told.clock().or(self.clock);
        match told {
            Told::Sampling { sensors, strategy } => {
                sensors.iter().for_each(|&sensor| self.set(sensor, *strategy));
            }
            Told::Report { sensor, report } => {
                let known = &mut self.sensors[*sensor];
                known.last = Some(*report);
                known.extremes = Extremes::with(known.extremes, report.state);
            }
            Told::Log { .. } | Told::Other => {}
        }
    }

    /// A strategy that stays the same, as at a query, keeps the extremes.
    fn set(&mut self, sensor: usize, strategy: Strategy) {
        let known = &mut self.sensors[sensor];
        if known.strategy != strategy {
            *known = Known { strategy, extremes: None, ..*known };
        }
    }

    /// What the lines so far tell of a sensor's present reading, if the clock is at least the one given.
    pub fn conclusion(&self, sensor: usize, clock: u64) -> Conclusion {
        let Known { strategy, last: Some(last), .. } = self.sensors[sensor] else {
            return Conclusion::Nothing;
        };
        let passed = |rate: Rate| clock >= last.time + rate.shortest;
        match strategy {
            Strategy::Auto | Strategy::Event => Conclusion::Same(last.state),
            Strategy::Differential(difference) => Conclusion::Within(last.state, difference),
            Strategy::EventRate(rate) if passed(rate) => Conclusion::Same(last.state),
            Strategy::DifferentialRate(difference, rate) if passed(rate) => {
                Conclusion::Within(last.state, difference)
            }
            _ => Conclusion::Nothing,
        }
    }

    /// The same by the last clock that a line showed. Where no line shows one there is no report either.
    pub fn conclusion_by_lines(&self, sensor: usize) -> Conclusion {
        self.conclusion(sensor, self.clock.unwrap_or(0))
    }
}

/// What a reader that sees these lines concludes of each sensor from the first so many of them; none where
/// the last of those leaves it open. A file that is known to be whole is not open at its last line. An error
/// is a line that no device of this sheet writes.
pub fn conclude(
    sheet: &Sheet,
    seen: &[Vec<u8>],
    count: usize,
    whole: bool,
) -> Result<Option<Vec<Conclusion>>, String> {
    let mut told = Vec::new();
    for line in seen {
        told.push(Told::read(sheet, line).ok_or_else(|| crate::readable::quoted(line))?);
    }
    let mut reader = Reader::new(sheet);
    told[..count].iter().for_each(|line| reader.take(line));
    let known_end = whole && count == told.len();
    let open = told[..count].last().is_some_and(|line| line.leaves_open(told.get(count)));
    if open && !known_end {
        return Ok(None);
    }
    Ok(Some((0..sheet.sensors.len()).map(|sensor| reader.conclusion_by_lines(sensor)).collect()))
}
