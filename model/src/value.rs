//! Readings, statuses and values.

use crate::number;
use crate::sheet::{Kind, Limits, Sensor};

/// "A reading is an integer, a float, a boolean, an option (its place in the
/// list, from 0) or a timestamp, or one of failure, unreachable, inactive."
#[derive(Clone, Copy, PartialEq, Debug)]
pub enum Reading {
    Integer(i32),
    Float(f64),
    Boolean(u8),
    Option(u8),
    Timestamp(u64),
    Failure,
    Unreachable,
    Inactive,
}

/// The statuses of table 8 of the guideline, in its order.
#[derive(Clone, Copy, PartialEq, Eq, Debug)]
pub enum Status {
    Unknown,
    Nominal,
    Warn,
    Error,
    Failure,
    Unreachable,
    Inactive,
}

/// All statuses, in the order of table 8.
pub const STATUSES: [Status; 7] = [
    Status::Unknown,
    Status::Nominal,
    Status::Warn,
    Status::Error,
    Status::Failure,
    Status::Unreachable,
    Status::Inactive,
];

impl Status {
    /// "Valid statuses are nominal, warn, error."
    pub fn is_valid(self) -> bool {
        matches!(self, Status::Nominal | Status::Warn | Status::Error)
    }

    /// "Table 8 of 001 decides over the shorter list at its informs."
    pub fn text(self) -> &'static str {
        match self {
            Status::Unknown => "unknown",
            Status::Nominal => "nominal",
            Status::Warn => "warn",
            Status::Error => "error",
            Status::Failure => "failure",
            Status::Unreachable => "unreachable",
            Status::Inactive => "inactive",
        }
    }
}

/// A status with its value as an exact number: the integer, 1024ths of the
/// float, 0 or 1, the option's place, milliseconds.
#[derive(Clone, Copy, PartialEq, Eq, Debug)]
pub struct State {
    pub status: Status,
    pub value: i64,
}

impl State {
    /// "The others carry the type's zero (first option for discrete)."
    pub fn invalid(status: Status) -> State {
        State { status, value: 0 }
    }
}

/// "reading unfit for type" where there is none; "Boolean: 0, 1. Times are
/// whole milliseconds 0 to 9,999,999,999,999".
pub fn state_of(sensor: &Sensor, reading: Reading) -> Option<State> {
    let value = match (sensor.kind, reading) {
        (_, Reading::Failure) => return Some(State::invalid(Status::Failure)),
        (_, Reading::Unreachable) => return Some(State::invalid(Status::Unreachable)),
        (_, Reading::Inactive) => return Some(State::invalid(Status::Inactive)),
        (Kind::Integer, Reading::Integer(value)) => i64::from(value),
        (Kind::Float, Reading::Float(value)) => parts_of_float(value)?,
        (Kind::Boolean, Reading::Boolean(value)) if value <= 1 => i64::from(value),
        (Kind::Discrete, Reading::Option(place)) if usize::from(place) < sensor.options.len() => {
            i64::from(place)
        }
        (Kind::Timestamp, Reading::Timestamp(ms)) if ms <= number::LAST_TIME => ms as i64,
        _ => return None,
    };
    Some(State { status: status_in(&sensor.limits, value), value })
}

/// "A float arrives as a 64-bit double and must be an exact multiple of 1/1024
/// within ±1,048,576; minus zero is zero." Multiplying a double of this range
/// by 1024 only shifts its exponent, so nothing is rounded.
fn parts_of_float(value: f64) -> Option<i64> {
    if !(-1_048_576.0..=1_048_576.0).contains(&value) {
        return None;
    }
    let parts = value * 1024.0;
    if parts.fract() != 0.0 {
        return None;
    }
    Some(parts as i64)
}

/// "Status follows the range, ends included: nominal inside, warn between
/// nominal and warn range, error beyond; with two limits warn outside; without
/// limits nominal."
fn status_in(limits: &Limits, value: i64) -> Status {
    let within = |min: i32, max: i32| i64::from(min) <= value && value <= i64::from(max);
    match *limits {
        Limits::None => Status::Nominal,
        Limits::Nominal { min, max } if within(min, max) => Status::Nominal,
        Limits::Nominal { .. } => Status::Warn,
        Limits::Both { min, max, .. } if within(min, max) => Status::Nominal,
        Limits::Both { warn_min, warn_max, .. } if within(warn_min, warn_max) => Status::Warn,
        Limits::Both { .. } => Status::Error,
    }
}

/// "Integers are signed 32-bit. A float [...] is written exactly [...]. Boolean:
/// 0, 1. Times [...] written as seconds, point, three digits."; an option by
/// its name.
pub fn value_text(sensor: &Sensor, value: i64) -> Vec<u8> {
    match sensor.kind {
        Kind::Integer | Kind::Boolean => value.to_string().into_bytes(),
        Kind::Float => number::float_text(value).into_bytes(),
        Kind::Discrete => sensor.options[value as usize].clone(),
        Kind::Timestamp => number::time_text(value as u64).into_bytes(),
    }
}
