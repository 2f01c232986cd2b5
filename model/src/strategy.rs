//! Strategies, and when they report.

use crate::number;
use crate::sheet::Kind;
use crate::value::State;

/// "Periods: 0.001 to 86,400 seconds [...] (shortest may be 0)", in
/// milliseconds.
#[derive(Clone, Copy, PartialEq, Eq, Debug)]
pub struct Rate {
    pub shortest: u64,
    pub longest: u64,
}

/// A difference in millionths, whatever the type.
#[derive(Clone, Copy, PartialEq, Eq, Debug)]
pub struct Difference {
    pub millionths: u64,
}

impl Difference {
    /// "apart by more than the difference"; "Values and differences are
    /// compared as exact numbers." An integer counts ones, a float 1024ths.
    pub fn exceeded(self, kind: Kind, one: i64, other: i64) -> bool {
        let parts: i128 = if kind == Kind::Float { 1024 } else { 1 };
        let apart = (i128::from(one) - i128::from(other)).abs();
        apart * 1_000_000 > i128::from(self.millionths) * parts
    }

    /// "Difference: integer (no point) [...]; float [...] written like a float".
    pub fn text(self, kind: Kind) -> String {
        if kind == Kind::Float {
            number::float_difference_text(self.millionths)
        } else {
            (self.millionths / 1_000_000).to_string()
        }
    }
}

/// "strategy, parameters": the seven of table 9 of the guideline.
#[derive(Clone, Copy, PartialEq, Eq, Debug)]
pub enum Strategy {
    None,
    Auto,
    Period(u64),
    Event,
    Differential(Difference),
    EventRate(Rate),
    DifferentialRate(Difference, Rate),
}

/// The seven names, in the order of `Strategy::place`.
pub const NAMES: [&str; 7] =
    ["none", "auto", "period", "event", "differential", "event-rate", "differential-rate"];

/// "last report and its time".
#[derive(Clone, Copy, PartialEq, Eq, Debug)]
pub struct Report {
    pub time: u64,
    pub state: State,
}

/// "for each sensor, strategy, parameters, last report and its time. Every
/// pair starts as none, without a report".
#[derive(Clone, Copy, PartialEq, Eq, Debug)]
pub struct Subscription {
    pub strategy: Strategy,
    pub last: Option<Report>,
}

impl Subscription {
    /// "Every pair starts as none, without a report".
    pub const START: Subscription = Subscription { strategy: Strategy::None, last: None };
}

/// The two calls that visit pairs; a reading that is older than the stored one
/// "causes no report, under auto too" (document 02, (g)) and visits none.
#[derive(Clone, Copy, PartialEq, Eq, Debug)]
pub enum Occasion {
    Reading,
    Tick,
}

impl Strategy {
    /// The strategy's place among the seven names.
    pub fn place(self) -> usize {
        match self {
            Strategy::None => 0,
            Strategy::Auto => 1,
            Strategy::Period(_) => 2,
            Strategy::Event => 3,
            Strategy::Differential(_) => 4,
            Strategy::EventRate(_) => 5,
            Strategy::DifferentialRate(..) => 6,
        }
    }

    /// The strategy's name and "parameters in written form"; periods are
    /// "written like times".
    pub fn texts(self, kind: Kind) -> Vec<String> {
        let mut texts = vec![NAMES[self.place()].to_string()];
        match self {
            Strategy::None | Strategy::Auto | Strategy::Event => {}
            Strategy::Period(period) => texts.push(number::time_text(period)),
            Strategy::Differential(difference) => texts.push(difference.text(kind)),
            Strategy::EventRate(rate) => texts.extend(rate.texts()),
            Strategy::DifferentialRate(difference, rate) => {
                texts.push(difference.text(kind));
                texts.extend(rate.texts());
            }
        }
        texts
    }

    /// "auto: every reading. event: at a reading, status or value changed.
    /// differential: at a reading, status changed, or both valid and apart by
    /// more than the difference. period: at a tick with clock − last ≥ period.
    /// event-rate, differential-rate: at a reading or tick, if clock − last ≥
    /// shortest and (changed as above, or clock − last > longest)."
    pub fn reports(self, kind: Kind, occasion: Occasion, clock: u64, last: &Report, now: State) -> bool {
        let passed = clock - last.time;
        let at_reading = occasion == Occasion::Reading;
        match self {
            Strategy::None => false,
            Strategy::Auto => at_reading,
            Strategy::Period(period) => !at_reading && passed >= period,
            Strategy::Event => at_reading && changed(last.state, now),
            Strategy::Differential(difference) => at_reading && drifted(kind, difference, last.state, now),
            Strategy::EventRate(rate) => rate.allows(passed, changed(last.state, now)),
            Strategy::DifferentialRate(difference, rate) => {
                rate.allows(passed, drifted(kind, difference, last.state, now))
            }
        }
    }
}

impl Rate {
    /// "if clock − last ≥ shortest and (changed as above, or clock − last >
    /// longest)".
    fn allows(self, passed: u64, changed: bool) -> bool {
        passed >= self.shortest && (changed || passed > self.longest)
    }

    /// "Periods: [...] written like times."
    fn texts(self) -> [String; 2] {
        [number::time_text(self.shortest), number::time_text(self.longest)]
    }
}

/// "event: at a reading, status or value changed", "with "changed" against the
/// last report".
fn changed(last: State, now: State) -> bool {
    last.status != now.status || last.value != now.value
}

/// "differential: at a reading, status changed, or both valid and apart by more
/// than the difference".
fn drifted(kind: Kind, difference: Difference, last: State, now: State) -> bool {
    let both_valid = last.status.is_valid() && now.status.is_valid();
    last.status != now.status || both_valid && difference.exceeded(kind, last.value, now.value)
}
