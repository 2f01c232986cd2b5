//! The request `sensor-sampling`.

use crate::device::Device;
use crate::number::{Decimal, ExactDecimal};
use crate::requests::{
    Asked, Refusal, ARGUMENT_COUNT, BAD_PARAMETER, NAMED_TWICE, NOT_FOR_TYPE, SHORTEST_EXCEEDS,
    UNKNOWN_SENSOR, UNKNOWN_STRATEGY,
};
use crate::sheet::Kind;
use crate::strategy::{Difference, Rate, Strategy, NAMES};

/// "0.001 to 86,400 seconds", in milliseconds.
const LONGEST_PERIOD: u64 = 86_400_000;

/// "to 4,294,967,295".
const MOST_INTEGER_DIFFERENCE: u64 = 4_294_967_295;

/// "to 2,097,152", in millionths.
const MOST_FLOAT_DIFFERENCE: u64 = 2_097_152_000_000;

impl Device {
    /// "`sensor-sampling names [strategy [params]]`: comma list; one name alone
    /// queries and sends no report. All are set or none. The reply comes first,
    /// then, unless none, a report for each name in list order."; "this order
    /// for sampling: 15 (none), 16, 21, 15 (list without strategy), 17, 15
    /// (parameters), 18, 19, 20."
    pub(crate) fn sensor_sampling(&mut self, asked: &mut Asked) -> Result<(), Refusal> {
        let message = asked.message;
        let (names, rest) = message.arguments.split_first().ok_or(ARGUMENT_COUNT)?;
        let places = self.named_sensors(names)?;
        let Some((name, parameters)) = rest.split_first() else {
            return self.query(asked, names, &places);
        };
        let kinds: Vec<Kind> = places.iter().map(|&place| self.sheet.sensors[place].kind).collect();
        let strategy = read_strategy(name, parameters, &kinds)?;
        for &place in &places {
            self.set_strategy(asked.client, place, strategy);
        }
        self.reply_strategy(asked, names, kinds[0], strategy);
        if strategy != Strategy::None {
            for &place in &places {
                self.report(asked.client, place, asked.out);
            }
        }
        Ok(())
    }

    /// "comma list"; "sensor name unknown | 16", then "name twice | 21".
    pub(crate) fn named_sensors(&self, names: &[u8]) -> Result<Vec<usize>, Refusal> {
        let mut places = Vec::new();
        for name in names.split(|&byte| byte == b',') {
            places.push(self.sheet.place(name).ok_or(UNKNOWN_SENSOR)?);
        }
        for (at, place) in places.iter().enumerate() {
            if places[..at].contains(place) {
                return Err(NAMED_TWICE);
            }
        }
        Ok(places)
    }

    /// "one name alone queries and sends no report"; "15 (list without
    /// strategy)".
    fn query(&mut self, asked: &mut Asked, names: &[u8], places: &[usize]) -> Result<(), Refusal> {
        let &[place] = places else {
            return Err(ARGUMENT_COUNT);
        };
        let strategy = self.subscription(asked.client, place).strategy;
        self.reply_strategy(asked, names, self.sheet.sensors[place].kind, strategy);
        Ok(())
    }

    /// "It echoes names as given and parameters in written form."; a difference
    /// "is written for the first name".
    fn reply_strategy(&self, asked: &mut Asked, names: &[u8], first: Kind, strategy: Strategy) {
        let line = asked.reply("ok").with(names);
        let line = strategy.texts(first).iter().fold(line, |line, text| line.with(text));
        asked.send(&line);
    }
}

/// "17, 15 (parameters), 18, 19, 20."
fn read_strategy(name: &[u8], parameters: &[Vec<u8>], kinds: &[Kind]) -> Result<Strategy, Refusal> {
    let place = NAMES.iter().position(|known| known.as_bytes() == name).ok_or(UNKNOWN_STRATEGY)?;
    let count = [0, 0, 1, 0, 1, 2, 3][place];
    if parameters.len() != count {
        return Err(ARGUMENT_COUNT);
    }
    let differential = NAMES[place].starts_with("differential");
    let measured = |kind: &Kind| matches!(kind, Kind::Integer | Kind::Float);
    if differential && !kinds.iter().all(measured) {
        return Err(NOT_FOR_TYPE);
    }
    match NAMES[place] {
        "none" => Ok(Strategy::None),
        "auto" => Ok(Strategy::Auto),
        "event" => Ok(Strategy::Event),
        "period" => Ok(Strategy::Period(read_period(&parameters[0], 1)?)),
        "differential" => Ok(Strategy::Differential(read_difference(&parameters[0], kinds)?)),
        "event-rate" => Ok(Strategy::EventRate(read_rate(&parameters[0], &parameters[1])?)),
        _ => {
            let difference = read_difference(&parameters[0], kinds)?;
            Ok(Strategy::DifferentialRate(difference, read_rate(&parameters[1], &parameters[2])?))
        }
    }
}

/// "in a list of both types it must suit both". A text that does is the same
/// number for both.
fn read_difference(text: &[u8], kinds: &[Kind]) -> Result<Difference, Refusal> {
    let mut millionths = 0;
    for kind in kinds {
        let read = match kind {
            Kind::Integer => integer_difference(text),
            _ => float_difference(text),
        };
        millionths = read.ok_or(BAD_PARAMETER)?;
    }
    Ok(Difference { millionths })
}

/// "Difference: integer (no point) to 4,294,967,295", in millionths.
fn integer_difference(text: &[u8]) -> Option<u64> {
    let whole = Decimal::read(text)?.scaled(0)?;
    if whole > MOST_INTEGER_DIFFERENCE {
        return None;
    }
    Some(whole * 1_000_000)
}

/// "Float differences therefore also take a leading `+`, a missing whole or
/// fraction part (`.5`, `5.`, never both), leading zeros and an exponent [...].
/// The exact decimal must still be at most 2,097,152 and a whole number of
/// millionths." (document 02, (b)).
fn float_difference(text: &[u8]) -> Option<u64> {
    ExactDecimal::read(text)?.millionths(MOST_FLOAT_DIFFERENCE)
}

/// "Periods: 0.001 to 86,400 seconds, at most 3 fraction digits (shortest may
/// be 0)". The least is given in milliseconds.
fn read_period(text: &[u8], least: u64) -> Result<u64, Refusal> {
    let decimal = Decimal::read(text).ok_or(BAD_PARAMETER)?;
    let ms = decimal.scaled(3).ok_or(BAD_PARAMETER)?;
    if ms < least || ms > LONGEST_PERIOD {
        return Err(BAD_PARAMETER);
    }
    Ok(ms)
}

/// "(shortest may be 0)"; "shortest over longest | 20", after 19.
fn read_rate(shortest: &[u8], longest: &[u8]) -> Result<Rate, Refusal> {
    let shortest = read_period(shortest, 0)?;
    let longest = read_period(longest, 1)?;
    if shortest > longest {
        return Err(SHORTEST_EXCEEDS);
    }
    Ok(Rate { shortest, longest })
}
