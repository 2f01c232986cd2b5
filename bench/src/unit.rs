//! Units to measure: their sheets, and lines for them.

/// The name of a sensor.
fn name(place: usize) -> String {
    format!("car-{place:02}.load")
}

/// A sheet of integer sensors with four limits.
pub fn sheet(sensors: usize) -> Vec<u8> {
    let mut bytes = start(sensors);
    for place in 0..sensors {
        text(&mut bytes, &name(place));
        text(&mut bytes, "Load of a car.");
        text(&mut bytes, "kg");
        bytes.extend_from_slice(&[1, 4]);
        for limit in [0i32, 1000, -5, 1200] {
            bytes.extend_from_slice(&limit.to_be_bytes());
        }
    }
    bytes
}

/// The largest sheet: 32 discrete sensors with eight options, every text as long as it may be.
pub fn largest_sheet() -> Vec<u8> {
    let mut bytes = start(32);
    for place in 0..32 {
        text(&mut bytes, &format!("{:-<32}", name(place)));
        text(&mut bytes, &"d".repeat(64));
        text(&mut bytes, "position");
        bytes.extend_from_slice(&[4, 8]);
        for option in 0..8 {
            text(&mut bytes, &format!("door-position-{option:02}"));
        }
    }
    bytes
}

/// A sheet up to its count of sensors.
fn start(sensors: usize) -> Vec<u8> {
    let mut bytes = b"LGU\0\x01".to_vec();
    text(&mut bytes, "lgu-1.0");
    text(&mut bytes, "b7");
    bytes.push(sensors as u8);
    bytes
}

/// A text behind its length.
fn text(bytes: &mut Vec<u8>, text: &str) {
    bytes.push(text.len() as u8);
    bytes.extend_from_slice(text.as_bytes());
}

/// A request that sets a strategy for all sensors; where there are none, one that sets nothing.
pub fn sampling(sensors: usize, strategy: &str) -> String {
    if sensors == 0 {
        return "?watchdog".to_string();
    }
    let names: Vec<String> = (0..sensors).map(name).collect();
    format!("?sensor-sampling {} {strategy}", names.join(","))
}
