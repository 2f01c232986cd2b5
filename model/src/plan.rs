//! Plans of sheets: their fields before they are turned into bytes. A plan may
//! break the layout, so it holds more than a sheet can.

/// A sensor of a plan. Types 1 and 2 have limits, type 4 has options.
#[derive(Clone, Debug)]
pub struct PlannedSensor {
    pub name: Vec<u8>,
    pub description: Vec<u8>,
    pub units: Vec<u8>,
    pub kind: u8,
    pub limits: Vec<i32>,
    pub options: Vec<Vec<u8>>,
}

/// A sheet's fields in order; `after` follows the last sensor.
#[derive(Clone, Debug)]
pub struct Plan {
    pub mark: Vec<u8>,
    pub version: u16,
    pub api: Vec<u8>,
    pub build: Vec<u8>,
    pub count: u8,
    pub sensors: Vec<PlannedSensor>,
    pub after: Vec<u8>,
}

impl Plan {
    /// "Mark `LGU`, 16-bit version 1", the texts, no sensor yet.
    pub fn new(api: &[u8], build: &[u8]) -> Plan {
        Plan {
            mark: b"LGU".to_vec(),
            version: 1,
            api: api.to_vec(),
            build: build.to_vec(),
            count: 0,
            sensors: Vec::new(),
            after: Vec::new(),
        }
    }

    /// Adds a sensor and counts it.
    pub fn add(&mut self, sensor: PlannedSensor) {
        self.sensors.push(sensor);
        self.count = self.sensors.len() as u8;
    }

    /// "Mark `LGU`, 16-bit version 1 (big-endian, as all here). API text and
    /// build text [...]. Sensor count 0–32. Each sensor [...]. Nothing follows."
    pub fn bytes(&self) -> Vec<u8> {
        let mut bytes = self.mark.clone();
        bytes.extend(self.version.to_be_bytes());
        push_text(&mut bytes, &self.api);
        push_text(&mut bytes, &self.build);
        bytes.push(self.count);
        for sensor in &self.sensors {
            sensor.push(&mut bytes);
        }
        bytes.extend(&self.after);
        bytes
    }
}

impl PlannedSensor {
    /// "name [...], description (0–64) and units (0–8) [...], type [...]. Types
    /// 1, 2: a byte 0, 2 or 4, then so many signed 32-bit numbers [...]. Type 4:
    /// option count 1–8, options".
    fn push(&self, bytes: &mut Vec<u8>) {
        push_text(bytes, &self.name);
        push_text(bytes, &self.description);
        push_text(bytes, &self.units);
        bytes.push(self.kind);
        if self.kind == 1 || self.kind == 2 {
            bytes.push(self.limits.len() as u8);
            bytes.extend(self.limits.iter().flat_map(|limit| limit.to_be_bytes()));
        }
        if self.kind == 4 {
            bytes.push(self.options.len() as u8);
            for option in &self.options {
                push_text(bytes, option);
            }
        }
    }
}

/// "length byte, as for every text here".
fn push_text(bytes: &mut Vec<u8>, text: &[u8]) {
    bytes.push(text.len() as u8);
    bytes.extend(text);
}
