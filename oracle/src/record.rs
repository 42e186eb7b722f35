//! The records of a trace: their bytes out and in, as 01 lays them down, and with
//! 02's profile in a CF.

/// The longest window that a GM record may carry.
pub const LONGEST_WINDOW: usize = 4096;

/// The profiles: base is 01's way and the Rust's, strict is 02's.
pub const BASE: u8 = 0;
pub const STRICT: u8 = 1;

/// The refusal that only a strict unit has: the command's device is too large.
pub const DEVICE_TOO_LARGE: u8 = 27;

/// Bit 0 of a strict unit's CWRITER, where it is written, and of its CREADR, where it
/// is read.
pub const RETRY: u64 = 1;
pub const STALLED: u64 = 1;

#[derive(Clone, Debug, Eq, PartialEq)]
pub enum Record {
    Cf(Configuration),
    Gm { address: u64, bytes: Vec<u8> },
    Rd { offset: u64, width: u8 },
    Wr { offset: u64, width: u8, value: u64 },
    Tr { device: u32, event: u32 },
}

#[derive(Clone, Debug, Eq, PartialEq)]
pub struct Configuration {
    pub limit: u32,
    pub budget: u32,
    pub frame: u32,
    pub profile: u8,
    pub processors: Vec<u16>,
}

impl Configuration {
    /// Whether a configuration is accepted: 01's sizes, no processor twice, and a
    /// profile that there is.
    pub fn accepted(&self) -> bool {
        let processors = &self.processors;
        (8_192..=16_777_215).contains(&self.limit)
            && (1..=1_024).contains(&self.budget)
            && matches!(self.frame, 65_536 | 131_072)
            && matches!(self.profile, BASE | STRICT)
            && (1..=16).contains(&processors.len())
            && (1..processors.len()).all(|later| !processors[..later].contains(&processors[later]))
    }

    /// Whether it starts a strict unit, which the Rust does not have.
    pub fn starts_strict(&self) -> bool {
        self.accepted() && self.profile == STRICT
    }
}

impl Record {
    /// Appends the record. A CF must name at most 255 processors, since its
    /// count is one byte; a GM longer than 01 allows is written as it is.
    pub fn encode(&self, trace: &mut Vec<u8>) {
        match self {
            Record::Cf(configuration) => {
                let count = u8::try_from(configuration.processors.len()).expect("a one-byte count");
                trace.extend(b"CF");
                trace.extend(configuration.limit.to_le_bytes());
                trace.extend(configuration.budget.to_le_bytes());
                trace.extend(configuration.frame.to_le_bytes());
                trace.push(configuration.profile);
                trace.push(count);
                for processor in &configuration.processors {
                    trace.extend(processor.to_le_bytes());
                }
            }
            Record::Gm { address, bytes } => {
                let length = u32::try_from(bytes.len()).expect("a four-byte length");
                trace.extend(b"GM");
                trace.extend(address.to_le_bytes());
                trace.extend(length.to_le_bytes());
                trace.extend(bytes);
            }
            Record::Rd { offset, width } => {
                trace.extend(b"RD");
                trace.extend(offset.to_le_bytes());
                trace.push(*width);
            }
            Record::Wr {
                offset,
                width,
                value,
            } => {
                trace.extend(b"WR");
                trace.extend(offset.to_le_bytes());
                trace.push(*width);
                trace.extend(value.to_le_bytes());
            }
            Record::Tr { device, event } => {
                trace.extend(b"TR");
                trace.extend(device.to_le_bytes());
                trace.extend(event.to_le_bytes());
            }
        }
    }
}

/// Why a trace ends early, and the offset of the mark where it does.
#[derive(Clone, Copy, Debug, Eq, PartialEq)]
pub struct Malformed {
    pub offset: usize,
    pub fault: Fault,
}

#[derive(Clone, Copy, Debug, Eq, PartialEq)]
pub enum Fault {
    BadMark,
    ShortRecord,
    LongWindow,
}

/// The records of a trace in order. After a malformed one there is no other.
pub struct Records<'a> {
    trace: &'a [u8],
    at: usize,
}

impl<'a> Records<'a> {
    pub fn of(trace: &'a [u8]) -> Self {
        Self { trace, at: 0 }
    }
}

impl Iterator for Records<'_> {
    type Item = Result<Record, Malformed>;

    fn next(&mut self) -> Option<Self::Item> {
        let offset = self.at;
        if offset == self.trace.len() {
            return None;
        }
        let mut bytes = Bytes(&self.trace[offset..]);
        match bytes.record() {
            Ok(record) => {
                self.at = self.trace.len() - bytes.0.len();
                Some(Ok(record))
            }
            Err(fault) => {
                self.at = self.trace.len();
                Some(Err(Malformed { offset, fault }))
            }
        }
    }
}

/// The bytes of a trace that are still to be read.
struct Bytes<'a>(&'a [u8]);

impl<'a> Bytes<'a> {
    fn record(&mut self) -> Result<Record, Fault> {
        let mark: [u8; 2] = self.number()?;
        match &mark {
            b"CF" => self.configuration().map(Record::Cf),
            b"GM" => self.window(),
            b"RD" => Ok(Record::Rd {
                offset: u64::from_le_bytes(self.number()?),
                width: u8::from_le_bytes(self.number()?),
            }),
            b"WR" => Ok(Record::Wr {
                offset: u64::from_le_bytes(self.number()?),
                width: u8::from_le_bytes(self.number()?),
                value: u64::from_le_bytes(self.number()?),
            }),
            b"TR" => Ok(Record::Tr {
                device: u32::from_le_bytes(self.number()?),
                event: u32::from_le_bytes(self.number()?),
            }),
            _ => Err(Fault::BadMark),
        }
    }

    fn configuration(&mut self) -> Result<Configuration, Fault> {
        let limit = u32::from_le_bytes(self.number()?);
        let budget = u32::from_le_bytes(self.number()?);
        let frame = u32::from_le_bytes(self.number()?);
        let profile = u8::from_le_bytes(self.number()?);
        let count = u8::from_le_bytes(self.number()?);
        let (numbers, _) = self.take(2 * usize::from(count))?.as_chunks::<2>();
        Ok(Configuration {
            limit,
            budget,
            frame,
            profile,
            processors: numbers.iter().copied().map(u16::from_le_bytes).collect(),
        })
    }

    fn window(&mut self) -> Result<Record, Fault> {
        let address = u64::from_le_bytes(self.number()?);
        let length = u32::from_le_bytes(self.number()?) as usize;
        if length > LONGEST_WINDOW {
            return Err(Fault::LongWindow);
        }
        let bytes = self.take(length)?.to_vec();
        Ok(Record::Gm { address, bytes })
    }

    fn number<const N: usize>(&mut self) -> Result<[u8; N], Fault> {
        let (number, rest) = self.0.split_first_chunk().ok_or(Fault::ShortRecord)?;
        self.0 = rest;
        Ok(*number)
    }

    fn take(&mut self, count: usize) -> Result<&'a [u8], Fault> {
        let (taken, rest) = self.0.split_at_checked(count).ok_or(Fault::ShortRecord)?;
        self.0 = rest;
        Ok(taken)
    }
}
