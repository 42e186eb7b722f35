//! An example host. It owns one unit and lends it to each call; what the guest
//! did comes from a trace: its accesses to the frame (RD, WR), the memory in
//! which its queue lies (GM), and the messages of its devices (TR). The host
//! answers each with the line of document 01.

use std::io::Write as _;

use its::{Action, DeviceId, EventId, Its, Processor, Profile, Row, Settings, Window};
use oracle::record::{Configuration, Record, Records};

pub struct Host {
    its: Its,
    /// Room for the actions of one write, whatever the budget.
    row: Row,
    /// The guest memory that the unit may read.
    address: u64,
    memory: Vec<u8>,
    /// One line for each answer.
    pub lines: Vec<u8>,
}

impl Default for Host {
    fn default() -> Self {
        Self {
            its: Its::new(),
            row: [Action::default(); 1024],
            address: 0,
            memory: Vec::new(),
            lines: Vec::new(),
        }
    }
}

/// The lines of a trace.
pub fn replay(trace: &[u8]) -> Vec<u8> {
    let mut host = Host::default();
    for record in Records::of(trace) {
        match record {
            Ok(record) => host.take(&record),
            Err(malformed) => host.say(format_args!("?? {}", malformed.offset)),
        }
    }
    host.lines
}

impl Host {
    pub fn take(&mut self, record: &Record) {
        match record {
            Record::Cf(given) => self.start(given),
            Record::Gm { address, bytes } => {
                self.address = *address;
                self.memory.clone_from(bytes);
                self.say(format_args!("GM 0"));
            }
            Record::Rd { offset, width } => match self.its.read(*offset, *width) {
                Ok(value) => self.say(format_args!("RD 0 {value}")),
                Err(refusal) => self.say(format_args!("RD {} 0", refusal.number())),
            },
            Record::Wr {
                offset,
                width,
                value,
            } => self.write(*offset, *width, *value),
            Record::Tr { device, event } => self.message(DeviceId(*device), EventId(*event)),
        }
    }

    fn start(&mut self, given: &Configuration) {
        let processors: Vec<Processor> = given.processors.iter().copied().map(Processor).collect();
        // Whatever the profile's byte is, the unit says whether it knows it.
        let settings = Settings::new(given.limit, given.budget, given.frame)
            .profile(Profile::of(given.profile.into()));
        let configured = self.its.configure(&settings, &processors);
        let refusal = configured.map_or_else(|refusal| refusal.number(), |()| 0);
        self.say(format_args!("CF {refusal}"));
    }

    /// The guest writes a register: the unit runs the commands that wait, and
    /// hands over what INT and CLEAR ask for, also if it then refuses a command.
    fn write(&mut self, offset: u64, width: u8, value: u64) {
        let window = Window {
            address: self.address,
            bytes: &self.memory,
        };
        let (actions, answer) = self.its.write(window, &mut self.row, offset, width, value);
        let (number, opcode, offset, done) = match answer {
            Ok(written) => (0, 0, 0, written.done),
            Err(refused) => (
                refused.refusal.number(),
                refused.opcode,
                refused.offset,
                refused.done,
            ),
        };
        let count = actions.len();
        let line = format_args!("WR {number} {opcode} {offset} {done} {count}");
        say(&mut self.lines, line);
        // To deliver an action is, here, to give it a line, behind that of the write.
        for action in actions {
            let (processor, lpi) = (action.processor().0, action.lpi().0);
            let pending = u8::from(action.pending());
            let line = format_args!("AC {processor} {lpi} {pending}");
            say(&mut self.lines, line);
        }
    }

    /// A device sends a message: the host asks where it goes.
    fn message(&mut self, device: DeviceId, event: EventId) {
        match self.its.translate(device, event) {
            Ok(delivery) => {
                let (lpi, processor) = (delivery.lpi.0, delivery.processor.0);
                self.say(format_args!("TR 0 {lpi} {processor}"));
            }
            Err(refusal) => self.say(format_args!("TR {} 0 0", refusal.number())),
        }
    }

    fn say(&mut self, line: std::fmt::Arguments<'_>) {
        say(&mut self.lines, line);
    }
}

fn say(lines: &mut Vec<u8>, line: std::fmt::Arguments<'_>) {
    writeln!(lines, "{line}").expect("a vector takes every byte");
}

#[cfg(test)]
mod tests {
    use oracle::record::Record;

    use super::replay;

    /// A CF with this profile, byte by byte: that of a trace is held against the
    /// paper here, and not against its own writer.
    fn cf(profile: u8, count: u8) -> Vec<u8> {
        let mut trace = b"CF".to_vec();
        trace.extend([0xff, 0xff, 0, 0, 64, 0, 0, 0, 0, 0, 1, 0]);
        trace.extend([profile, count]);
        trace.extend([3, 0].repeat(count.into()));
        trace
    }

    #[test]
    fn a_profile_is_passed_on() {
        let mut sync = vec![0; 32];
        sync[0] = 5;
        // Bit 63 of CBASER is 0, so that a strict unit does not run the SYNC.
        let records = [(0x80, 8, 0x4_0000), (0x00, 4, 1), (0x88, 8, 32)];
        for profile in 0..=255 {
            let mut trace = cf(profile, 1);
            let (address, bytes) = (0x4_0000, sync.clone());
            Record::Gm { address, bytes }.encode(&mut trace);
            for (offset, width, value) in records {
                Record::Wr {
                    offset,
                    width,
                    value,
                }
                .encode(&mut trace);
            }
            let right = match profile {
                0 => "CF 0\nGM 0\nWR 0 0 0 0 0\nWR 0 0 0 0 0\nWR 0 0 0 1 0\n",
                1 => "CF 0\nGM 0\nWR 0 0 0 0 0\nWR 0 0 0 0 0\nWR 0 0 0 0 0\n",
                _ => "CF 1\nGM 0\nWR 1 0 0 0 0\nWR 1 0 0 0 0\nWR 1 0 0 0 0\n",
            };
            assert_eq!(replay(&trace), right.as_bytes(), "{profile}");
        }
    }

    #[test]
    fn the_shortest_cf_is_16_bytes() {
        let trace = cf(1, 0);
        assert_eq!(replay(&trace), b"CF 1\n");
        assert_eq!(trace.len(), 16);
        assert_eq!(replay(&trace[..15]), b"?? 0\n");
    }
}
