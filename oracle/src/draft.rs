//! A trace written record by record.

use crate::fields::{Words, bytes_of};
use crate::record::{BASE, Configuration, Record};

#[derive(Clone, Debug, Default)]
pub struct Draft(pub Vec<u8>);

impl Draft {
    pub fn record(&mut self, record: &Record) -> &mut Self {
        record.encode(&mut self.0);
        self
    }

    /// A configuration of the base profile.
    pub fn cf(&mut self, limit: u32, budget: u32, frame: u32, processors: &[u16]) -> &mut Self {
        self.record(&Record::Cf(Configuration {
            limit,
            budget,
            frame,
            profile: BASE,
            processors: processors.to_vec(),
        }))
    }

    /// A window with these commands.
    pub fn commands(&mut self, address: u64, commands: &[Words]) -> &mut Self {
        let bytes = bytes_of(commands);
        self.record(&Record::Gm { address, bytes })
    }

    pub fn rd(&mut self, offset: u64, width: u8) -> &mut Self {
        self.record(&Record::Rd { offset, width })
    }

    pub fn wr(&mut self, offset: u64, width: u8, value: u64) -> &mut Self {
        self.record(&Record::Wr {
            offset,
            width,
            value,
        })
    }

    pub fn tr(&mut self, device: u32, event: u32) -> &mut Self {
        self.record(&Record::Tr { device, event })
    }

    /// The unit, ring and mappings of 01's example: (5, 9) is LPI 8200 on
    /// processor 1 by collection 2, and the reader stands at 96.
    pub fn example(frame: u32) -> Self {
        let mut draft = Self::default();
        draft
            .cf(65_535, 64, frame, &[0, 1])
            .commands(RING, &EXAMPLE)
            .wr(0x80, 8, 1 << 63 | RING)
            .wr(0x0, 4, 1)
            .wr(0x88, 8, 96);
        draft
    }
}

/// Where the example has its ring.
pub const RING: u64 = 0x4000_0000;

/// MAPD 5 with 4 bits, MAPC 2 to processor 1, MAPTI (5, 9) as 8200.
const EXAMPLE: [Words; 3] = [
    [0x5_0000_0008, 3, 1 << 63, 0],
    [9, 0, 1 << 63 | 0x1_0002, 0],
    [0x5_0000_000a, 0x2008_0000_0009, 2, 0],
];
