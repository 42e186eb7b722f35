//! The rows of the table.

use std::fmt;
use std::hint::black_box;

use arm_vgic::AccessWidth;
use its::command::{Command, discard, int, inv, mapti, movi, sync};
use its::{CollectionId, DeviceId, EventId, Lpi, Processor};

use crate::both::{Both, pair};
use crate::clock::{BATCH, ROUNDS, median, nanoseconds, overhead, seen};
use crate::trace::{self, Record};

pub enum Kind {
    Read {
        offset: u64,
        width: u8,
    },
    /// A write of CWRITER that runs so many commands.
    Commands(usize),
    /// A MAPTI of a pair that is not mapped; its DISCARD is not timed.
    Mapti,
    Message(DeviceId, EventId),
}

pub struct Row {
    what: String,
    kind: Kind,
    pairs: u32,
}

pub struct Ratios {
    pub what: String,
    pub numbers: f64,
    pub value: Option<f64>,
}

impl fmt::Display for Ratios {
    fn fmt(&self, f: &mut fmt::Formatter<'_>) -> fmt::Result {
        write!(f, "| {} | {:.1} | ", self.what, self.numbers)?;
        match self.value {
            Some(value) => write!(f, "{value:.1} |"),
            None => write!(f, "|"),
        }
    }
}

pub fn all() -> Vec<Row> {
    let mut rows = Vec::new();
    let mut row = |what: String, kind: Kind, pairs: u32| rows.push(Row { what, kind, pairs });
    for (name, offset, width) in [("CTLR", 0x00, 4), ("TYPER", 0x08, 8), ("CREADR", 0x90, 8)] {
        row(format!("read of {name}"), Kind::Read { offset, width }, 64);
    }
    for pairs in [1, 64, 255] {
        for commands in [1, 2, 8, 64] {
            let plural = if commands == 1 { "" } else { "s" };
            row(
                format!("write that runs {commands} command{plural}, pairs: {pairs}"),
                Kind::Commands(commands),
                pairs,
            );
        }
    }
    for pairs in [0, 64, 255] {
        row(
            format!("write that runs a MAPTI of a new pair, pairs: {pairs}"),
            Kind::Mapti,
            pairs,
        );
    }
    for pairs in [1, 64, 256] {
        let (device, event) = pair(pairs - 1);
        let (first, _) = pair(0);
        row(
            format!("translate, the first of pairs: {pairs}"),
            Kind::Message(first, EventId(0)),
            pairs,
        );
        row(
            format!("translate, the last of pairs: {pairs}"),
            Kind::Message(device, event),
            pairs,
        );
        row(
            format!("translate, none of pairs: {pairs}"),
            Kind::Message(first, EventId(250)),
            pairs,
        );
    }
    rows
}

/// What a guest sends of the last pair: each command is followed by a SYNC.
fn mix(pairs: u32) -> Vec<Command> {
    let (device, event) = pair(pairs.max(1) - 1);
    let end = sync(Processor(0));
    let lpi = Lpi(8_192 + pairs);
    vec![
        mapti(device, event, lpi, CollectionId(0)),
        end,
        int(device, event),
        end,
        inv(device, event),
        end,
        movi(device, event, CollectionId(1)),
        end,
    ]
}

impl Row {
    pub fn measure(&self) -> Ratios {
        let (numbers, rust) = match self.kind {
            Kind::Read { offset, width } => self.read(offset, width),
            Kind::Commands(commands) => self.commands(commands),
            Kind::Mapti => self.mapti(),
            Kind::Message(device, event) => self.message(device, event),
        };
        let record = match self.kind {
            Kind::Read { offset, width } => Some(Record::Read { offset, width }),
            Kind::Commands(commands) => Some(Record::Commands(commands)),
            Kind::Mapti => None,
            Kind::Message(device, event) => Some(Record::Message(device, event)),
        };
        Ratios {
            what: self.what.clone(),
            numbers: numbers / rust,
            value: record.map(|record| trace::time(self.pairs, &mix(self.pairs), &record) / rust),
        }
    }

    /// Both in turn, many times, and the medians.
    fn medians(mut one: impl FnMut() -> f64, mut other: impl FnMut() -> f64) -> (f64, f64) {
        let (mut ones, mut others) = (Vec::new(), Vec::new());
        for _ in 0..ROUNDS {
            ones.push(one());
            others.push(other());
        }
        (median(ones), median(others))
    }

    fn read(&self, offset: u64, width: u8) -> (f64, f64) {
        let both = Both::new(self.pairs, &mix(self.pairs));
        let rust_width = if width == 8 {
            AccessWidth::Qword
        } else {
            AccessWidth::Dword
        };
        let rust = || {
            both.rust
                .read_its(black_box(offset), rust_width)
                .expect("taken")
        };
        let port = || both.its.read(black_box(offset), width).expect("taken");
        assert_eq!(port(), rust());
        Self::medians(
            || nanoseconds(BATCH, || seen(port())),
            || nanoseconds(BATCH, || seen(rust())),
        )
    }

    fn message(&self, device: DeviceId, event: EventId) -> (f64, f64) {
        let both = Both::new(self.pairs, &mix(self.pairs));
        let rust = || {
            let device = arm_vgic::ItsDeviceId::new(black_box(device.0));
            both.rust
                .translate(device, arm_vgic::EventId::new(event.0))
                .ok()
        };
        let port = || both.its.translate(black_box(device), event).ok();
        assert_eq!(
            port().map(|to| (to.lpi.0, usize::from(to.processor.0))),
            rust().map(|(lpi, processor)| (lpi.raw(), processor.raw()))
        );
        Self::medians(
            || nanoseconds(BATCH, || seen(port())),
            || nanoseconds(BATCH, || seen(rust())),
        )
    }

    /// One write after the other; the ring has the same commands all round.
    fn commands(&self, commands: usize) -> (f64, f64) {
        let mut both = Both::new(self.pairs, &mix(self.pairs));
        let clock = overhead();
        let (mut ports, mut rusts) = (Vec::new(), Vec::new());
        for round in 0..8 * ROUNDS {
            both.advance(commands);
            let (mut done, mut delivered) = ((0, 0), 0);
            let mut port = |both: &mut Both| nanoseconds(1, || done = both.port()) - clock;
            let mut rust =
                |both: &mut Both| nanoseconds(1, || delivered = both.published()) - clock;
            if round % 2 == 0 {
                ports.push(port(&mut both));
                rusts.push(rust(&mut both));
            } else {
                rusts.push(rust(&mut both));
                ports.push(port(&mut both));
            }
            assert_eq!(done, (commands as u64, delivered));
        }
        (median(ports), median(rusts))
    }

    fn mapti(&self) -> (f64, f64) {
        let (device, event) = (DeviceId(1), EventId(200));
        let over = [
            mapti(device, event, Lpi(9_000), CollectionId(0)),
            discard(device, event),
        ];
        let mut both = Both::new(self.pairs, &over);
        let clock = overhead();
        let (mut ports, mut rusts) = (Vec::new(), Vec::new());
        for _ in 0..8 * ROUNDS {
            both.advance(1);
            ports.push(nanoseconds(1, || seen(both.port())) - clock);
            rusts.push(nanoseconds(1, || seen(both.published())) - clock);
            both.advance(1);
            both.published();
            both.port();
        }
        (median(ports), median(rusts))
    }
}
