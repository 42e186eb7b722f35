//! One configured unit: the published controller, and what 01 adds around it.

use std::sync::Arc;

use arm_vgic::{AccessWidth, Delivered, EventId, GITS_CBASER, GITS_CREADR, GicV3Config};
use arm_vgic::{GicV3Controller, ItsDeviceId, VgicError};

use crate::fields::{BYTES_OF_A_COMMAND, Fields, Words};
use crate::reason;
use crate::record::{BASE, Configuration};
use crate::tables::{Table, Tables};
use crate::window::Window;

/// Where accesses are answered 3 in place of the identification registers.
pub const IDENTIFICATION: std::ops::RangeInclusive<u64> = 0xffd0..=0xffff;

pub struct Unit {
    controller: GicV3Controller,
    window: Arc<Window>,
    tables: Tables,
}

/// What a write answered, and what the Rust did on the way.
#[derive(Debug, Default)]
pub struct Written {
    /// 01's number: for the Rust's refusals, that of the kind of error.
    pub refusal: u8,
    /// The same, with 20 to 26 where the Rust's text tells which check of a
    /// command failed.
    pub told: u8,
    pub opcode: u8,
    pub offset: u64,
    pub done: u64,
    /// What the Rust delivered: nothing in a refused write.
    pub actions: Vec<Delivered>,
    /// What is to be handed over: the same in an accepted write, and in a
    /// refused one the actions of the commands that it carried out.
    pub handed: Vec<Delivered>,
    /// The Rust's own error, with its text.
    pub error: Option<VgicError>,
    /// The table that a 9 found full.
    pub full: Option<Table>,
    /// The commands read: `done` that were carried out, then one if it was refused.
    pub commands: Vec<Words>,
    /// CREADR before the write, and the size of the ring.
    pub reader: u64,
    pub size: u64,
}

impl Written {
    /// A refusal that no command and no offset goes with.
    pub fn refused(refusal: u8) -> Self {
        Self {
            refusal,
            told: refusal,
            ..Self::default()
        }
    }

    /// Whether commands were carried out before one was refused.
    pub fn stopped_midway(&self) -> bool {
        self.refusal != 0 && self.done > 0
    }
}

impl Unit {
    /// A fresh unit, exactly if the configuration is accepted and of the base
    /// profile: the Rust has no other.
    pub fn configure(configuration: &Configuration, window: Arc<Window>) -> Option<Self> {
        if !configuration.accepted() || configuration.profile != BASE {
            return None;
        }
        let config = GicV3Config::new(
            configuration.limit,
            configuration.budget as usize,
            u64::from(configuration.frame),
        );
        Some(Self {
            controller: GicV3Controller::new(config, &configuration.processors, window.clone()),
            window,
            tables: Tables::default(),
        })
    }

    pub fn read(&self, offset: u64, width: u8) -> Result<u64, u8> {
        let width = self.before_the_register(offset, width)?;
        self.controller
            .read_its(offset, width)
            .map_err(|error| reason::kind(&error))
    }

    pub fn write(&mut self, offset: u64, width: u8, value: u64) -> Written {
        let width = match self.before_the_register(offset, width) {
            Ok(width) => width,
            Err(refusal) => return Written::refused(refusal),
        };
        let reader = self.register(GITS_CREADR);
        let outcome = self.controller.write_its(offset, width, value);
        let actions = self.controller.take_delivered();
        let written = Written {
            reader,
            size: self.ring_size(),
            done: self.advance(offset, reader),
            commands: self.window.take_commands(),
            handed: actions.clone(),
            actions,
            ..Written::default()
        };
        self.follow(match outcome {
            Ok(()) => written,
            Err(error) => self.refused(written, error),
        })
    }

    pub fn translate(&self, device: u32, event: u32) -> Result<(u32, usize), u8> {
        self.controller
            .translate(ItsDeviceId::new(device), EventId::new(event))
            .map(|(lpi, processor)| (lpi.raw(), processor.raw()))
            .map_err(|error| reason::kind(&error))
    }

    pub fn tables(&self) -> &Tables {
        &self.tables
    }

    /// The answers that do not come from the Rust: 2 for a width that it has no
    /// name for, and 3. Before 3 stand the frame and alignment, which the Rust
    /// is asked about by a read: it changes nothing, and with no identification
    /// register at hand those are the only tests left at these offsets.
    fn before_the_register(&self, offset: u64, width: u8) -> Result<AccessWidth, u8> {
        let width = match width {
            1 => AccessWidth::Byte,
            2 => AccessWidth::Word,
            4 => AccessWidth::Dword,
            8 => AccessWidth::Qword,
            _ => return Err(2),
        };
        if !IDENTIFICATION.contains(&offset) {
            return Ok(width);
        }
        match self.controller.read_its(offset, width) {
            Ok(_) => Err(3),
            Err(error) => Err(reason::kind(&error)),
        }
    }

    fn register(&self, offset: u64) -> u64 {
        self.controller
            .read_its(offset, AccessWidth::Qword)
            .expect("a wide register reads at its own offset")
    }

    /// The commands by which CREADR advanced. A ring never holds as many
    /// commands as it has places, so the advance modulo the size is the count.
    /// A CBASER write runs no command; where it is stored it puts CREADR to 0.
    fn advance(&self, offset: u64, before: u64) -> u64 {
        if (GITS_CBASER..GITS_CBASER + 8).contains(&offset) {
            return 0;
        }
        let after = self.register(GITS_CREADR);
        let bytes = if after >= before {
            after - before
        } else {
            after + self.ring_size() - before
        };
        bytes / BYTES_OF_A_COMMAND as u64
    }

    fn ring_size(&self) -> u64 {
        ((self.register(GITS_CBASER) & 0xff) + 1) << 12
    }

    /// Number, opcode and offset of the Rust's error. It names no opcode and
    /// no offset with 8 and no offset with 6: CREADR stands on that command,
    /// and with 8 it is the last one read.
    fn refused(&self, written: Written, error: VgicError) -> Written {
        let (opcode, offset) = match &error {
            VgicError::InvalidItsCommand { opcode, offset, .. } => (*opcode, *offset),
            VgicError::ItsCommandBudgetExceeded { offset, .. } => (0, *offset),
            VgicError::GuestMemory { .. } => (0, self.register(GITS_CREADR)),
            VgicError::ResourceNotFound { .. } => {
                let command = written.commands.last().expect("an 8 follows a command");
                (Fields::of(command).opcode, self.register(GITS_CREADR))
            }
            _ => (0, 0),
        };
        Written {
            refusal: reason::kind(&error),
            told: reason::told(&error),
            opcode,
            offset,
            error: Some(error),
            ..written
        }
    }

    /// Follows the commands carried out, up to one that needs a record in a
    /// full table. The Rust went on from there; 01 answers 9 there.
    fn follow(&mut self, written: Written) -> Written {
        let refused_after_reading = usize::from(
            matches!(written.refusal, 7 | 8) && written.commands.len() as u64 != written.done,
        );
        assert_eq!(
            written.commands.len(),
            written.done as usize + refused_after_reading,
            "CREADR advances by the commands read and accepted"
        );
        for (before, command) in written.commands[..written.done as usize].iter().enumerate() {
            let fields = Fields::of(command);
            let Err(table) = self.tables.follow(&fields) else {
                continue;
            };
            let advance = (before * BYTES_OF_A_COMMAND) as u64;
            return Written {
                opcode: fields.opcode,
                offset: (written.reader + advance) % written.size,
                done: before as u64,
                full: Some(table),
                reader: written.reader,
                size: written.size,
                commands: written.commands[..=before].to_vec(),
                ..Written::refused(9)
            };
        }
        written
    }
}
