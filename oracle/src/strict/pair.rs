//! One unit, by two of the Rust's, and the rules of the strict profile.

use std::sync::Arc;

use arm_vgic::{Delivered, GITS_BASER, GITS_BASER_COUNT, GITS_CBASER, GITS_CREADR};
use arm_vgic::{GITS_CTLR, GITS_CWRITER, GuestMemory as _};

use super::carrier::Carrier;
use super::met::State;
use crate::command::unmapd;
use crate::fields::{BYTES_OF_A_COMMAND, Fields, MAPD, NAME_A_DEVICE};
use crate::record::{BASE, Configuration, DEVICE_TOO_LARGE, RETRY, STALLED, STRICT};
use crate::unit::{Unit, Written};
use crate::window::Window;

/// The highest device number that TYPER announces.
const LAST_DEVICE: u32 = 65_535;
const STEP: u64 = BYTES_OF_A_COMMAND as u64;

pub struct Pair {
    configuration: Configuration,
    /// Never enabled: what CTLR and CREADR hold is in `enabled` and `reader`.
    registers: Unit,
    commands: Carrier,
    window: Arc<Window>,
    pub(super) enabled: bool,
    pub(super) reader: u64,
    /// A command stopped a run of a strict unit, and nothing has cleared it since.
    pub(super) stalled: bool,
    /// The valid MAPDs of a mapped device that a strict unit has carried out.
    mapped_again: u64,
}

impl Pair {
    pub fn configure(configuration: &Configuration, window: &Arc<Window>) -> Option<Self> {
        configuration.accepted().then(|| {
            let base = Configuration {
                profile: BASE,
                ..configuration.clone()
            };
            let unit = |window| Unit::configure(&base, window).expect("an accepted configuration");
            Self {
                configuration: configuration.clone(),
                registers: unit(Arc::default()),
                commands: Carrier::of(unit),
                window: window.clone(),
                enabled: false,
                reader: 0,
                stalled: false,
                mapped_again: 0,
            }
        })
    }

    fn strict(&self) -> bool {
        self.configuration.profile == STRICT
    }

    pub fn state(&self) -> State {
        let cbaser = self.register(GITS_CBASER);
        let waiting = self.waiting();
        State {
            strict: self.strict(),
            enabled: self.enabled,
            stalled: self.stalled,
            ring: cbaser != 0,
            valid: cbaser >> 63 == 1,
            waiting,
            beyond: self.beyond(waiting),
            mapped_again: self.mapped_again,
        }
    }

    pub fn read(&self, offset: u64, width: u8) -> Result<u64, u8> {
        let value = self.registers.read(offset, width)?;
        Ok(match offset {
            GITS_CTLR => value | u64::from(self.enabled),
            // At 8 bytes and at the low half; the high half is another offset.
            GITS_CREADR if self.stalled => value | self.reader | STALLED,
            GITS_CREADR => value | self.reader,
            _ => value,
        })
    }

    pub fn translate(&self, device: u32, event: u32) -> Result<(u32, usize), u8> {
        self.commands.unit.translate(device, event)
    }

    fn register(&self, offset: u64) -> u64 {
        let value = self.registers.read(offset, 8);
        value.expect("a wide register reads at its own offset")
    }

    fn size(&self) -> u64 {
        ((self.register(GITS_CBASER) & 0xff) + 1) << 12
    }

    fn waiting(&self) -> u64 {
        let size = self.size();
        (self.register(GITS_CWRITER) + size - self.reader) % size / STEP
    }

    fn beyond(&self, waiting: u64) -> bool {
        waiting > u64::from(self.configuration.budget)
    }

    /// Whether a write has Retry. The bit is that of the merged value: at the low half
    /// it is the written one, and at the high half the stored one, which is 0.
    pub(super) fn has_retry(&self, offset: u64, value: u64) -> bool {
        self.strict() && offset == GITS_CWRITER && value & RETRY != 0
    }

    pub fn write(&mut self, offset: u64, width: u8, value: u64) -> Written {
        let cbaser = (GITS_CBASER..GITS_CBASER + 8).contains(&offset);
        let basers = GITS_BASER..GITS_BASER + 8 * GITS_BASER_COUNT as u64;
        let ignored = self.enabled && (cbaser || basers.contains(&offset));
        let retry = self.has_retry(offset, value);
        let written = match offset {
            // A read of the same place has the same refusals.
            _ if ignored => match self.registers.read(offset, width) {
                Ok(_) => Written::default(),
                Err(refusal) => Written::refused(refusal),
            },
            GITS_CTLR => self.registers.write(offset, width, value & !1),
            GITS_CWRITER if retry => self.registers.write(offset, width, value & !RETRY),
            _ => self.registers.write(offset, width, value),
        };
        if written.told != 0 {
            return written;
        }
        match offset {
            _ if cbaser && !ignored => {
                self.reader = 0;
                self.stalled = false;
            }
            GITS_CTLR => self.enabled = value & 1 == 1,
            GITS_CWRITER if retry => self.stalled = false,
            _ => {}
        }
        let runs = offset == GITS_CTLR || (GITS_CWRITER..GITS_CWRITER + 8).contains(&offset);
        if runs && self.enabled {
            self.run()
        } else {
            Written::default()
        }
    }

    fn run(&mut self) -> Written {
        let cbaser = self.register(GITS_CBASER);
        if self.strict() && (self.stalled || cbaser >> 63 == 0) {
            return Written::default();
        }
        let (size, waiting) = (self.size(), self.waiting());
        if self.beyond(waiting) {
            return Written {
                offset: self.reader,
                ..Written::refused(5)
            };
        }
        let mut written = Written::default();
        while written.told == 0 && written.done < waiting {
            let address = (cbaser & 0x000f_ffff_ffff_f000) + self.reader;
            match self.carried_out(address, &mut written.handed) {
                Ok(()) => {
                    self.reader = (self.reader + STEP) % size;
                    written.done += 1;
                }
                Err(refused) => {
                    (written.told, written.opcode) = refused;
                    written.offset = self.reader;
                    self.stalled = self.strict();
                }
            }
        }
        written
    }

    /// Carries out the command at an address, or gives its refusal and opcode.
    fn carried_out(&mut self, address: u64, actions: &mut Vec<Delivered>) -> Result<(), (u8, u8)> {
        let read = self.window.read(address, &mut [0; BYTES_OF_A_COMMAND]);
        read.map_err(|_| (6, 0))?;
        let words = self.window.take_commands()[0];
        let fields = Fields::of(&words);
        if self.strict() {
            if NAME_A_DEVICE.contains(&fields.opcode) && fields.device > LAST_DEVICE {
                return Err((DEVICE_TOO_LARGE, fields.opcode));
            }
            let mapped = self.commands.unit.tables().has_device(fields.device);
            if fields.opcode == MAPD && fields.valid && mapped {
                self.mapped_again += 1;
                self.commands.carry_out(&unmapd(fields.device))?;
            }
        }
        actions.extend(self.commands.carry_out(&words)?);
        Ok(())
    }
}
