//! Units that are wrong in one thing about Retry and Stalled: a right one, with a touch
//! before a call or behind it.

use std::sync::Arc;

use arm_vgic::{GITS_CBASER, GITS_CREADR, GITS_CTLR, GITS_CWRITER};

use super::fault::Fault;
use super::met::State;
use super::pair::Pair;
use crate::record::{Configuration, RETRY, STALLED, STRICT};
use crate::unit::Written;
use crate::window::Window;

const CWRITER_HIGH: u64 = GITS_CWRITER + 4;
const CREADR_HIGH: u64 = GITS_CREADR + 4;

/// A unit with a fault, or a right one.
pub struct Faulty {
    pair: Pair,
    fault: Option<Fault>,
    strict: bool,
    /// CWRITER was last written with Retry.
    kept: bool,
}

/// A write, and the unit before it.
struct Write {
    offset: u64,
    retry: bool,
    cbaser: bool,
    stalled: bool,
    enabled: bool,
}

impl Faulty {
    /// A fresh unit in place of the one before.
    pub fn configure(
        configuration: &Configuration,
        window: &Arc<Window>,
        fault: Option<Fault>,
        before: Option<&Self>,
    ) -> Option<Self> {
        let mut unit = Self {
            pair: Pair::configure(configuration, window)?,
            fault,
            strict: configuration.profile == STRICT,
            kept: false,
        };
        if fault == Some(Fault::ConfigurationKeeps) && unit.strict {
            unit.pair.stalled = before.is_some_and(|before| before.pair.stalled);
        }
        Some(unit)
    }

    pub fn state(&self) -> State {
        self.pair.state()
    }

    pub fn translate(&self, device: u32, event: u32) -> Result<(u32, usize), u8> {
        self.pair.translate(device, event)
    }

    pub fn read(&self, offset: u64, width: u8) -> Result<u64, u8> {
        let value = self.pair.read(offset, width)?;
        Ok(match (self.fault, offset, width) {
            (Some(Fault::RetryStored), GITS_CWRITER, _) if self.kept => value | RETRY,
            (Some(Fault::LowHalfHides), GITS_CREADR, 4) => value & !STALLED,
            (Some(Fault::HighHalfShows), CREADR_HIGH, _) if self.pair.stalled => value | STALLED,
            _ => value,
        })
    }

    pub fn write(&mut self, offset: u64, width: u8, value: u64) -> Written {
        let fault = self.fault.filter(|fault| fault.of_base() != self.strict);
        // A read of the same place has the same refusals: no register is written there.
        let (Some(fault), Ok(_)) = (fault, self.pair.read(offset, width)) else {
            return self.pair.write(offset, width, value);
        };
        let write = Write {
            offset,
            retry: self.pair.has_retry(offset, value),
            cbaser: (GITS_CBASER..GITS_CBASER + 8).contains(&offset),
            stalled: self.pair.stalled,
            enabled: self.pair.enabled,
        };
        let value = self.touch_before(fault, &write, value);
        let written = self.pair.write(offset, width, value);
        self.touch_behind(fault, &write, written)
    }

    /// Gives the value to be written.
    fn touch_before(&mut self, fault: Fault, write: &Write, value: u64) -> u64 {
        match (fault, write.offset) {
            (Fault::ControlRetries, GITS_CTLR) if value & 1 == 1 => self.pair.stalled = false,
            (Fault::HighHalfRetries, CWRITER_HIGH) if value & 1 == 1 => self.pair.stalled = false,
            // It is enabled again behind the call.
            (Fault::RetryOnlyClears, GITS_CWRITER) if write.retry => self.pair.enabled = false,
            (Fault::WriterRetries, GITS_CWRITER) => return value | RETRY,
            (Fault::BaseTakesRetry, GITS_CWRITER) => return value & !RETRY,
            _ => {}
        }
        value
    }

    /// Gives the answer.
    fn touch_behind(&mut self, fault: Fault, write: &Write, mut written: Written) -> Written {
        let told = written.told;
        let refused_writer = told == 7;
        let a_check = told >= 20;
        let of_a_command = a_check || matches!(told, 6 | 8 | 9);
        let Write {
            retry,
            cbaser,
            stalled,
            enabled,
            ..
        } = *write;
        match fault {
            Fault::RetryStored if write.offset == GITS_CWRITER && !refused_writer => {
                self.kept = retry;
            }
            Fault::RetryStored if cbaser && !enabled && told == 0 => self.kept = false,
            Fault::RetryReported if refused_writer && retry => written.offset |= RETRY,
            Fault::StalledReported if of_a_command => written.offset |= STALLED,
            Fault::FiveStalls if told == 5 => self.pair.stalled = true,
            Fault::SixDoesNotStall if told == 6 => self.pair.stalled = false,
            Fault::EightDoesNotStall if told == 8 => self.pair.stalled = false,
            Fault::NineDoesNotStall if told == 9 => self.pair.stalled = false,
            Fault::CheckDoesNotStall if a_check => self.pair.stalled = false,
            Fault::RefusedRetryClears if refused_writer && retry => self.pair.stalled = false,
            Fault::IgnoredBaseClears if cbaser && enabled => self.pair.stalled = false,
            Fault::RefusedBaseClears if cbaser && told == 4 => self.pair.stalled = false,
            Fault::StoredBaseKeeps if cbaser => self.pair.stalled = stalled,
            Fault::DisabledRetryKeeps if retry && !enabled => self.pair.stalled = stalled,
            Fault::RetryOnlyClears if retry => self.pair.enabled = enabled,
            Fault::RetryWithFiveKeeps if retry && told == 5 => self.pair.stalled = stalled,
            Fault::StalledAnswersFive if told == 0 => return self.with_a_5(write, written),
            Fault::BaseShowsStalled if !refused_writer => self.pair.stalled = of_a_command,
            _ => {}
        }
        written
    }

    /// A 5 where the unit is stalled, and would have run more than its budget else.
    fn with_a_5(&self, write: &Write, written: Written) -> Written {
        let runs = matches!(write.offset, GITS_CTLR | GITS_CWRITER | CWRITER_HIGH);
        let state = self.pair.state();
        if !(runs && state.enabled && state.stalled && state.beyond) {
            return written;
        }
        Written {
            offset: self.pair.reader,
            ..Written::refused(5)
        }
    }
}
