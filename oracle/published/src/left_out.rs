//! What the other half of controller/mmio.rs needs to compile: Distributor,
//! Redistributor, locks and wakes. The port leaves them out, no trace reaches
//! them, and each answers that it is not there.

use std::cell::{RefCell, RefMut};

use crate::{AccessWidth, ControllerState, GicV3Config, GicV3Controller, GicVcpuId};
use crate::{VgicError, VgicResult};

fn left_out<T>(operation: &'static str) -> VgicResult<T> {
    Err(VgicError::Unsupported {
        operation,
        detail: "left out".into(),
    })
}

/// The crate's lock. One thread owns a controller here.
pub(crate) struct Lock<T>(RefCell<T>);

impl<T> Lock<T> {
    pub(crate) fn new(value: T) -> Self {
        Self(RefCell::new(value))
    }

    pub(crate) fn lock(&self) -> RefMut<'_, T> {
        self.0.borrow_mut()
    }

    pub(crate) fn lock_irqsave(&self) -> RefMut<'_, T> {
        self.lock()
    }
}

/// What the crate knows of physical interrupts, and what has changed of it.
pub(crate) struct PhysicalInterrupts;

pub(crate) struct Wake;

impl Wake {
    pub(crate) fn wake(self) -> VgicResult {
        left_out("wake")
    }
}

pub(crate) struct DistributorState;

impl DistributorState {
    pub(crate) fn read(&self, _: u64, _: AccessWidth, _: &GicV3Config) -> VgicResult<u64> {
        left_out("read Distributor")
    }

    pub(crate) fn write(
        &mut self,
        _: u64,
        _: AccessWidth,
        _: u64,
        _: &GicV3Config,
    ) -> VgicResult<DistributorWrite> {
        left_out("write Distributor")
    }
}

pub(crate) struct DistributorWrite;

impl DistributorWrite {
    pub(crate) fn into_candidates(self) -> Vec<u32> {
        Vec::new()
    }
}

pub(crate) struct RedistributorState;

impl RedistributorState {
    pub(crate) fn read(&self, _: u64, _: AccessWidth, _: &GicV3Config) -> VgicResult<u64> {
        left_out("read Redistributor")
    }

    pub(crate) fn write(
        &mut self,
        _: u64,
        _: AccessWidth,
        _: u64,
        _: &GicV3Config,
    ) -> VgicResult<Vec<u32>> {
        left_out("write Redistributor")
    }
}

impl ControllerState {
    pub(crate) fn redistributor(
        &self,
        _: GicVcpuId,
        operation: &'static str,
    ) -> VgicResult<&RedistributorState> {
        left_out(operation)
    }

    pub(crate) fn redistributor_mut(
        &mut self,
        _: GicVcpuId,
        operation: &'static str,
    ) -> VgicResult<&mut RedistributorState> {
        left_out(operation)
    }

    pub(crate) fn queue_local_if_deliverable(
        &mut self,
        _: GicVcpuId,
        _: u32,
    ) -> VgicResult<Option<Wake>> {
        left_out("queue a local interrupt")
    }

    pub(crate) fn has_software_backing(&self, _: u32, _: &GicV3Config) -> bool {
        false
    }

    pub(crate) fn queue_spi_if_deliverable(&mut self, _: u32) -> VgicResult<Option<Wake>> {
        left_out("queue an SPI")
    }

    pub(crate) fn queue_acknowledged_physical_spi_if_deliverable(
        &mut self,
        _: u32,
    ) -> VgicResult<Option<Wake>> {
        left_out("queue a physical SPI")
    }

    pub(crate) fn physical_interrupt_snapshot(&self) -> VgicResult<PhysicalInterrupts> {
        left_out("look at physical interrupts")
    }

    pub(crate) fn physical_interrupt_state_changes(
        &self,
        _: &PhysicalInterrupts,
    ) -> VgicResult<PhysicalInterrupts> {
        left_out("compare physical interrupts")
    }
}

impl GicV3Controller {
    pub(crate) fn apply_physical_interrupt_state_changes(
        &self,
        _: PhysicalInterrupts,
    ) -> VgicResult {
        left_out("change physical interrupts")
    }
}
