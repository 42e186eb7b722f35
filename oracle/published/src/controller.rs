//! The controller around one ITS: configuration in, delivered actions out.

use std::collections::BTreeMap;
use std::sync::Arc;

use crate::left_out::{DistributorState, Lock, RedistributorState, Wake};
use crate::{EventId, GicVcpuId, GuestMemory, ItsDeviceId, ItsId, ItsState, LpiId, VgicResult};

include!(concat!(env!("OUT_DIR"), "/controller/mmio_module.rs"));

const ONLY: ItsId = ItsId::new(0);

pub struct GicV3Controller {
    inner: Inner,
}

struct Inner {
    state: Lock<ControllerState>,
    config: GicV3Config,
    guest_memory: Option<Arc<dyn GuestMemory>>,
}

pub(crate) struct ControllerState {
    its: BTreeMap<ItsId, ItsState>,
    redistributors: BTreeMap<GicVcpuId, RedistributorState>,
    distributor: DistributorState,
    physical_spi_acknowledged: BTreeMap<u32, bool>,
    delivered: Vec<Delivered>,
}

/// One action that reached the delivery stub.
#[derive(Clone, Copy, Debug, Eq, PartialEq)]
pub struct Delivered {
    pub processor: GicVcpuId,
    pub lpi: LpiId,
    pub pending: bool,
}

impl ControllerState {
    /// Delivery always succeeds here (01, domain of demand 2).
    fn set_lpi_pending(
        &mut self,
        processor: GicVcpuId,
        lpi: LpiId,
        pending: bool,
    ) -> VgicResult<Option<Wake>> {
        self.delivered.push(Delivered {
            processor,
            lpi,
            pending,
        });
        Ok(None)
    }
}

pub struct GicV3Config {
    its_instances: [(ItsId, Region); 1],
    lpi_limit: u32,
    its_command_budget: usize,
}

impl GicV3Config {
    pub fn new(lpi_limit: u32, its_command_budget: usize, frame: u64) -> Self {
        Self {
            its_instances: [(ONLY, Region { size: frame })],
            lpi_limit,
            its_command_budget,
        }
    }

    fn its_instances(&self) -> &[(ItsId, Region)] {
        &self.its_instances
    }

    fn lpi_limit(&self) -> u32 {
        self.lpi_limit
    }

    fn its_command_budget(&self) -> usize {
        self.its_command_budget
    }
}

#[derive(Clone, Copy)]
struct Region {
    size: u64,
}

impl Region {
    fn size(&self) -> u64 {
        self.size
    }
}

impl GicV3Controller {
    /// A controller with one fresh ITS and one Redistributor a processor.
    pub fn new(config: GicV3Config, processors: &[u16], memory: Arc<dyn GuestMemory>) -> Self {
        let redistributors = processors
            .iter()
            .map(|number| (GicVcpuId::new(usize::from(*number)), RedistributorState))
            .collect();
        let state = ControllerState {
            its: BTreeMap::from([(ONLY, ItsState::new())]),
            redistributors,
            distributor: DistributorState,
            physical_spi_acknowledged: BTreeMap::new(),
            delivered: Vec::new(),
        };
        Self {
            inner: Inner {
                state: Lock::new(state),
                config,
                guest_memory: Some(memory),
            },
        }
    }

    /// What a device's message asks: the published `translate` of the one ITS.
    pub fn translate(&self, device: ItsDeviceId, event: EventId) -> VgicResult<(LpiId, GicVcpuId)> {
        self.inner.state.lock().its[&ONLY].translate(device, event)
    }

    /// The actions delivered since the last call.
    pub fn take_delivered(&self) -> Vec<Delivered> {
        std::mem::take(&mut self.inner.state.lock().delivered)
    }
}
