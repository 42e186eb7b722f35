//! Numbers of different kinds, kept apart.

/// The number of a device.
#[derive(Clone, Copy, Debug, Eq, Ord, PartialEq, PartialOrd)]
pub struct DeviceId(pub u32);

/// The number of an event of a device.
#[derive(Clone, Copy, Debug, Eq, Ord, PartialEq, PartialOrd)]
pub struct EventId(pub u32);

/// The number of a collection.
#[derive(Clone, Copy, Debug, Eq, Ord, PartialEq, PartialOrd)]
pub struct CollectionId(pub u16);

/// The number of an LPI, the interrupt that a message becomes.
#[derive(Clone, Copy, Debug, Eq, Ord, PartialEq, PartialOrd)]
pub struct Lpi(pub u32);

/// The number of a processor.
#[derive(Clone, Copy, Debug, Eq, Ord, PartialEq, PartialOrd)]
#[repr(transparent)]
pub struct Processor(pub u16);

/// Guest memory lent for one call: bytes, and the guest address of the first.
#[derive(Clone, Copy, Debug)]
pub struct Window<'a> {
    pub address: u64,
    pub bytes: &'a [u8],
}

/// What INT or CLEAR asks of the host: an LPI of a processor made pending, or
/// not pending.
#[derive(Clone, Copy, Debug, Default, Eq, PartialEq)]
#[repr(transparent)]
pub struct Action(u64);

impl Action {
    #[inline]
    pub fn lpi(self) -> Lpi {
        Lpi(self.0 as u32)
    }

    #[inline]

    pub fn processor(self) -> Processor {
        Processor((self.0 >> 32) as u16)
    }

    #[inline]

    pub fn pending(self) -> bool {
        self.0 >> 48 & 1 == 1
    }
}
