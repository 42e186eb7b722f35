//! The number types that the published files use, one kind for each number.

use crate::VgicResult;

macro_rules! number {
    ($(#[$doc:meta])* $name:ident($raw:ty)) => {
        $(#[$doc])*
        #[derive(Clone, Copy, Debug, Eq, Ord, PartialEq, PartialOrd)]
        pub struct $name($raw);

        impl $name {
            pub const fn new(raw: $raw) -> Self {
                Self(raw)
            }

            pub const fn raw(self) -> $raw {
                self.0
            }
        }
    };
}

number!(
    /// A device number.
    ItsDeviceId(u32)
);
number!(
    /// An event number of a device.
    EventId(u32)
);
number!(
    /// A collection number.
    CollectionId(u16)
);
number!(
    /// A processor number.
    GicVcpuId(usize)
);

/// An LPI. Its range is tested by the published code before it makes one.
#[derive(Clone, Copy, Debug, Eq, Ord, PartialEq, PartialOrd)]
pub struct LpiId(u32);

impl LpiId {
    pub const fn new(raw: u32) -> VgicResult<Self> {
        Ok(Self(raw))
    }

    pub const fn raw(self) -> u32 {
        self.0
    }
}

/// The number of an ITS instance; the oracle has only number 0.
#[derive(Clone, Copy, Debug, Eq, Ord, PartialEq, PartialOrd)]
pub struct ItsId(usize);

impl ItsId {
    pub const fn new(value: usize) -> Self {
        Self(value)
    }

    pub const fn value(self) -> usize {
        self.0
    }
}

/// The widths of an access that the crate knows.
#[derive(Clone, Copy, Debug, Eq, PartialEq)]
pub enum AccessWidth {
    Byte,
    Word,
    Dword,
    Qword,
}

impl AccessWidth {
    pub const fn size(self) -> usize {
        match self {
            Self::Byte => 1,
            Self::Word => 2,
            Self::Dword => 4,
            Self::Qword => 8,
        }
    }
}
