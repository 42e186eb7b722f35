//! The C calls of include/its.h.

use crate::{Action, Delivery, DeviceId, EventId, Lpi, Processor, WORDS, Window};

unsafe extern "C" {
    fn its_configure(
        unit: *mut u64,
        settings: *const u32,
        setting_count: usize,
        processors: *const u16,
        processor_count: usize,
        told: *mut u64,
    ) -> u64;
    fn its_read(unit: *const u64, offset: u64, width: u8, told: *mut u64) -> u64;
    fn its_write(
        unit: *mut u64,
        address: u64,
        window: *const u8,
        window_length: usize,
        row: *mut u64,
        row_length: usize,
        offset: u64,
        width: u8,
        value: u64,
        told: *mut u64,
    ) -> u64;
    fn its_translate(unit: *const u64, device: u32, event: u32, told: *mut u64) -> u64;
}

/// The five numbers of an answer: those of the line that a trace gets.
pub(crate) struct Answer([u64; 5]);

impl Answer {
    #[inline]
    pub fn refusal(&self) -> u64 {
        self.0[0]
    }

    #[inline]

    pub fn value(&self) -> u64 {
        self.0[1]
    }

    #[inline]

    pub fn opcode(&self) -> u8 {
        self.0[1] as u8
    }

    #[inline]

    pub fn offset(&self) -> u64 {
        self.0[2]
    }

    #[inline]

    pub fn done(&self) -> u64 {
        self.0[3]
    }

    #[inline]

    pub fn actions(&self) -> usize {
        self.0[4] as usize
    }

    #[inline]

    pub fn delivery(&self) -> Delivery {
        Delivery {
            lpi: Lpi(self.0[1] as u32),
            processor: Processor(self.0[2] as u16),
        }
    }
}

// In each call: every pointer is to memory that lives through the call and is of
// the length that goes with it, the lent mutable parts do not overlap each other
// or anything else, and the call keeps no pointer.

#[inline]

pub(crate) fn configure(
    unit: &mut [u64; WORDS],
    settings: &[u32],
    processors: &[Processor],
) -> Answer {
    let mut told = [0; 5];
    unsafe {
        its_configure(
            unit.as_mut_ptr(),
            settings.as_ptr(),
            settings.len(),
            // A tuple of one number has the number's layout.
            processors.as_ptr().cast(),
            processors.len(),
            told.as_mut_ptr(),
        )
    };
    Answer(told)
}

#[inline]

pub(crate) fn read(unit: &[u64; WORDS], offset: u64, width: u8) -> Answer {
    let mut told = [0; 5];
    unsafe { its_read(unit.as_ptr(), offset, width, told.as_mut_ptr()) };
    Answer(told)
}

#[inline]

pub(crate) fn write(
    unit: &mut [u64; WORDS],
    window: Window<'_>,
    row: &mut [Action],
    offset: u64,
    width: u8,
    value: u64,
) -> Answer {
    let mut told = [0; 5];
    unsafe {
        its_write(
            unit.as_mut_ptr(),
            window.address,
            window.bytes.as_ptr(),
            window.bytes.len(),
            row.as_mut_ptr().cast(),
            row.len(),
            offset,
            width,
            value,
            told.as_mut_ptr(),
        )
    };
    Answer(told)
}

#[inline]

pub(crate) fn translate(unit: &[u64; WORDS], device: DeviceId, event: EventId) -> Answer {
    let mut told = [0; 5];
    unsafe { its_translate(unit.as_ptr(), device.0, event.0, told.as_mut_ptr()) };
    Answer(told)
}

#[cfg(test)]
mod tests {
    use super::configure;
    use crate::{LAYOUT, Processor, WORDS};

    const ROOM: usize = 40;

    /// The words that a configuration with the first settings of this row leaves,
    /// or none where it is refused, with 1.
    fn configured(settings: &[u32]) -> Option<[u64; WORDS]> {
        let mut unit = [u64::MAX; WORDS];
        match configure(&mut unit, settings, &[Processor(0)]).refusal() {
            0 => Some(unit),
            refusal => {
                assert_eq!(refusal, 1);
                None
            }
        }
    }

    #[test]
    fn a_setting_left_out_is_0_and_one_beyond_must_be() {
        let mut row = [0; ROOM];
        row[..3].copy_from_slice(&[65_535, 64, 65_536]);
        let base = configured(&row[..3]).expect("the profile is left out");
        assert_eq!(base[..5], [LAYOUT, 65_535, 64, 65_536, 0]);
        for count in 4..=ROOM {
            assert_eq!(configured(&row[..count]), Some(base));
            let mut more = row;
            more[count - 1] = 1;
            // The fourth is the profile, and 1 is strict; those behind it have no
            // meaning yet.
            assert_eq!(configured(&more[..count]).is_some(), count == 4);
        }
        for count in 0..3 {
            assert_eq!(configured(&row[..count]), None, "0 is outside the sizes");
        }
    }

    #[test]
    fn only_two_profiles() {
        // 256 and 257 are 0 and 1 in their lowest byte.
        for profile in [2, 255, 256, 257, 1 << 16, 1 << 31, u32::MAX] {
            assert_eq!(configured(&[65_535, 64, 65_536, profile]), None);
        }
    }
}
