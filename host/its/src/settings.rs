//! What a unit is made with, beside its processors.

/// The rules that a unit follows; docs/HOSTS.md says what changes for a host.
#[derive(Clone, Copy, Debug, Default, Eq, PartialEq)]
#[non_exhaustive]
pub enum Profile {
    /// Those of the published program.
    #[default]
    Base,
    /// A device that is mapped again loses its pairs, a command that names one
    /// above 65535 is refused with 27, the queue is held while bit 63 of CBASER
    /// is 0, and a refused command stalls it: CREADR shows [`STALLED`], and an
    /// accepted CWRITER with [`RETRY`] or a new CBASER lets it go on.
    ///
    /// [`STALLED`]: crate::STALLED
    /// [`RETRY`]: crate::RETRY
    Strict,
    /// A number that this crate does not name, as [`Profile::of`] makes it. A
    /// unit that does not know it refuses the configuration with 1.
    Unnamed(u32),
}

impl Profile {
    /// The profile of a number.
    #[inline]
    pub const fn of(number: u32) -> Self {
        match number {
            0 => Self::Base,
            1 => Self::Strict,
            _ => Self::Unnamed(number),
        }
    }

    /// The number.
    #[inline]
    pub const fn number(self) -> u32 {
        match self {
            Self::Base => 0,
            Self::Strict => 1,
            Self::Unnamed(number) => number,
        }
    }
}

/// The settings of a unit. A configuration is refused with 1 unless each of them
/// is in its range. A later version may have more: [`Settings::new`] then gives
/// them the value with which a unit is what it was before.
#[derive(Clone, Copy, Debug, Eq, PartialEq)]
#[non_exhaustive]
pub struct Settings {
    /// The highest LPI: 8192 to 16777215.
    pub lpi_limit: u32,
    /// The most commands that one write may run: 1 to 1024.
    pub command_budget: u32,
    /// The frame in bytes: 65536 or 131072.
    pub frame_size: u32,
    /// Base, unless another is named.
    pub profile: Profile,
}

impl Settings {
    /// The settings of a base unit.
    #[inline]
    pub const fn new(lpi_limit: u32, command_budget: u32, frame_size: u32) -> Self {
        Self {
            lpi_limit,
            command_budget,
            frame_size,
            profile: Profile::Base,
        }
    }

    /// The same with this profile.
    #[inline]
    #[must_use]
    pub const fn profile(mut self, profile: Profile) -> Self {
        self.profile = profile;
        self
    }

    /// The row of include/its.h, each setting at its place.
    #[inline]
    pub(crate) const fn row(&self) -> [u32; 4] {
        [
            self.lpi_limit,
            self.command_budget,
            self.frame_size,
            self.profile.number(),
        ]
    }
}

#[cfg(test)]
mod tests {
    use super::Profile;

    #[test]
    fn a_number_comes_back_as_it_was() {
        for number in [0, 1, 2, 255, 256, u32::MAX] {
            let profile = Profile::of(number);
            assert_eq!(profile.number(), number);
            assert_eq!(matches!(profile, Profile::Unnamed(_)), number > 1);
        }
    }
}
