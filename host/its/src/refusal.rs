//! Why a call is refused: document 01's numbers, and document 02's for a refused
//! command.

use core::fmt;

use crate::calls::Answer;

/// The refusals from one table: what a refusal is for the host's author, its
/// name, its number, and the reason in words for the author of the guest's driver.
macro_rules! refusals {
    ($($(#[$doc:meta])* $name:ident = $number:literal, $text:literal;)*) => {
        /// Why a call was refused.
        #[derive(Clone, Copy, Debug, Eq, PartialEq)]
        #[non_exhaustive]
        pub enum Refusal {
            $($(#[$doc])* $name,)*
            /// A number that this crate does not name: the archive is of another
            /// version.
            Unnamed(u64),
        }

        impl Refusal {
            #[inline]
            pub(crate) fn of(number: u64) -> Result<(), Self> {
                Err(match number {
                    0 => return Ok(()),
                    $($number => Self::$name,)*
                    _ => Self::Unnamed(number),
                })
            }

            /// The number.
            #[inline]
            pub fn number(self) -> u64 {
                match self {
                    $(Self::$name => $number,)*
                    Self::Unnamed(number) => number,
                }
            }

            /// The reason in words, for the author of the guest's driver.
            pub fn text(self) -> &'static str {
                match self {
                    $(Self::$name => $text,)*
                    Self::Unnamed(_) => "a number that this version does not name",
                }
            }
        }
    };
}

refusals! {
    /// The settings are not allowed; or the unit is not configured, or its
    /// numbers are of another layout or of no unit.
    Unsound = 1, "the settings are not allowed; or the unit is not configured, or its numbers are of another layout or of no unit";
    /// No such access: its width, alignment, or place.
    InvalidAccess = 2, "no register takes an access of this width at this place";
    /// An identification register, which the host answers itself.
    Identification = 3, "an identification register: the host answers it";
    /// CBASER with a queue at address 0.
    BaseZero = 4, "the queue's address in CBASER is 0";
    /// More commands wait than the budget allows.
    BudgetExceeded = 5, "more commands wait than one write may run";
    /// A command is not wholly in the window.
    NotInWindow = 6, "the command lies outside the guest memory that was lent";
    /// An offset for CWRITER that is no place of the queue.
    WriterRefused = 7, "CWRITER's offset is not a multiple of 32 below the queue's size, or CBASER is not set";
    /// INT, CLEAR or a message: the pair does not translate.
    ResourceNotFound = 8, "the device's event is not mapped, or its collection is not";
    /// A command needs a new record, and its table is full.
    TableFull = 9, "the table is full: 32 devices, 32 collections or 256 events are mapped";
    /// The row has less room than the budget.
    RowTooShort = 10, "the row for actions is shorter than the budget";
    /// A command that this unit does not have.
    OpcodeUnknown = 20, "this unit has no command with that opcode";
    /// MAPTI, MAPI: the LPI is below 8192 or above the limit.
    LpiOutOfRange = 21, "the LPI (of MAPI, its event) is below 8192 or above the configured limit";
    /// MAPTI, MAPI: the device is not mapped.
    DeviceUnmapped = 22, "the device is not mapped: MAPD with V 1 comes first";
    /// MAPTI, MAPI: the event does not fit the device.
    EventBeyondBits = 23, "the event is too large for the device: its MAPD gave Size, and events lie below 2^(Size + 1)";
    /// MAPTI, MAPI, MOVI, INVALL: the collection is not mapped.
    CollectionUnmapped = 24, "the collection is not mapped: MAPC with V 1 comes first";
    /// MOVI, DISCARD, INV: the device's event is not mapped.
    PairUnmapped = 25, "the device's event is not mapped: MAPTI or MAPI comes first";
    /// MAPC: the processor is not of this unit.
    ProcessorUnlisted = 26, "the processor is none of those that the unit was configured with";
    /// Strict only, before any other check of a command: it names a device above
    /// 65535.
    DeviceTooLarge = 27, "the device's number is above 65535, the highest that TYPER announces";
}

impl fmt::Display for Refusal {
    fn fmt(&self, f: &mut fmt::Formatter<'_>) -> fmt::Result {
        write!(f, "refused with {}: {}", self.number(), self.text())
    }
}

impl core::error::Error for Refusal {}

/// A write that was refused, and how far its run went. What it handed over is to
/// be delivered all the same: see [`Its::write`](crate::Its::write).
#[derive(Clone, Copy, Debug, Eq, PartialEq)]
pub struct WriteRefused {
    pub refusal: Refusal,
    /// The opcode of the refused command; 0 where there is none.
    pub opcode: u8,
    /// CREADR, where a command was refused or too many wait (5); the offset
    /// taken, of a refused CWRITER; else 0.
    pub offset: u64,
    /// The commands carried out before.
    pub done: u64,
    /// How many actions of these were handed over.
    pub actions: usize,
}

impl WriteRefused {
    /// Whether a command was refused. It changed nothing and CREADR stands on it;
    /// those before it were carried out, and their actions handed over.
    #[inline]
    pub fn is_of_a_command(&self) -> bool {
        matches!(self.refusal.number(), 6 | 8 | 9 | 20..=27)
    }

    #[inline]
    pub(crate) fn of(answer: &Answer) -> Result<(), Self> {
        Refusal::of(answer.refusal()).map_err(|refusal| Self {
            refusal,
            opcode: answer.opcode(),
            offset: answer.offset(),
            done: answer.done(),
            actions: answer.actions(),
        })
    }
}

impl fmt::Display for WriteRefused {
    fn fmt(&self, f: &mut fmt::Formatter<'_>) -> fmt::Result {
        if self.is_of_a_command() {
            write!(f, "command at {:#x} of the queue, ", self.offset)?;
            // One that could not be read has no opcode.
            if self.refusal != Refusal::NotInWindow {
                write!(f, "opcode {:#04x}, ", self.opcode)?;
            }
        }
        write!(f, "{}", self.refusal)
    }
}

impl core::error::Error for WriteRefused {}

#[cfg(test)]
mod tests {
    use super::Refusal;

    #[test]
    fn a_number_comes_back_as_it_was() {
        assert_eq!(Refusal::of(0), Ok(()));
        for number in 1..300 {
            let refusal = Refusal::of(number).unwrap_err();
            assert_eq!(refusal.number(), number);
            let named = matches!(number, 1..=10 | 20..=27);
            assert_eq!(matches!(refusal, Refusal::Unnamed(_)), !named);
        }
    }
}
