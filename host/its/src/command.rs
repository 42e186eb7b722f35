//! The commands of a queue, made from their fields: 32 bytes each, as a guest
//! writes them. A host needs them for tests and for queues of its own.

use crate::{CollectionId, DeviceId, EventId, Lpi, Processor};

/// A command as it stands in the queue.
pub type Command = [u8; 32];

const VALID: u64 = 1 << 63;

fn command(words: [u64; 4]) -> Command {
    let mut bytes = [0; 32];
    for (place, word) in bytes.chunks_exact_mut(8).zip(words) {
        place.copy_from_slice(&word.to_le_bytes());
    }
    bytes
}

fn of_device(opcode: u64, device: DeviceId) -> u64 {
    opcode | u64::from(device.0) << 32
}

fn of_pair(opcode: u64, device: DeviceId, event: EventId, collection: u64) -> Command {
    command([of_device(opcode, device), u64::from(event.0), collection, 0])
}

/// Maps a device, with so many event bits: 1 to 32.
pub fn mapd(device: DeviceId, event_bits: u8) -> Command {
    let size = u64::from(event_bits.wrapping_sub(1) & 31);
    command([of_device(0x08, device), size, VALID, 0])
}

/// Unmaps a device, and with it all its translations.
pub fn unmapd(device: DeviceId) -> Command {
    command([of_device(0x08, device), 0, 0, 0])
}

/// Maps a collection to a processor.
pub fn mapc(collection: CollectionId, processor: Processor) -> Command {
    let target = u64::from(processor.0) << 16;
    command([0x09, 0, VALID | target | u64::from(collection.0), 0])
}

/// Unmaps a collection, and with it all its translations.
pub fn unmapc(collection: CollectionId) -> Command {
    command([0x09, 0, u64::from(collection.0), 0])
}

/// Maps a device and an event to an LPI of a collection.
pub fn mapti(device: DeviceId, event: EventId, lpi: Lpi, collection: CollectionId) -> Command {
    let second = u64::from(event.0) | u64::from(lpi.0) << 32;
    command([of_device(0x0a, device), second, u64::from(collection.0), 0])
}

/// The same, with the LPI of the event's number.
pub fn mapi(device: DeviceId, event: EventId, collection: CollectionId) -> Command {
    of_pair(0x0b, device, event, u64::from(collection.0))
}

/// Moves a pair to another collection.
pub fn movi(device: DeviceId, event: EventId, collection: CollectionId) -> Command {
    of_pair(0x01, device, event, u64::from(collection.0))
}

/// Makes the LPI of a pair pending.
pub fn int(device: DeviceId, event: EventId) -> Command {
    of_pair(0x03, device, event, 0)
}

/// Makes it not pending.
pub fn clear(device: DeviceId, event: EventId) -> Command {
    of_pair(0x04, device, event, 0)
}

/// Drops a pair.
pub fn discard(device: DeviceId, event: EventId) -> Command {
    of_pair(0x0f, device, event, 0)
}

/// Has what is cached of a pair read again; the unit caches nothing.
pub fn inv(device: DeviceId, event: EventId) -> Command {
    of_pair(0x0c, device, event, 0)
}

/// The same of a collection.
pub fn invall(collection: CollectionId) -> Command {
    command([0x0d, 0, u64::from(collection.0), 0])
}

/// Ends a run of commands.
pub fn sync(processor: Processor) -> Command {
    command([0x05, 0, u64::from(processor.0) << 16, 0])
}
