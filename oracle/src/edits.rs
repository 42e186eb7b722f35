//! Edits of the published Rust that the generated traces must tell from it.

use std::fs;
use std::path::Path;

const MOD: &str = "src--src--its--mod.rs.txt";
const COMMAND: &str = "src--src--its--command.rs.txt";
const MMIO: &str = "src--src--controller--mmio.rs.txt";

struct Edit {
    name: &'static str,
    file: &'static str,
    from: &'static str,
    to: &'static str,
}

const EDITS: [Edit; 15] = [
    Edit {
        name: "queue-distance",
        file: MOD,
        from: "size - reader + writer",
        to: "reader - writer",
    },
    Edit {
        name: "lpi-limit",
        file: COMMAND,
        from: "raw > limit",
        to: "raw >= limit",
    },
    // Refused either way: which check is told shows this one, as it does for the
    // other edits of an order.
    Edit {
        name: "movi-tests-pair-first",
        file: COMMAND,
        from: "        self.require_collection(collection, 0x01, offset)?;
        let translation = self
",
        to: "        self.require_device_event(device, event, 0x01, offset)?;
        self.require_collection(collection, 0x01, offset)?;
        let translation = self
",
    },
    // Its checks stay in their order, so that only what it stored shows this one.
    Edit {
        name: "movi-stores-before-its-test",
        file: COMMAND,
        from: "        self.require_collection(collection, 0x01, offset)?;
        let translation = self
            .translations
            .get_mut(&(device, event))
            .ok_or_else(|| invalid_mapping(0x01, offset, device, event))?;
        translation.collection = collection;
",
        to: "        if let Some(translation) = self.translations.get_mut(&(device, event)) {
            translation.collection = collection;
        }
        self.require_collection(collection, 0x01, offset)?;
        self.require_device_event(device, event, 0x01, offset)?;
",
    },
    Edit {
        name: "mapti-tests-device-first",
        file: COMMAND,
        from: "                let lpi = checked_lpi((words[1] >> 32) as u32, lpi_limit, opcode, offset)?;
",
        to: "                self.require_device_event_capacity(device, event, opcode, offset)?;
                let lpi = checked_lpi((words[1] >> 32) as u32, lpi_limit, opcode, offset)?;
",
    },
    Edit {
        name: "mapping-tests-collection-first",
        file: COMMAND,
        from: "        self.require_device_event_capacity(device, event, opcode, offset)?;
        let collection = CollectionId::new(words[2] as u16);
        self.require_collection(collection, opcode, offset)?;
",
        to: "        let collection = CollectionId::new(words[2] as u16);
        self.require_collection(collection, opcode, offset)?;
        self.require_device_event_capacity(device, event, opcode, offset)?;
",
    },
    Edit {
        name: "mapc-keeps-translations",
        file: COMMAND,
        from: "            self.translations
                .retain(|_, translation| translation.collection != collection);
",
        to: "",
    },
    Edit {
        name: "cbaser-while-enabled",
        file: MMIO,
        from: "                        if !its.enabled() {
                            its.set_cbaser(merged)?;
                        }
",
        to: "                        its.set_cbaser(merged)?;
",
    },
    Edit {
        name: "second-mapd-drops-translations",
        file: COMMAND,
        from: "            self.devices.insert(device, ItsDevice { event_bits });
",
        to: "            if self.devices.insert(device, ItsDevice { event_bits }).is_some() {
                self.translations
                    .retain(|(mapped_device, _), _| *mapped_device != device);
            }
",
    },
    Edit {
        name: "event-one-beyond-the-bits",
        file: COMMAND,
        from: "event.raw() >= (1u32 << entry.event_bits)",
        to: "event.raw() > (1u32 << entry.event_bits)",
    },
    Edit {
        name: "budget-one-less",
        file: MOD,
        from: "command_count as usize > budget",
        to: "command_count as usize >= budget",
    },
    Edit {
        name: "address-cut-to-52-bits",
        file: MOD,
        from: ".read(base + offset, &mut bytes)",
        to: ".read((base + offset) & 0x000f_ffff_ffff_ffff, &mut bytes)",
    },
    Edit {
        name: "writer-not-cut-to-20-bits",
        file: MOD,
        from: "let writer = writer & (MAX_QUEUE_SIZE - 1);",
        to: "",
    },
    Edit {
        name: "cbaser-keeps-the-writer",
        file: MOD,
        from: "        self.creadr = 0;
        self.cwriter = 0;
        Ok(())
",
        to: "        self.creadr = 0;
        Ok(())
",
    },
    // Retry, which a base unit does not have.
    Edit {
        name: "writer-takes-retry-off",
        file: MOD,
        from: "        if self.cbaser == 0 {
            if writer == 0 {
",
        to: "        let writer = writer & !1;
        if self.cbaser == 0 {
            if writer == 0 {
",
    },
];

/// The names of the edits, one a line.
pub fn names() -> String {
    EDITS
        .iter()
        .map(|edit| format!("{}\n", edit.name))
        .collect()
}

/// Copies the published files from one folder to another with one edit made.
pub fn make(name: &str, from: &Path, to: &Path) -> Result<(), String> {
    let edit = EDITS.iter().find(|edit| edit.name == name);
    let edit = edit.ok_or_else(|| format!("no edit is named {name}"))?;
    fs::create_dir_all(to).map_err(|error| format!("{}: {error}", to.display()))?;
    for file in [MOD, COMMAND, MMIO] {
        let path = from.join(file);
        let mut text =
            fs::read_to_string(&path).map_err(|error| format!("{}: {error}", path.display()))?;
        if file == edit.file {
            if text.matches(edit.from).count() != 1 {
                return Err(format!("{name}: its place in {file} is not found once"));
            }
            text = text.replace(edit.from, edit.to);
        }
        let path = to.join(file);
        fs::write(&path, text).map_err(|error| format!("{}: {error}", path.display()))?;
    }
    Ok(())
}
