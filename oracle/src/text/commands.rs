//! Commands by name and fields.

use super::numbers::number;
use crate::command::{self, VALID};
use crate::fields::{
    CLEAR, DISCARD, Fields, INT, INV, INVALL, MAPC, MAPD, MAPI, MAPTI, MOVI, SYNC, Words,
};

/// The bits of w2 in which a MAPD gives the address of its table.
const ITT: u64 = 0x000f_ffff_ffff_ff00;

const NAMES: [&str; 11] = [
    "mapd", "mapc", "mapti", "mapi", "movi", "int", "clear", "discard", "inv", "invall", "sync",
];

/// The words of a named command, or none if no command has that name.
pub fn words_of(name: &str, rest: &[&str]) -> Result<Option<Words>, String> {
    if !NAMES.contains(&name) {
        return Ok(None);
    }
    let mut given = Given::of(rest)?;
    let words = match name {
        "mapd" => mapd(&mut given)?,
        "mapc" => {
            let collection = given.needed("collection")?;
            let processor = given.optional("processor")?;
            if given.valid()? {
                command::mapc(collection, processor.ok_or("processor= is missing")?)
            } else {
                let mut words = command::mapc(collection, processor.unwrap_or(0));
                words[2] &= !VALID;
                words
            }
        }
        "mapti" => command::mapti(
            given.needed("device")?,
            given.needed("event")?,
            given.needed("lpi")?,
            given.needed("collection")?,
        ),
        "mapi" | "movi" => {
            let make = if name == "mapi" {
                command::mapi
            } else {
                command::movi
            };
            make(
                given.needed("device")?,
                given.needed("event")?,
                given.needed("collection")?,
            )
        }
        "int" => given.pair(command::int)?,
        "clear" => given.pair(command::clear)?,
        "discard" => given.pair(command::discard)?,
        "inv" => given.pair(command::inv)?,
        "invall" => command::invall(given.needed("collection")?),
        _ => command::sync(given.optional("processor")?.unwrap_or(0)),
    };
    given.all_taken(name)?;
    Ok(Some(words))
}

fn mapd(given: &mut Given) -> Result<Words, String> {
    let device = given.needed("device")?;
    let bits: Option<u8> = given.optional("bits")?;
    let itt: u64 = given.optional("itt")?.unwrap_or(0);
    let valid = given.valid()?;
    let bits = match bits {
        Some(bits) if (1..=32).contains(&bits) => bits,
        Some(bits) => return Err(format!("bits={bits} is not between 1 and 32")),
        None if valid => return Err("bits= is missing".into()),
        None => 1,
    };
    if itt & !ITT != 0 {
        return Err(format!("itt={itt:#x} is not a 52-bit multiple of 256"));
    }
    let mut words = command::mapd(device, bits);
    words[2] = itt | if valid { VALID } else { 0 };
    Ok(words)
}

/// The fields that a line gives, until each is taken.
struct Given<'a>(Vec<(&'a str, &'a str)>);

impl<'a> Given<'a> {
    fn of(words: &[&'a str]) -> Result<Self, String> {
        let mut fields: Vec<(&str, &str)> = Vec::new();
        for word in words {
            let (name, value) = word
                .split_once('=')
                .ok_or_else(|| format!("`{word}` is not of the form field=number"))?;
            if fields.iter().any(|(other, _)| *other == name) {
                return Err(format!("{name}= is given twice"));
            }
            fields.push((name, value));
        }
        Ok(Self(fields))
    }

    fn optional<T: TryFrom<u64>>(&mut self, name: &str) -> Result<Option<T>, String> {
        let Some(at) = self.0.iter().position(|(given, _)| *given == name) else {
            return Ok(None);
        };
        let (_, value) = self.0.remove(at);
        match number(value) {
            Ok(value) => Ok(Some(value)),
            Err(reason) => Err(format!("{name}=: {reason}")),
        }
    }

    fn needed<T: TryFrom<u64>>(&mut self, name: &str) -> Result<T, String> {
        self.optional(name)?
            .ok_or_else(|| format!("{name}= is missing"))
    }

    fn valid(&mut self) -> Result<bool, String> {
        match self.optional::<u8>("valid")? {
            None | Some(1) => Ok(true),
            Some(0) => Ok(false),
            Some(other) => Err(format!("valid={other} is neither 0 nor 1")),
        }
    }

    fn pair(&mut self, make: fn(u32, u32) -> Words) -> Result<Words, String> {
        Ok(make(self.needed("device")?, self.needed("event")?))
    }

    fn all_taken(&self, command: &str) -> Result<(), String> {
        match self.0.first() {
            None => Ok(()),
            Some((name, _)) => Err(format!("{command} has no field {name}=")),
        }
    }
}

/// The named form if it says these words exactly, else the words.
pub fn show(words: &Words) -> String {
    if let Some(named) = named(words) {
        let parts: Vec<&str> = named.split(' ').collect();
        if words_of(parts[0], &parts[1..]) == Ok(Some(*words)) {
            return named;
        }
    }
    let [w0, w1, w2, w3] = words;
    format!("words {w0:#x} {w1:#x} {w2:#x} {w3:#x}")
}

/// The named form of the fields that a command of this opcode has.
fn named(words: &Words) -> Option<String> {
    let Fields {
        opcode,
        device,
        event,
        lpi,
        bits,
        collection,
        processor,
        valid,
    } = Fields::of(words);
    let pair = format!("device={device} event={event}");
    Some(match opcode {
        MAPD => {
            let mut text = format!("mapd device={device}");
            if valid || bits != 1 {
                text += &format!(" bits={bits}");
            }
            if words[2] & ITT != 0 {
                text += &format!(" itt={:#x}", words[2] & ITT);
            }
            text + if valid { "" } else { " valid=0" }
        }
        MAPC if valid => format!("mapc collection={collection} processor={processor}"),
        MAPC if processor == 0 => format!("mapc collection={collection} valid=0"),
        MAPC => format!("mapc collection={collection} processor={processor} valid=0"),
        MAPTI => format!("mapti {pair} lpi={lpi} collection={collection}"),
        MAPI => format!("mapi {pair} collection={collection}"),
        MOVI => format!("movi {pair} collection={collection}"),
        INT => format!("int {pair}"),
        CLEAR => format!("clear {pair}"),
        DISCARD => format!("discard {pair}"),
        INV => format!("inv {pair}"),
        INVALL => format!("invall collection={collection}"),
        SYNC if processor == 0 => "sync".into(),
        SYNC => format!("sync processor={processor}"),
        _ => return None,
    })
}
