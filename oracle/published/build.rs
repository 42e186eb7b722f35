//! Copies the published sources, byte for byte, into the layout they expect.
//!
//! They are taken from the folder that `ARM_VGIC_SOURCES` names, else from
//! `../../shared/docs` as seen from the folder `oracle/`.

use std::path::{Path, PathBuf};
use std::{env, fs, process};

/// The name of each published file, and its place below `OUT_DIR`.
const SOURCES: [(&str, &str); 3] = [
    ("src--src--its--mod.rs.txt", "its/mod.rs"),
    ("src--src--its--command.rs.txt", "its/command.rs"),
    ("src--src--controller--mmio.rs.txt", "controller/mmio.rs"),
];

/// An included file resolves `mod` beside itself, so each of these one-line
/// files pulls in its neighbour without a path being written anywhere.
const MODULES: [(&str, &str); 2] = [
    ("its_module.rs", "mod its;\n"),
    ("controller/mmio_module.rs", "mod mmio;\n"),
];

fn main() {
    println!("cargo::rerun-if-env-changed=ARM_VGIC_SOURCES");
    let out = PathBuf::from(env::var_os("OUT_DIR").expect("cargo sets OUT_DIR"));
    let folder = source_folder();
    for (published, place) in SOURCES {
        let from = folder.join(published);
        println!("cargo::rerun-if-changed={}", from.display());
        let bytes = fs::read(&from).unwrap_or_else(|error| missing(&from, &error.to_string()));
        write(&out.join(place), &bytes);
    }
    for (place, text) in MODULES {
        write(&out.join(place), text.as_bytes());
    }
}

fn source_folder() -> PathBuf {
    match env::var_os("ARM_VGIC_SOURCES") {
        Some(folder) if !folder.is_empty() => PathBuf::from(folder),
        _ => {
            let here = env::var_os("CARGO_MANIFEST_DIR").expect("cargo sets CARGO_MANIFEST_DIR");
            Path::new(&here).join("../../../shared/docs")
        }
    }
}

fn write(place: &Path, bytes: &[u8]) {
    fs::create_dir_all(place.parent().expect("a place below OUT_DIR")).expect("make a folder");
    fs::write(place, bytes).expect("write below OUT_DIR");
}

fn missing(file: &Path, reason: &str) -> ! {
    println!(
        "cargo::error=the published Rust is not at hand: {} ({reason}). \
         Set ARM_VGIC_SOURCES to the folder that holds src--src--its--mod.rs.txt.",
        file.display()
    );
    process::exit(1);
}
