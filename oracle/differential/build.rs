//! Links the archive with the C call: `libtrace.a` in the folder that
//! `ITS_ARCHIVE` names, as `tools/archive.sh trace` makes it.

use std::path::Path;
use std::{env, process};

fn main() {
    println!("cargo::rerun-if-env-changed=ITS_ARCHIVE");
    let folder = env::var("ITS_ARCHIVE").unwrap_or_default();
    let archive = Path::new(&folder).join("libtrace.a");
    println!("cargo::rerun-if-changed={}", archive.display());
    if !archive.is_absolute() || !archive.is_file() {
        println!(
            "cargo::error=no archive at `{}`: set ITS_ARCHIVE to the absolute path of the folder \
             that has libtrace.a (tools/archive.sh trace prints it)",
            archive.display()
        );
        process::exit(1);
    }
    println!("cargo::rustc-link-search=native={folder}");
    println!("cargo::rustc-link-lib=static=trace");
}
