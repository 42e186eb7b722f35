//! Links the archive with the C calls: `libhost.a` in the folder that
//! `ITS_ARCHIVE` names, as `tools/archive.sh host` makes it.

use std::path::Path;
use std::{env, process};

fn main() {
    println!("cargo::rerun-if-env-changed=ITS_ARCHIVE");
    let folder = env::var("ITS_ARCHIVE").unwrap_or_default();
    let archive = Path::new(&folder).join("libhost.a");
    println!("cargo::rerun-if-changed={}", archive.display());
    if !archive.is_absolute() || !archive.is_file() {
        println!(
            "cargo::error=no archive at `{}`: set ITS_ARCHIVE to the absolute path of the folder \
             that has libhost.a (tools/archive.sh host prints it)",
            archive.display()
        );
        process::exit(1);
    }
    println!("cargo::rustc-link-search=native={folder}");
    println!("cargo::rustc-link-lib=static=host");
}
