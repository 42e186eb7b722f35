//! Links the archive with the trace, beside the one for hosts: `libtrace.a` in
//! the folder that `ITS_ARCHIVE` names.

use std::env;

fn main() {
    println!("cargo::rerun-if-env-changed=ITS_ARCHIVE");
    let folder = env::var("ITS_ARCHIVE").unwrap_or_default();
    println!("cargo::rerun-if-changed={folder}/libtrace.a");
    println!("cargo::rustc-link-search=native={folder}");
    println!("cargo::rustc-link-lib=static=trace");
}
