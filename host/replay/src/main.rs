//! The program `replay`: the lines of the traces named, or of standard input.

use std::io::{self, Read, Write};
use std::{env, fs};

fn main() -> io::Result<()> {
    let mut out = io::stdout().lock();
    let files: Vec<String> = env::args().skip(1).collect();
    if files.is_empty() {
        let mut trace = Vec::new();
        io::stdin().read_to_end(&mut trace)?;
        return out.write_all(&replay::replay(&trace));
    }
    for file in files {
        out.write_all(&replay::replay(&fs::read(file)?))?;
    }
    Ok(())
}
