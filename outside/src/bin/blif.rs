//! Writes an input and its list as two BLIF files, for `cec` of berkeley-abc.
//!
//!     blif INPUT LIST DRAWN.blif MAPPED.blif

use std::process::ExitCode;

use outside::tool::{finish, read_file, write_file};

fn written() -> Result<String, String> {
    let arguments: Vec<String> = std::env::args().skip(1).collect();
    let [input, list, drawn, mapped] = &arguments[..] else { return Err("usage: blif INPUT LIST DRAWN.blif MAPPED.blif".into()) };
    let (gates, tables) = outside::blif::networks(&read_file(input)?, &read_file(list)?)?;
    write_file(drawn, gates.as_bytes())?;
    write_file(mapped, tables.as_bytes())?;
    Ok(String::new())
}

fn main() -> ExitCode {
    finish("blif", written())
}
