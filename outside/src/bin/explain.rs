//! Says in words what a mapping program printed for an input.
//!
//!     explain INPUT < PRINTED

use std::process::ExitCode;

use outside::tool::{finish, read_file, read_stdin};

fn explained() -> Result<String, String> {
    let file = std::env::args().nth(1).ok_or("usage: explain INPUT < PRINTED")?;
    outside::explain::explain(&read_file(&file)?, &read_stdin()?)
}

fn main() -> ExitCode {
    finish("explain", explained())
}
