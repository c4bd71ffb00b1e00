//! The mapping program by the independent mapper: standard input to standard output.

use std::process::ExitCode;

use outside::tool::{finish, read_stdin};

fn main() -> ExitCode {
    finish("map", read_stdin().map(|input| outside::program::print(&input)))
}
