//! The second mapping program (request 107) by the independent mapper: standard input to standard output.

use std::process::ExitCode;

use outside::tool::{finish, read_stdin};

fn main() -> ExitCode {
    finish("map_fast", read_stdin().map(|input| outside::fast_program::print(&input)))
}
