//! Draws a list, or an input, in Graphviz's language.
//!
//!     draw < LIST | dot -Tsvg > LIST.svg

use std::process::ExitCode;

use outside::tool::{finish, read_stdin};

fn main() -> ExitCode {
    finish("draw", read_stdin().and_then(|text| outside::dot::draw(&text)))
}
