//! An independent implementation of Pailinstant's paper 01 and the change requests of 02, written from the papers alone: it shares nothing
//! with the proved code.
//!
//! `program::map` answers a whole input as the mapping program has to. 01 leaves free which least cover is taken and in which order
//! its tables stand, so another mapper's list is not compared with ours: `check::check_list` tests it against the input.

pub mod adding;
pub mod blif;
pub mod call_cases;
pub mod call_check;
pub mod check;
pub mod cover;
pub mod dot;
pub mod exhaustive;
pub mod explain;
pub mod fast;
pub mod fast_cases;
pub mod fast_check;
pub mod fast_program;
#[cfg(feature = "fuzz")]
pub mod fuzz;
pub mod generate;
pub mod join;
pub mod least;
pub mod level;
#[cfg(feature = "linked")]
pub mod linked;
pub mod list;
pub mod list_cases;
pub mod list_check;
pub mod one_more;
pub mod part;
pub mod program;
pub mod refusal;
pub mod reservation;
pub mod rng;
pub mod samples;
pub mod set;
pub mod set_cases;
pub mod set_check;
pub mod sheet;
pub mod text;
pub mod tool;

/// The greatest net.
pub const NETS: i64 = 9_999;
/// Gate g is the fanin `CODES + g`, table t the input `CODES + t`.
pub const CODES: i64 = 10_000;
/// The most gates of a sheet.
pub const GATES: usize = 255;
/// The most leaves of a sheet.
pub const LEAVES: usize = 256;
/// The most fanins of a gate.
pub const FANINS: usize = 10;
/// The most inputs of a table.
pub const INPUTS: usize = 6;
/// The most tables of a part.
pub const TABLES: usize = 800;
