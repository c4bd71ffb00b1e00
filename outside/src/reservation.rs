//! Reservations (request 109): tables set aside for a sheet, and the calls on a part that may have some.

use crate::adding::{Accepted, Adding};
use crate::cover;
use crate::least::least;
use crate::part::Part;
use crate::refusal::Refusal;
use crate::set;
use crate::sheet::{read_only, Sheet};
use crate::NETS;

/// The number of tables set aside and the output net that they are for, both 0 where nothing is reserved.
#[derive(Clone, Copy, Debug, PartialEq, Eq)]
pub struct Reservation {
    pub tables: u16,
    pub net: u16,
}

impl Reservation {
    pub const NONE: Reservation = Reservation { tables: 0, net: 0 };

    /// Whether the part, sound by itself, is sound with this reservation.
    fn is_sound(self, part: &Part) -> bool {
        let within = usize::from(self.tables) <= part.left() && i64::from(self.net) <= NETS;
        within && (self.tables == 0) == (self.net == 0)
    }
}

/// A call that takes a part and hands one back. A reservation and a commit are of one sheet's text; `lengths` has the bytes of each sheet
/// of a set.
#[derive(Clone, Debug, PartialEq, Eq)]
pub enum Call {
    AddSet { text: Vec<u8>, lengths: Vec<u32> },
    Reserve { text: Vec<u8> },
    Commit { text: Vec<u8> },
    Withdraw,
}

impl Call {
    /// Whether its sheets' tables are added where it is accepted.
    pub fn adds(&self) -> bool {
        matches!(self, Call::AddSet { .. } | Call::Commit { .. })
    }
}

/// What an accepted call does: the sheets that it adds, where it is one that adds, and the reservation after it.
#[derive(Clone, Debug)]
pub struct Done {
    pub added: Option<Accepted>,
    pub reservation: Reservation,
}

/// A part, sound by itself, with its reservation.
#[derive(Clone, Debug, PartialEq, Eq)]
pub struct State {
    pub part: Part,
    pub reservation: Reservation,
}

impl State {
    /// What a call does, or its refusal.
    pub fn answer(&self, call: &Call) -> Result<Done, Refusal> {
        self.walk(call, least)
    }

    /// The part and its reservation after a call: a least cover of each sheet that it adds stands after the old tables.
    pub fn after(&self, call: &Call) -> Result<State, Refusal> {
        let mut tables = self.part.tables.clone();
        let done = self.walk(call, |sheet, k| cover::add(sheet, k, &mut tables))?;
        if done.added.is_none() {
            tables.truncate(self.part.tables.len());
        }
        Ok(State { part: Part { tables, ..self.part }, reservation: done.reservation })
    }

    /// Takes a call; `tables` gives how many tables a joined sheet takes at K.
    fn walk(&self, call: &Call, tables: impl FnMut(&Sheet, usize) -> usize) -> Result<Done, Refusal> {
        if !self.reservation.is_sound(&self.part) {
            return Err(placeless(20));
        }
        let open = self.reservation != Reservation::NONE;
        match (call, open) {
            (Call::AddSet { text, lengths }, _) => {
                let left = self.part.left() - usize::from(self.reservation.tables);
                let added = set::walk(&self.part, left, text, lengths, tables)?;
                Ok(Done { added: Some(added), reservation: self.reservation })
            }
            (Call::Reserve { .. }, true) => Err(placeless(35)),
            (Call::Reserve { text }, false) => {
                let accepted = self.add(read(text)?, tables)?;
                let reservation = Reservation { tables: accepted.least[0] as u16, net: accepted.sheets[0].net };
                Ok(Done { added: None, reservation })
            }
            (Call::Commit { .. } | Call::Withdraw, false) => Err(placeless(36)),
            (Call::Commit { text }, true) => {
                let sheet = read(text)?;
                if sheet.net != self.reservation.net {
                    return Err(placeless(36));
                }
                Ok(Done { added: Some(self.add(sheet, tables)?), reservation: Reservation::NONE })
            }
            (Call::Withdraw, true) => Ok(Done { added: None, reservation: Reservation::NONE }),
        }
    }

    /// Adds one sheet, which finds all tables that are not used.
    fn add(&self, sheet: Sheet, tables: impl FnMut(&Sheet, usize) -> usize) -> Result<Accepted, Refusal> {
        let mut adding = Adding::to(self.part.clone(), self.part.left(), tables);
        adding.add(sheet).map_err(placeless)?;
        Ok(adding.accepted)
    }
}

/// A refusal without a place, and of no sheet of a set.
fn placeless(number: u32) -> Refusal {
    Refusal::new(number, 0, 0)
}

/// The sheet of a call of one sheet.
fn read(text: &[u8]) -> Result<Sheet, Refusal> {
    read_only(text).map_err(|fault| Refusal::new(fault.number, 0, fault.line))
}
