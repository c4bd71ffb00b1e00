//! Tests on generated sequences of what makes calls on lists with reservations, as the archive does.

use crate::call_cases::{Sequence, Step};
use crate::refusal::Refusal;
use crate::reservation::{Call, Done, Reservation, State};
use crate::set_check::{check_rooms, part_of, write_list};

/// What is tested: given a list, its part's reservation, a call and an output, it writes the list with the call's sheets added to the
/// output's front, where the call adds some, and gives the count of bytes, 0 where it writes none, and the reservation after the call.
pub type Perform = dyn Fn(&[u8], Reservation, &Call, &mut [u8]) -> Result<(usize, Reservation), Refusal>;

/// The same by the independent implementation.
pub fn own(list: &[u8], reservation: Reservation, call: &Call, output: &mut [u8]) -> Result<(usize, Reservation), Refusal> {
    let after = State { part: part_of(list)?, reservation }.after(call)?;
    let count = if call.adds() { write_list(&after.part, output)? } else { 0 };
    Ok((count, after.reservation))
}

/// The same by the archive.
#[cfg(feature = "linked")]
pub fn linked(list: &[u8], reservation: Reservation, call: &Call, output: &mut [u8]) -> Result<(usize, Reservation), Refusal> {
    use crate::linked;
    let given = linked::Reservation { tables: reservation.tables, net: reservation.net };
    let answer = match call {
        Call::AddSet { text, lengths } => linked::add_set_beside(list, given, text, lengths, output).map(|list| (list.len(), reservation)),
        Call::Reserve { text } => {
            linked::reserve(list, given, text).map(|linked::Reservation { tables, net }| (0, Reservation { tables, net }))
        }
        Call::Commit { text } => linked::commit(list, given, text, output).map(|list| (list.len(), Reservation::NONE)),
        Call::Withdraw => linked::withdraw(list, given).map(|()| (0, Reservation::NONE)),
    };
    answer.map_err(crate::set_check::refusal_of)
}

/// What a call on a list does, by the independent implementation.
fn answer(list: &[u8], reservation: Reservation, call: &Call) -> Result<Done, Refusal> {
    State { part: part_of(list)?, reservation }.answer(call)
}

/// A sequence that is gone through call by call: each is made on the list and the reservation that the one before it handed back.
pub struct Walk<'a> {
    perform: &'a Perform,
    list: Vec<u8>,
    reservation: Reservation,
    /// The text that was reserved, while that reservation is open and was passed on as it was.
    reserved: Option<Vec<u8>>,
}

impl Walk<'_> {
    /// The start of a sequence.
    pub fn of<'a>(perform: &'a Perform, sequence: &Sequence) -> Walk<'a> {
        Walk { perform, list: sequence.list.clone(), reservation: sequence.reservation, reserved: None }
    }

    /// Makes the next call and tests all that it gives: the right answer, a list by its rules, nothing altered besides, 14 where the output
    /// is too short, and then the guarantee. The independent answer is tested by what is known of the call from its making. It gives the
    /// number of the refusal, 0 for an accepted call. `output` has `LONGEST` or more bytes.
    pub fn step(&mut self, step: &Step, output: &mut [u8]) -> Result<u32, String> {
        self.take_numbers(step);
        let list = step.list.as_ref().unwrap_or(&self.list);
        let done = answer(list, self.reservation, &step.call);
        let own = done.as_ref().map(|done| done.reservation).map_err(|&refusal| refusal);
        if let Some(wanted) = step.wanted.filter(|&wanted| wanted != own) {
            return Err(format!("our own answer is {own:?} where {wanted:?} is right"));
        }
        let right = done.as_ref().map(|done| (done.added.as_ref(), done.reservation)).map_err(|&refusal| refusal);
        let call = |output: &mut [u8]| (self.perform)(list, self.reservation, &step.call, output);
        let new = check_rooms(&call, list.len(), right, output)?;
        if let Ok(reservation) = own {
            self.accept(&step.call, new, reservation, output)?;
        }
        Ok(own.map_or_else(|refusal| refusal.number, |_| 0))
    }

    /// Makes the next call, and tests the guarantee alone.
    pub fn step_unchecked(&mut self, step: &Step, output: &mut [u8]) -> Result<(), String> {
        self.take_numbers(step);
        let list = step.list.as_ref().unwrap_or(&self.list);
        match (self.perform)(list, self.reservation, &step.call, output) {
            Ok((count, reservation)) => self.accept(&step.call, output[..count].to_vec(), reservation, output),
            Err(_) => Ok(()),
        }
    }

    /// The reservation that is handed over, where it is another than was handed back.
    fn take_numbers(&mut self, step: &Step) {
        if let Some(numbers) = step.numbers {
            self.reservation = numbers;
            self.reserved = None;
        }
    }

    /// Goes on from what an accepted call hands back, and tests the guarantee there.
    fn accept(&mut self, call: &Call, list: Vec<u8>, reservation: Reservation, output: &mut [u8]) -> Result<(), String> {
        self.reservation = reservation;
        if call.adds() {
            self.list = list;
        }
        match call {
            Call::AddSet { .. } => (),
            Call::Reserve { text } => self.reserved = Some(text.clone()),
            Call::Commit { .. } | Call::Withdraw => self.reserved = None,
        }
        self.check_guarantee(output)
    }

    /// The guarantee: while the reservation is open, the sheet that it was made for is not refused 23 at a commit; only its net may have
    /// been driven or read since.
    fn check_guarantee(&self, output: &mut [u8]) -> Result<(), String> {
        let Some(text) = &self.reserved else { return Ok(()) };
        match (self.perform)(&self.list, self.reservation, &Call::Commit { text: text.clone() }, output) {
            Ok(_) | Err(Refusal { number: 21 | 22, .. }) => Ok(()),
            Err(refusal) => Err(format!("a commit of the reserved sheet is refused: {refusal:?}")),
        }
    }
}
