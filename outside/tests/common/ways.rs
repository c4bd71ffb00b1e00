//! Ways of making calls on lists with reservations (request 109) that differ from the right one in a small thing, and how they are found.

use outside::call_cases::sequence;
use outside::call_check::{own, Perform, Walk};
use outside::list;
use outside::part::Part;
use outside::refusal::Refusal;
use outside::reservation::{Call, Reservation};
use outside::set_check::LONGEST;

/// What a call gives: the bytes of the list that it writes, and the reservation after it.
pub type Given = Result<(usize, Reservation), Refusal>;

/// Whether this way of making calls answers rightly on some sequences.
pub fn right(perform: &Perform) -> bool {
    let mut output = vec![0; LONGEST];
    (0..1200).map(|index| sequence(3, index)).all(|sequence| {
        let mut walk = Walk::of(perform, &sequence);
        sequence.steps.iter().all(|step| walk.step(step, &mut output).is_ok())
    })
}

/// Whether it keeps the guarantee on them, whatever it answers besides.
pub fn keeps_guarantee(perform: &Perform) -> bool {
    let mut output = vec![0; LONGEST];
    (0..1200).map(|index| sequence(3, index)).all(|sequence| {
        let mut walk = Walk::of(perform, &sequence);
        sequence.steps.iter().all(|step| walk.step_unchecked(step, &mut output).is_ok())
    })
}

/// A call on a list and its reservation.
pub struct Asked<'a> {
    pub list: &'a [u8],
    pub reservation: Reservation,
    pub call: &'a Call,
}

impl Asked<'_> {
    /// The right answer.
    pub fn own(&self, output: &mut [u8]) -> Given {
        own(self.list, self.reservation, self.call, output)
    }

    /// The right answer with another reservation; after a set it is the one that there was.
    pub fn with(&self, reservation: Reservation, output: &mut [u8]) -> Given {
        let (count, after) = own(self.list, reservation, self.call, output)?;
        Ok((count, if self.is_set() { self.reservation } else { after }))
    }

    /// No reservation, where the condition holds, else the one that there is.
    pub fn none_if(&self, condition: bool) -> Reservation {
        if condition {
            Reservation::NONE
        } else {
            self.reservation
        }
    }

    pub fn part(&self) -> Option<Part> {
        list::read(self.list).ok()
    }

    /// The tables that are not used; none, where the list is damaged.
    pub fn left(&self) -> u16 {
        self.part().map_or(0, |part| part.left() as u16)
    }

    /// Whether the list is one, and the two numbers are a reservation of its part.
    pub fn is_sound(&self) -> bool {
        matches!(own(self.list, self.reservation, &Call::Withdraw, &mut []), Ok(_) | Err(Refusal { number: 36, .. }))
    }

    pub fn is_open(&self) -> bool {
        self.is_sound() && self.reservation != Reservation::NONE
    }

    pub fn is_set(&self) -> bool {
        matches!(self.call, Call::AddSet { .. })
    }

    pub fn is_reservation(&self) -> bool {
        matches!(self.call, Call::Reserve { .. })
    }

    pub fn is_commit(&self) -> bool {
        matches!(self.call, Call::Commit { .. })
    }

    pub fn is_withdrawal(&self) -> bool {
        *self.call == Call::Withdraw
    }

    /// The text of a reservation or a commit.
    pub fn text(&self) -> Option<&[u8]> {
        match self.call {
            Call::Reserve { text } | Call::Commit { text } => Some(text),
            _ => None,
        }
    }

    /// The first field of that text, where it is a number.
    pub fn first_field(&self) -> Option<i64> {
        std::str::from_utf8(self.text()?.get(..6)?).ok()?.trim_start().parse().ok()
    }

    /// That field as a net without its sign.
    pub fn net(&self) -> Option<u16> {
        self.first_field().map(|net| net.unsigned_abs() as u16).filter(|net| (1..=9999).contains(net))
    }

    /// The text of a reservation or a commit as a set of that one sheet.
    pub fn as_set(&self) -> Option<Call> {
        self.text().map(|text| Call::AddSet { text: text.into(), lengths: vec![text.len() as u32] })
    }

    /// How many tables the list that was written has more; none, where none was.
    pub fn added(&self, written: &[u8]) -> u16 {
        let lines = |list: &[u8]| list.iter().filter(|&&byte| byte == b'\n').count();
        lines(written).saturating_sub(lines(self.list)) as u16
    }

    /// Whether a set, of which the list was written, drives the reserved net.
    pub fn drives_reserved(&self, written: &[u8]) -> bool {
        let old = self.part().map_or(0, |part| part.tables.len());
        let drives = |part: Part| part.tables[old..].iter().any(|table| table.net == self.reservation.net);
        self.is_set() && self.is_open() && list::read(written).is_ok_and(drives)
    }
}

/// A way of making calls.
pub fn way(answer: impl Fn(&Asked, &mut [u8]) -> Given + 'static) -> Box<Perform> {
    Box::new(move |list, reservation, call, output| answer(&Asked { list, reservation, call }, output))
}

/// The right answer with another refusal.
pub fn with_refusal(change: fn(&Asked, Refusal) -> Refusal) -> Box<Perform> {
    way(move |asked, output| asked.own(output).map_err(|refusal| change(asked, refusal)))
}

/// The right answer for other numbers in place of the reservation's.
pub fn with_numbers(change: fn(&Asked) -> Reservation) -> Box<Perform> {
    way(move |asked, output| asked.with(change(asked), output))
}

/// The right answer with another reservation after an accepted call, given that and the list that was written.
pub fn with_after(change: fn(&Asked, Reservation, &[u8]) -> Reservation) -> Box<Perform> {
    way(move |asked, output| {
        let (count, after) = asked.own(output)?;
        Ok((count, change(asked, after, &output[..count])))
    })
}

/// The right answer, but for accepted calls of which the condition holds, given the reservation after it and the list that was written.
pub fn refused_if(refusal: Refusal, condition: fn(&Asked, Reservation, &[u8]) -> bool) -> Box<Perform> {
    way(move |asked, output| {
        let before = output.to_vec();
        let (count, after) = asked.own(output)?;
        if condition(asked, after, &output[..count]) {
            output.copy_from_slice(&before);
            return Err(refusal);
        }
        Ok((count, after))
    })
}

/// This refusal before all others where the condition holds.
pub fn first(number: u32, condition: fn(&Asked) -> bool) -> Box<Perform> {
    way(move |asked, output| if condition(asked) { Err(placeless(number)) } else { asked.own(output) })
}

/// A refusal without place and position.
pub fn placeless(number: u32) -> Refusal {
    Refusal::new(number, 0, 0)
}
