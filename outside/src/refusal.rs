//! Refusals, by 01's numbers.

/// What is turned down: 01's number, the sheet, from 1 (0 for an opening line, a list, a whole set or a call of one sheet), and the place.
#[derive(Clone, Copy, Debug, PartialEq, Eq)]
pub struct Refusal {
    pub number: u32,
    pub sheet: usize,
    pub place: usize,
}

impl Refusal {
    pub fn new(number: u32, sheet: usize, place: usize) -> Refusal {
        Refusal { number, sheet, place }
    }

    /// The line that the program prints, in fields of six.
    pub fn line(&self) -> String {
        format!("{:>6}{:>6}{:>6}\n", -i64::from(self.number), self.sheet, self.place)
    }
}
