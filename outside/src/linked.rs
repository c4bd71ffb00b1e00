//! The proved mapper, called from Rust through the archive that `rt lib` writes.

use std::ffi::c_ulong;

extern "C" {
    /// Writes what the mapping program prints for the `input_len` bytes at `input` to `output`, which has room for `output_len`
    /// bytes, and gives how many bytes it wrote: none where the room is too small, which `LONGEST` bytes never are.
    fn pailinstant_map(input: *const u8, input_len: usize, output: *mut u8, output_len: usize) -> c_ulong;

    /// As `pailinstant_map`, of the second mapping program, which is given a wanted level on the opening line; `LONGEST_FAST` bytes are
    /// always room enough.
    fn pailinstant_map_fast(input: *const u8, input_len: usize, output: *mut u8, output_len: usize) -> c_ulong;

    /// Writes what the refusal `number` means to `output`, which has room for `output_len` bytes, and gives how many bytes it wrote: none
    /// where the room is too small, or the number is no refusal.
    fn pailinstant_refusal(number: u32, output: *mut u8, output_len: usize) -> c_ulong;

    /// Reads the `text_len` bytes at `text` as a list, and gives 0 where they are one, else 65536 × the refusal's number + the line.
    fn pailinstant_check_list(text: *const u8, text_len: usize) -> u32;

    /// The same, and writes the list's numbers to `numbers`, which has room for `numbers_len` of them: 3, and 10 for each table. It gives
    /// 65536 × 14 where the text is a list and the room is too small, which `NUMBERS` never are. A refused call writes nothing.
    fn pailinstant_read_list(text: *const u8, text_len: usize, numbers: *mut u64, numbers_len: usize) -> u32;

    /// Adds a set of sheets to the part whose list the `list_len` bytes at `list` are: the `text_len` bytes at `text`, of which each sheet
    /// has as many as the next of the `lengths_len` numbers at `lengths` says. Where the set is accepted it writes the list of the part
    /// with the sheets added to `output`, which has room for `output_len` bytes, and gives how many bytes that is. Else it writes nothing,
    /// and gives 2^32 × the sheet's position in the set + 65536 × the refusal's number + the place: 14 where the room is too small, which
    /// `LONGEST` bytes never are.
    fn pailinstant_add_set(
        list: *const u8,
        list_len: usize,
        text: *const u8,
        text_len: usize,
        lengths: *const u32,
        lengths_len: usize,
        output: *mut u8,
        output_len: usize,
    ) -> u64;

    /// The same beside a reservation: `reserved` tables are set aside for the output net `net`, both 0 for none, and the sheets find only
    /// the others. It gives 65536 × 20 where the two numbers are no reservation of the list's part.
    fn pailinstant_add_set_beside(
        list: *const u8,
        list_len: usize,
        reserved: u16,
        net: u16,
        text: *const u8,
        text_len: usize,
        lengths: *const u32,
        lengths_len: usize,
        output: *mut u8,
        output_len: usize,
    ) -> u64;

    /// Sets tables aside for the sheet that the `text_len` bytes at `text` are, in the part of the list, and gives 2^48 × their number +
    /// the output net; the list stays as it is. Else it gives 65536 × the refusal's number + the place.
    fn pailinstant_reserve(list: *const u8, list_len: usize, reserved: u16, net: u16, text: *const u8, text_len: usize) -> u64;

    /// Adds the sheet that the `text_len` bytes at `text` are to the part of the list, with the tables set aside to be used, and closes the
    /// reservation. It writes the new list, or gives the refusal, as `pailinstant_add_set` does, the position 0.
    fn pailinstant_commit(
        list: *const u8,
        list_len: usize,
        reserved: u16,
        net: u16,
        text: *const u8,
        text_len: usize,
        output: *mut u8,
        output_len: usize,
    ) -> u64;

    /// Closes the reservation: it gives 0, else 65536 × the refusal's number + the place.
    fn pailinstant_withdraw(list: *const u8, list_len: usize, reserved: u16, net: u16) -> u64;
}

/// The bytes of the longest list: line 0 of three fields, and 800 lines of nine fields, 21 columns and a line feed. No input has more
/// printed, so this much room is always enough: `prints-short` in crates/program/specs/RoomLaws.antt.
pub const LONGEST: usize = 60_819;

/// What the mapping program prints for `input`, written to the front of `output`; `output` has `LONGEST` bytes or more.
pub fn map<'a>(input: &[u8], output: &'a mut [u8]) -> &'a [u8] {
    assert!(output.len() >= LONGEST, "room for the longest list");
    // SAFETY: both pointers are to bytes that are ours for the whole call, as many as the lengths say, and the two do not overlap.
    let count = unsafe { pailinstant_map(input.as_ptr(), input.len(), output.as_mut_ptr(), output.len()) };
    &output[..count as usize]
}

/// The bytes of the longest list, and of a line of two fields for each of 800 sheets.
pub const LONGEST_FAST: usize = LONGEST + 800 * 13;

/// What the second mapping program prints for `input`, written to the front of `output`; `output` has `LONGEST_FAST` bytes or more.
pub fn map_fast<'a>(input: &[u8], output: &'a mut [u8]) -> &'a [u8] {
    assert!(output.len() >= LONGEST_FAST, "room for the longest list and the slack of each sheet");
    // SAFETY: both pointers are to bytes that are ours for the whole call, as many as the lengths say, and the two do not overlap.
    let count = unsafe { pailinstant_map_fast(input.as_ptr(), input.len(), output.as_mut_ptr(), output.len()) };
    &output[..count as usize]
}

/// What a refusal's number means, in plain words, written to the front of `output`; empty where `output` is too short, or the number is no
/// refusal. 128 bytes are enough for each.
pub fn refusal(number: u32, output: &mut [u8]) -> &[u8] {
    // SAFETY: the pointer is to bytes that are ours for the whole call, as many as the length says.
    let count = unsafe { pailinstant_refusal(number, output.as_mut_ptr(), output.len()) };
    &output[..count as usize]
}

/// The numbers of the longest list: K, capacity and used, and ten for each of 800 tables.
pub const NUMBERS: usize = 8_003;

/// A list that is turned away: 2, 3, 31 or 32 with the line, from 0, or 14 with line 0.
#[derive(Clone, Copy, Debug, PartialEq, Eq)]
pub struct Refused {
    pub number: u32,
    pub line: u32,
}

/// An answer of the archive: 0, or a refusal's number and line.
fn accepted(answer: u32) -> Result<(), Refused> {
    match answer {
        0 => Ok(()),
        _ => Err(Refused { number: answer >> 16, line: answer & 0xffff }),
    }
}

/// Whether `text` is the list of a sound part.
pub fn check_list(text: &[u8]) -> Result<(), Refused> {
    // SAFETY: the pointer is to bytes that are ours for the whole call, as many as the length says.
    accepted(unsafe { pailinstant_check_list(text.as_ptr(), text.len()) })
}

/// The numbers of the part whose list `text` is, written to the front of `numbers`: K, capacity, used, then ten for each table: net,
/// u, six inputs (unused ones 0), truth table and level. Where the text is refused, or `numbers` has too little room, it is left as it is.
pub fn read_list<'a>(text: &[u8], numbers: &'a mut [u64]) -> Result<&'a [u64], Refused> {
    // SAFETY: both pointers are to memory that is ours for the whole call, as much as the lengths say, and the two do not overlap.
    accepted(unsafe { pailinstant_read_list(text.as_ptr(), text.len(), numbers.as_mut_ptr(), numbers.len()) })?;
    Ok(&numbers[..3 + 10 * numbers[2] as usize])
}

/// A call on a list that is turned away: a refusal of a sheet with its place and, in a set, the sheet's position, from 1; 2, 3, 31 or 32 of
/// the list, with its line as the place, or 20, 33, 35, 36 or 14. A place or position that is not named here is 0.
#[derive(Clone, Copy, Debug, PartialEq, Eq)]
pub struct CallRefused {
    pub number: u32,
    pub place: u32,
    pub position: u32,
}

/// The refusal that an answer of the archive tells.
fn refused(answer: u64) -> CallRefused {
    CallRefused { number: (answer >> 16) as u32 & 0xffff, place: answer as u32 & 0xffff, position: (answer >> 32) as u32 }
}

/// The list that a call wrote to the front of `output`: its answer is the count of bytes, or a refusal, which is 65536 or more.
fn written(answer: u64, output: &[u8]) -> Result<&[u8], CallRefused> {
    if answer < 65536 {
        Ok(&output[..answer as usize])
    } else {
        Err(refused(answer))
    }
}

/// The list of the part whose list `list` is with a set of sheets added, written to the front of `output`: all of them or none. `lengths`
/// has the bytes of each sheet in `text`. Where the set is refused, or `output` has too little room, it is left as it is.
pub fn add_set<'a>(list: &[u8], text: &[u8], lengths: &[u32], output: &'a mut [u8]) -> Result<&'a [u8], CallRefused> {
    // SAFETY: all pointers are to memory that is ours for the whole call, as much as the lengths say, and `output` overlaps no other.
    let answer = unsafe {
        pailinstant_add_set(
            list.as_ptr(),
            list.len(),
            text.as_ptr(),
            text.len(),
            lengths.as_ptr(),
            lengths.len(),
            output.as_mut_ptr(),
            output.len(),
        )
    };
    written(answer, output)
}

/// The number of tables set aside and the output net that they are for. A list does not show them: they are kept beside it.
#[derive(Clone, Copy, Debug, PartialEq, Eq)]
pub struct Reservation {
    pub tables: u16,
    pub net: u16,
}

impl Reservation {
    /// Nothing is reserved.
    pub const NONE: Reservation = Reservation { tables: 0, net: 0 };
}

/// As `add_set`, beside a reservation: the sheets find only the tables that are neither used nor set aside. The reservation stays as it is.
pub fn add_set_beside<'a>(
    list: &[u8],
    reservation: Reservation,
    text: &[u8],
    lengths: &[u32],
    output: &'a mut [u8],
) -> Result<&'a [u8], CallRefused> {
    // SAFETY: all pointers are to memory that is ours for the whole call, as much as the lengths say, and `output` overlaps no other.
    let answer = unsafe {
        pailinstant_add_set_beside(
            list.as_ptr(),
            list.len(),
            reservation.tables,
            reservation.net,
            text.as_ptr(),
            text.len(),
            lengths.as_ptr(),
            lengths.len(),
            output.as_mut_ptr(),
            output.len(),
        )
    };
    written(answer, output)
}

/// The reservation of the tables that the sheet `text` needs, in the part whose list `list` is; `reservation` is the one that there is,
/// which must be none. The list stays as it is.
pub fn reserve(list: &[u8], reservation: Reservation, text: &[u8]) -> Result<Reservation, CallRefused> {
    // SAFETY: both pointers are to bytes that are ours for the whole call, as many as the lengths say.
    let answer = unsafe { pailinstant_reserve(list.as_ptr(), list.len(), reservation.tables, reservation.net, text.as_ptr(), text.len()) };
    match answer >> 48 {
        0 => Err(refused(answer)),
        tables => Ok(Reservation { tables: tables as u16, net: answer as u16 }),
    }
}

/// The list of the part whose list `list` is with the sheet `text` added, written to the front of `output`. The sheet has the reserved
/// output net and may use the tables set aside, and the reservation is closed. Where it is refused, or `output` has too little room, that
/// is left as it is, and the reservation stays open.
pub fn commit<'a>(list: &[u8], reservation: Reservation, text: &[u8], output: &'a mut [u8]) -> Result<&'a [u8], CallRefused> {
    // SAFETY: all pointers are to memory that is ours for the whole call, as much as the lengths say, and `output` overlaps no other.
    let answer = unsafe {
        pailinstant_commit(
            list.as_ptr(),
            list.len(),
            reservation.tables,
            reservation.net,
            text.as_ptr(),
            text.len(),
            output.as_mut_ptr(),
            output.len(),
        )
    };
    written(answer, output)
}

/// Closes the reservation of the part whose list `list` is. The list stays as it is.
pub fn withdraw(list: &[u8], reservation: Reservation) -> Result<(), CallRefused> {
    // SAFETY: the pointer is to bytes that are ours for the whole call, as many as the length says.
    match unsafe { pailinstant_withdraw(list.as_ptr(), list.len(), reservation.tables, reservation.net) } {
        0 => Ok(()),
        answer => Err(refused(answer)),
    }
}
