//! Lines and fields (01, "Sheet").

const COLUMNS: usize = 6;
const FIELDS: usize = 12;

/// The next line of `text`, without its line feed, and the bytes after it; `None` where the line is missing or unended.
pub fn split_line(text: &[u8]) -> Option<(&[u8], &[u8])> {
    let end = text.iter().position(|&byte| byte == b'\n')?;
    Some((&text[..end], &text[end + 1..]))
}

/// The number that a field's columns hold, right-justified after blanks: an optional minus sign, then digits without leading zeros.
pub fn number(columns: &[u8]) -> Option<i64> {
    let blanks = columns.iter().take_while(|&&byte| byte == b' ').count();
    let (negative, digits) = match &columns[blanks..] {
        [b'-', digits @ ..] => (true, digits),
        digits => (false, digits),
    };
    if digits.is_empty() || !digits.iter().all(u8::is_ascii_digit) {
        return None;
    }
    let leading_zero = digits[0] == b'0';
    if leading_zero && (digits.len() > 1 || negative) {
        return None;
    }
    let size = digits.iter().try_fold(0i64, |sum, &digit| sum.checked_mul(10)?.checked_add(i64::from(digit - b'0')))?;
    Some(if negative { -size } else { size })
}

/// The numbers of a line of one to twelve fields; `None` where it is not laid out so.
pub fn fields(line: &[u8]) -> Option<Vec<i64>> {
    let whole = line.len().is_multiple_of(COLUMNS);
    let count = line.len() / COLUMNS;
    if !whole || !(1..=FIELDS).contains(&count) {
        return None;
    }
    line.chunks(COLUMNS).map(number).collect()
}

/// Adds a number, right-justified in `width` columns, 21 at most.
pub fn push(text: &mut String, number: u64, width: usize) {
    let mut columns = [b' '; 21];
    let mut left = number;
    for column in columns[..width].iter_mut().rev() {
        *column = b'0' + (left % 10) as u8;
        left /= 10;
        if left == 0 {
            break;
        }
    }
    text.extend(columns[..width].iter().map(|&byte| char::from(byte)));
}
