//! Numerals of a text: what counts as one, and its value however many digits it has.

/// The value of a numeral of any length; `None` inside stands for one past all limits.
#[derive(Clone, Copy, PartialEq, Eq)]
pub struct Size(Option<u64>);

impl Size {
    pub fn of(n: u64) -> Size {
        Size(Some(n))
    }

    pub fn at_most(self, limit: u64) -> Option<u64> {
        self.0.filter(|&n| n <= limit)
    }
}

/// A numeral: digits, no plus, no minus, no leading zero (`0` itself is one).
pub fn numeral(bytes: &[u8]) -> Option<Size> {
    let digits = !bytes.is_empty() && bytes.iter().all(|b| b.is_ascii_digit());
    if !digits || (bytes.len() > 1 && bytes[0] == b'0') {
        return None;
    }
    let value = bytes.iter().try_fold(0u64, |n, b| n.checked_mul(10)?.checked_add((b - b'0') as u64));
    Some(Size(value))
}

/// A numeral of a clause: it may have a minus, but `-0` is none.
pub fn signed_numeral(bytes: &[u8]) -> Option<(bool, Size)> {
    match bytes.strip_prefix(b"-") {
        None => numeral(bytes).map(|size| (false, size)),
        Some(rest) => numeral(rest).filter(|&size| size != Size::of(0)).map(|size| (true, size)),
    }
}
