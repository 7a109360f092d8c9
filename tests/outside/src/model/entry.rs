//! A log entry: 32 bits, most significant first: kind 3, a 11, b 11, seven zeros. In a log it stands as four bytes in that order.

#[derive(Clone, Copy, PartialEq, Eq, Debug, Hash)]
pub struct Entry {
    pub kind: u32,
    pub a: u32,
    pub b: u32,
}

/// Does the kind use b? In kinds 1, 2, 6, 7 it is 0.
pub fn uses_b(kind: u32) -> bool {
    matches!(kind, 3 | 4 | 5)
}

pub fn entry(kind: u32, a: u32, b: u32) -> Entry {
    Entry { kind, a, b }
}

impl Entry {
    pub fn bits(self) -> u32 {
        assert!(self.kind < 8 && self.a < 2048 && self.b < 2048);
        self.kind << 29 | self.a << 18 | self.b << 7
    }

    pub fn bytes(self) -> [u8; 4] {
        self.bits().to_be_bytes()
    }
}

/// The entry, or nothing for BAD ENTRY: kind 0, low seven bits or an unused b not zero.
pub fn decode(bits: u32) -> Option<Entry> {
    let kind = bits >> 29;
    let a = bits >> 18 & 0x7ff;
    let b = bits >> 7 & 0x7ff;
    if kind == 0 || bits & 0x7f != 0 || (!uses_b(kind) && b != 0) {
        return None;
    }
    Some(Entry { kind, a, b })
}
