//! The limits of "Table and limits", the layout of a work table, and the numbers given back.

pub const VARIABLES: usize = 1023;
pub const CLAUSES: usize = 2047;
pub const LITERALS: usize = 8191;
pub const TEXT: usize = 65_536;
pub const ALLOWANCE: u64 = 1000;

/// A work table: 0..1022 prefix, 1023..3069 clause ends, 3070..11260 literals.
pub const TABLE: usize = 11_261;
pub const ENDS_AT: usize = 1023;
pub const LITERALS_AT: usize = 3070;

/// The numbers given back. `DONE` is the protocol's 0: no refusal.
pub mod answer {
    pub const DONE: u8 = 0;
    pub const LENGTH: u8 = 1;
    pub const MALFORMED: u8 = 2;
    pub const SYNTAX: u8 = 3;
    pub const SHORT: u8 = 4;
    pub const RANGE: u8 = 5;
    pub const TWICE: u8 = 6;
    pub const UNBOUND: u8 = 7;
    pub const COUNT: u8 = 8;
    pub const TOO_BIG: u8 = 9;
    pub const NOT_PERMITTED: u8 = 10;
    pub const NO_ROOM: u8 = 11;
    pub const BAD_ENTRY: u8 = 12;
    pub const ALLOWANCE: u8 = 13;
    pub const TRUE: u8 = 20;
    pub const FALSE: u8 = 21;
    pub const FINISHED: u8 = 22;
    pub const OUT_OF_ROOM: u8 = 23;
    pub const STOPPED: u8 = 24;

    /// The word document 01 has for a number.
    pub fn word(number: u8) -> &'static str {
        match number {
            DONE => "done",
            LENGTH => "LENGTH",
            MALFORMED => "MALFORMED",
            SYNTAX => "SYNTAX",
            SHORT => "SHORT",
            RANGE => "RANGE",
            TWICE => "TWICE",
            UNBOUND => "UNBOUND",
            COUNT => "COUNT",
            TOO_BIG => "TOO BIG",
            NOT_PERMITTED => "NOT PERMITTED",
            NO_ROOM => "NO ROOM",
            BAD_ENTRY => "BAD ENTRY",
            ALLOWANCE => "ALLOWANCE",
            TRUE => "TRUE",
            FALSE => "FALSE",
            FINISHED => "FINISHED",
            OUT_OF_ROOM => "OUT OF ROOM",
            STOPPED => "STOPPED",
            _ => "(no number of document 01)",
        }
    }
}
