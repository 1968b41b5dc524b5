//! The answer numbers of the rule sheet.

pub const ACCEPTED: i64 = 0;
pub const SIZE: i64 = 1;
pub const RANGE: i64 = 2;
pub const INDEX: i64 = 3;
pub const REPEAT: i64 = 4;
pub const UNUSED: i64 = 5;
pub const PAIR: i64 = 6;
pub const RING: i64 = 7;
pub const APART: i64 = 8;
pub const BENT: i64 = 9;
pub const TURN: i64 = 10;
pub const REFLEX: i64 = 11;
pub const OUTSIDE: i64 = 12;
pub const START: i64 = 13;
pub const DIRECTION: i64 = 14;
pub const TRAIL: i64 = 15;
pub const ROOM: i64 = 16;
pub const KIND: i64 = 17;
pub const ORDER: i64 = 18;
pub const LIMIT: i64 = 19;
pub const CUT: i64 = 20;
pub const COUNT: i64 = 21;
pub const TAIL: i64 = 22;
pub const SPACE: i64 = 23;
pub const FEW: i64 = 24;
pub const LEFT: i64 = 25;
pub const WOUND: i64 = 26;

/// How many answer numbers there are, 0 included.
pub const COUNT_OF_NUMBERS: usize = 27;

pub const NAMES: [&str; COUNT_OF_NUMBERS] = [
    "accepted",
    "SIZE",
    "RANGE",
    "INDEX",
    "REPEAT",
    "UNUSED",
    "PAIR",
    "RING",
    "APART",
    "BENT",
    "TURN",
    "REFLEX",
    "OUTSIDE",
    "START",
    "DIRECTION",
    "TRAIL",
    "ROOM",
    "KIND",
    "ORDER",
    "LIMIT",
    "CUT",
    "COUNT",
    "TAIL",
    "SPACE",
    "FEW",
    "LEFT",
    "WOUND",
];
