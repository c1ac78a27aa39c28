//! Where the fields of a record begin, for putting other bytes there.

use crate::form::{DOING, HEAD};

/// In the head.
pub const MACHINE: usize = 1;
pub const FIRST_SIGN: usize = 2;
pub const FIRST_AMOUNT: usize = 3;
pub const COUNT: usize = 7;

/// In a doing, counted from its first byte.
pub const KIND: usize = 0;
pub const LETTER: usize = 1;
pub const SIGN: usize = 5;
pub const AMOUNT: usize = 6;

/// Where a field of a doing, which are counted from 1, begins in the record.
pub const fn at(doing: usize, field: usize) -> usize {
    HEAD + DOING * (doing - 1) + field
}
