//! "Refusals, by who can cause them."
//!
//! - [`Refusal`]: the fourteen refusals; [`Refusal::number`] is the number that documents 01 and 02
//!   give them.
//! - [`number`]: the number a call returns, 0 where it is accepted.

/// Why a call is refused.
#[derive(Clone, Copy, Debug, PartialEq, Eq)]
pub enum Refusal {
    /// The rate is not one "from 6 to 52".
    Rate = 1,
    /// "2 a lent buffer of the wrong size, or no 64 bytes from the start"
    Size = 2,
    /// "3 a symbol above 15"
    Symbol = 3,
    /// "4 doubt above 8, or a doubtful list longer than 8, with a place above 63 or not strictly
    /// rising"
    Doubt = 4,
    /// "5 place above 63"
    Place = 5,
    /// "6 place already taken"
    Taken = 6,
    /// "7 closing or writing with a place missing"
    Missing = 7,
    /// "8 not a codeword"
    NotCodeword = 8,
    /// "9 none near"
    NoneNear = 9,
    /// "10 version not 1"
    Version = 10,
    /// "11 size or length wrong"
    Length = 11,
    /// More blank places than 57 − M: "more than 13 blanks at rate 39, more than 3 at rate 49".
    TooBlank = 12,
    /// "13: the place is not taken", which a withdrawal asks for.
    NotTaken = 13,
    /// "14: total not 516 bytes, or version or length wrong", of a superframe.
    Superframe = 14,
}

impl Refusal {
    pub fn number(self) -> u8 {
        self as u8
    }
}

/// The number of the refusal, or 0.
pub fn number<T>(result: &Result<T, Refusal>) -> u8 {
    match result {
        Ok(_) => 0,
        Err(refusal) => refusal.number(),
    }
}
