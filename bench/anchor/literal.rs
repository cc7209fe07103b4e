//! Literals as codes: twice the variable, and 1 more where it is negated. So `code ^ 1` is the
//! negation, and 0 and 1 are no literal's.

pub const MAX_VARIABLE: i64 = 268_435_455;

/// Whether this number is a literal, or the 0 behind literals.
pub fn is_literal_or_end(number: i64) -> bool {
    (-MAX_VARIABLE..=MAX_VARIABLE).contains(&number)
}

#[inline(always)]
pub fn code(literal: i64) -> u32 {
    ((literal.unsigned_abs() as u32) << 1) | u32::from(literal < 0)
}

pub fn plain(code: u32) -> i64 {
    let variable = i64::from(code >> 1);
    if code & 1 == 1 { -variable } else { variable }
}
