//! Texts: blanks, lines, and words that are numbers.

pub fn is_blank(byte: u8) -> bool {
    matches!(byte, b' ' | b'\n' | b'\r' | b'\t')
}

/// The bytes from here up to the line's end, which isn't among them.
pub fn line_at(text: &[u8]) -> &[u8] {
    &text[..text
        .iter()
        .position(|&byte| byte == b'\n')
        .unwrap_or(text.len())]
}

/// The number of the line that has this place, counted from 1.
pub fn line_of(text: &[u8], place: usize) -> usize {
    1 + text[..place].iter().filter(|&&byte| byte == b'\n').count()
}

/// The words between blanks.
pub fn words_of(text: &[u8]) -> impl Iterator<Item = &[u8]> {
    text.split(|&byte| is_blank(byte))
        .filter(|word| !word.is_empty())
}

/// The value of a word of digits with an optional minus; one above `i64::MAX` counts as that. None
/// for `-0`.
pub fn number_of(word: &[u8]) -> Option<i64> {
    let (negative, digits) = match word.strip_prefix(b"-") {
        Some(digits) => (true, digits),
        None => (false, word),
    };
    if digits.is_empty() || !digits.iter().all(u8::is_ascii_digit) {
        return None;
    }
    let value = digits.iter().fold(0i64, |value, digit| {
        value
            .saturating_mul(10)
            .saturating_add(i64::from(digit - b'0'))
    });
    match negative {
        true if value == 0 => None,
        true => Some(-value),
        false => Some(value),
    }
}

/// The first place of a byte. Blocks without it are passed in a loop that the compiler makes of
/// wide instructions.
pub fn find_byte(text: &[u8], byte: u8) -> Option<usize> {
    let has_it = |block: &[u8]| {
        block
            .iter()
            .fold(false, |any, &other| any | (other == byte))
    };
    let passed = 64
        * text
            .chunks_exact(64)
            .take_while(|block| !has_it(block))
            .count();
    text[passed..]
        .iter()
        .position(|&other| other == byte)
        .map(|n| passed + n)
}
