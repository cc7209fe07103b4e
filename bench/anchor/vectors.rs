//! A block of 64 bytes read at once: where its tokens end, and which numbers they are. No branch
//! depends on how many digits a number has, or on its sign.
#![allow(unsafe_code)]
use crate::tokens::{BAD, WORD_A, WORD_D};
use std::arch::x86_64::*;

/// The bytes of a block.
pub const BLOCK: usize = 64;

/// So many bytes have to stand before a block, since a number is read by the eight bytes that end
/// with it. The last of them is a blank.
pub const BEFORE: usize = 8;

/// A block and what stands before it.
pub type Window = [u8; BEFORE + BLOCK];

/// So many tokens at most end in a block, since each has a blank behind it.
pub const MOST: usize = BLOCK / 2;

/// What was read of a block: so many tokens, which take so many bytes.
pub struct Read {
    pub tokens: usize,
    pub bytes: usize,
}

/// Whether the processor has what `read_block` needs.
pub fn are_supported() -> bool {
    is_x86_feature_detected!("avx2")
        && is_x86_feature_detected!("bmi1")
        && is_x86_feature_detected!("lzcnt")
        && is_x86_feature_detected!("popcnt")
}

/// Reads all tokens that end in the block, at whose first byte a token begins. None if something
/// stands before the last blank but numbers of at most eight bytes and single letters, each with
/// one space or one line's end behind it.
#[target_feature(enable = "avx2,bmi1,lzcnt,popcnt")]
pub fn read_block(window: &Window, tokens: &mut [i64; MOST]) -> Option<Read> {
    let classes = Classes::of(window);
    if !classes.are_plain() {
        return None;
    }
    let count = classes.count();
    put_numbers(window, classes.blanks, tokens);
    if classes.letters & classes.read() != 0 {
        classes.put_letters(window, tokens);
    }
    Some(Read {
        tokens: count,
        bytes: BLOCK - classes.blanks.leading_zeros() as usize,
    })
}

/// Which bytes of a block are blanks (a space, a line's end), minuses, letters (`a`, `d`, `e` or
/// the byte 0x60), and digits. The lowest bit stands for the first byte.
struct Classes {
    blanks: u64,
    minuses: u64,
    letters: u64,
    digits: u64,
}

impl Classes {
    #[target_feature(enable = "avx2")]
    fn of(window: &Window) -> Self {
        let (low, high) = (
            bytes_at::<BEFORE>(window),
            bytes_at::<{ BEFORE + 32 }>(window),
        );
        Classes {
            blanks: bits(blanks_in(low), blanks_in(high)),
            minuses: bits(equal(low, b'-'), equal(high, b'-')),
            letters: bits(letters_in(low), letters_in(high)),
            digits: bits(digits_in(low), digits_in(high)),
        }
    }

    /// The bytes up to the last blank; there is one.
    #[target_feature(enable = "lzcnt")]
    fn read(&self) -> u64 {
        u64::MAX >> self.blanks.leading_zeros()
    }

    /// How many tokens end in the block.
    #[target_feature(enable = "popcnt")]
    fn count(&self) -> usize {
        self.blanks.count_ones() as usize
    }

    /// Whether a token ends in the block, and nothing stands before the last end but what
    /// `read_block` takes.
    #[target_feature(enable = "lzcnt")]
    fn are_plain(&self) -> bool {
        if self.blanks == 0 {
            return false;
        }
        let starts = self.blanks << 1 | 1;
        let wrong = !(self.blanks | self.minuses | self.letters | self.digits)
            | (self.blanks & starts)
            | ((self.minuses | self.letters) & !starts)
            | (self.minuses << 1 & !self.digits)
            | (self.letters << 1 & !self.blanks);
        // From such a place on no blank stands in two, four, eight and nine bytes.
        let two = !self.blanks & !self.blanks >> 1;
        let four = two & two >> 2;
        let eight = four & four >> 4;
        let nine = eight & !self.blanks >> 8;
        (wrong | nine) & self.read() == 0
    }

    /// Puts the letters where numbers were read in their place.
    #[target_feature(enable = "bmi1,lzcnt,popcnt")]
    fn put_letters(&self, window: &Window, tokens: &mut [i64; MOST]) {
        let mut letters = self.letters & self.read();
        while letters != 0 {
            let place = letters.trailing_zeros();
            let before = self.blanks & ((1 << place) - 1);
            tokens[before.count_ones() as usize] = match window[BEFORE + place as usize] {
                b'a' => WORD_A,
                b'd' => WORD_D,
                _ => BAD,
            };
            letters &= letters - 1;
        }
    }
}

/// The 32 bytes of the window from this place on.
#[target_feature(enable = "avx2")]
fn bytes_at<const PLACE: usize>(window: &Window) -> __m256i {
    const { assert!(PLACE + 32 <= BEFORE + BLOCK) };
    // SAFETY: so many bytes stand there.
    unsafe { _mm256_loadu_si256(window.as_ptr().add(PLACE).cast()) }
}

/// A bit for each byte, which is 0 or 255.
#[target_feature(enable = "avx2")]
fn bits(low: __m256i, high: __m256i) -> u64 {
    let half = |bytes| u64::from(_mm256_movemask_epi8(bytes) as u32);
    half(low) | half(high) << 32
}

/// 255 for each byte that is this one.
#[target_feature(enable = "avx2")]
fn equal(bytes: __m256i, byte: u8) -> __m256i {
    _mm256_cmpeq_epi8(bytes, _mm256_set1_epi8(byte as i8))
}

#[target_feature(enable = "avx2")]
fn blanks_in(bytes: __m256i) -> __m256i {
    _mm256_or_si256(equal(bytes, b' '), equal(bytes, b'\n'))
}

/// `a`, `d`, `e` and 0x60 differ from `e` in the bits of 5 alone.
#[target_feature(enable = "avx2")]
fn letters_in(bytes: __m256i) -> __m256i {
    equal(_mm256_or_si256(bytes, _mm256_set1_epi8(5)), b'e')
}

#[target_feature(enable = "avx2")]
fn digits_in(bytes: __m256i) -> __m256i {
    let values = _mm256_xor_si256(bytes, _mm256_set1_epi8(b'0' as i8));
    _mm256_cmpeq_epi8(_mm256_min_epu8(values, _mm256_set1_epi8(9)), values)
}

/// Puts the numbers that end at these blanks, and up to seven more without a meaning.
#[target_feature(enable = "avx2,bmi1")]
fn put_numbers(window: &Window, mut blanks: u64, to: &mut [i64; MOST]) {
    for eight in to.as_chunks_mut::<8>().0 {
        for four in eight.as_chunks_mut::<4>().0 {
            let mut words = [0; 4];
            for word in &mut words {
                // The eight bytes before the blank; behind the last blank the window's last eight.
                let end = blanks.trailing_zeros() as usize;
                *word = i64::from_le_bytes(*window[end..].first_chunk().unwrap_or(&[0; 8]));
                blanks &= blanks.wrapping_sub(1);
            }
            let numbers = numbers_of(_mm256_set_epi64x(words[3], words[2], words[1], words[0]));
            // SAFETY: four numbers have room there.
            unsafe { _mm256_storeu_si256(four.as_mut_ptr().cast(), numbers) };
        }
        if blanks == 0 {
            break;
        }
    }
}

/// The numbers with which the words end, each behind a blank if it has less than eight bytes. `BAD`
/// for -0.
#[target_feature(enable = "avx2")]
fn numbers_of(words: __m256i) -> __m256i {
    // 255 for each blank and each byte before one.
    let mut others = _mm256_cmpgt_epi8(_mm256_set1_epi8(b' ' as i8 + 1), words);
    others = _mm256_or_si256(others, _mm256_srli_epi64::<8>(others));
    others = _mm256_or_si256(others, _mm256_srli_epi64::<16>(others));
    others = _mm256_or_si256(others, _mm256_srli_epi64::<32>(others));
    let values = _mm256_xor_si256(words, _mm256_set1_epi8(b'0' as i8));
    let values = _mm256_andnot_si256(others, values);
    let minuses = equal(values, b'-' ^ b'0');
    let digits = _mm256_andnot_si256(minuses, values);
    // By two digits, by four, and all eight.
    let pairs = _mm256_maddubs_epi16(digits, _mm256_set1_epi16(0x010a));
    let fours = _mm256_madd_epi16(pairs, _mm256_set1_epi32(0x0001_0064));
    let high = _mm256_mul_epu32(fours, _mm256_set1_epi64x(10_000));
    let all = _mm256_add_epi64(high, _mm256_srli_epi64::<32>(fours));
    let zeros = _mm256_setzero_si256();
    // All bits for a number without a minus.
    let pluses = _mm256_cmpeq_epi64(minuses, zeros);
    let signed = _mm256_blendv_epi8(_mm256_sub_epi64(zeros, all), all, pluses);
    let wrong = _mm256_andnot_si256(pluses, _mm256_cmpeq_epi64(all, zeros));
    _mm256_blendv_epi8(signed, _mm256_set1_epi64x(BAD), wrong)
}
