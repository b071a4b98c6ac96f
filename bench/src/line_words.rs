//! The words of a line.

use crate::fault_kind::FaultKind;

/// How many words are kept: one more than the longest line has.
const MOST: usize = 6;

/// The first words of a line, and how many these are.
pub struct LineWords<'a> {
    words: [&'a [u8]; MOST],
    count: usize,
}

impl<'a> LineWords<'a> {
    pub fn of(line: &'a [u8]) -> LineWords<'a> {
        let mut words: [&[u8]; MOST] = [b""; MOST];
        let mut count = 0;
        for word in line.split(|byte| *byte == b' ').take(MOST) {
            words[count] = word;
            count += 1;
        }
        LineWords { words, count }
    }

    pub fn count(&self) -> usize {
        self.count
    }

    /// A word by its place; it is empty where there is none.
    pub fn word(&self, place: usize) -> &'a [u8] {
        self.words[place]
    }

    pub fn is_name(&self, place: usize) -> bool {
        let word = self.words[place];
        let is_sign = |byte: &u8| byte.is_ascii_alphanumeric() || *byte == b'_' || *byte == b'-';
        !word.is_empty() && word.len() <= 16 && word.iter().all(is_sign)
    }

    /// The number at a place, or the greatest one where it is greater.
    pub fn number(&self, place: usize) -> Result<u64, FaultKind> {
        let word = self.words[place];
        let is_spelled = !word.is_empty() && word.iter().all(u8::is_ascii_digit);
        if !is_spelled || (word[0] == b'0' && word.len() > 1) {
            return Err(FaultKind::BadNumber);
        }
        let mut number: u64 = 0;
        for digit in word {
            number = number
                .saturating_mul(10)
                .saturating_add(u64::from(digit - b'0'));
        }
        Ok(number)
    }
}
