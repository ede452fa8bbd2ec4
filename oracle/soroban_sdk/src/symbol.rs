//! Symbols: short texts of letters, digits and the underscore.

use crate::Env;

/// At most 21 characters, six bits each, from the top of the number down. The codes ascend as the
/// characters do (`_` apart, which no identifier here uses), so numbers compare as texts do.
#[derive(Clone, Copy, PartialEq, Eq, PartialOrd, Ord, Hash)]
pub struct Symbol(u128);

const MOST: usize = 21;
const BITS: u32 = 6;

const fn code(character: u8) -> u128 {
    match character {
        b'_' => 1,
        b'0'..=b'9' => (character - b'0') as u128 + 2,
        b'A'..=b'Z' => (character - b'A') as u128 + 12,
        b'a'..=b'z' => (character - b'a') as u128 + 38,
        _ => panic!("not a character of a symbol"),
    }
}

const fn shift(place: usize) -> u32 {
    128 - BITS * (place as u32 + 1)
}

impl Symbol {
    pub const fn of(text: &str) -> Symbol {
        let bytes = text.as_bytes();
        assert!(bytes.len() <= MOST, "a symbol of more than 21 characters");
        let mut packed = 0;
        let mut place = 0;
        while place < bytes.len() {
            packed |= code(bytes[place]) << shift(place);
            place += 1;
        }
        Symbol(packed)
    }

    pub fn new(_env: &Env, text: &str) -> Symbol {
        Symbol::of(text)
    }

    /// The symbol that stands for a number: its sixteen hexadecimal digits, so that symbols stand
    /// in the order of their numbers.
    pub const fn of_number(number: u64) -> Symbol {
        let mut packed = 0;
        let mut place = 0;
        while place < 16 {
            let digit = (number >> (60 - 4 * place)) & 15;
            packed |= (digit as u128 + 2) << shift(place);
            place += 1;
        }
        Symbol(packed)
    }

    /// The number that `of_number` made this symbol from.
    pub const fn number(self) -> u64 {
        let mut number = 0;
        let mut place = 0;
        while place < 16 {
            let digit = (self.0 >> shift(place)) & 63;
            number = number << 4 | (digit as u64 - 2);
            place += 1;
        }
        number
    }

    pub(crate) const fn packed(self) -> u128 {
        self.0
    }
}

#[macro_export]
macro_rules! symbol_short {
    ($text:expr) => {{
        const SYMBOL: $crate::Symbol = $crate::Symbol::of($text);
        SYMBOL
    }};
}

#[cfg(test)]
mod test {
    use super::*;

    #[test]
    fn numbers_are_texts_in_order() {
        assert!(Symbol::of_number(0x14) == Symbol::of("0000000000000014"));
        assert!(Symbol::of_number(0xABCDEF) == Symbol::of("0000000000ABCDEF"));
        let numbers = [0, 1, 9, 10, 15, 16, 255, 1 << 40, u64::MAX - 1, u64::MAX];
        for pair in numbers.windows(2) {
            assert!(Symbol::of_number(pair[0]) < Symbol::of_number(pair[1]));
        }
        for number in numbers {
            assert_eq!(Symbol::of_number(number).number(), number);
        }
    }

    #[test]
    fn texts_compare_by_character() {
        assert!(symbol_short!("negdl") < symbol_short!("negot"));
        assert!(symbol_short!("neg") < symbol_short!("negdl"));
    }
}
