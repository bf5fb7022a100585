//! The words of a scene's line, separated by blanks and taken one by one. Where
//! a word is not what the scene's language has there, the fault says what was
//! expected and what was found.

use crate::fault::Fault;
use crate::text::printable;

pub struct Words<'a> {
    rest: &'a [u8],
    line: usize,
}

impl<'a> Words<'a> {
    pub fn new(text: &'a [u8], line: usize) -> Words<'a> {
        Words { rest: text, line }
    }

    /// The next word, whatever it is.
    pub fn any(&mut self, expected: &str) -> Result<&'a [u8], Fault> {
        let word = self.peek();
        if word.is_empty() {
            return Err(self.unlike(expected));
        }
        self.pass(word);
        Ok(word)
    }

    /// One word and no other.
    pub fn one(&mut self, word: &str, behind: &str) -> Result<(), Fault> {
        let found = self.peek();
        if found != word.as_bytes() {
            return Err(self.unlike(&format!("'{}' behind {}", word, behind)));
        }
        self.pass(found);
        Ok(())
    }

    /// Decimal digits of a number that is at most `most`.
    pub fn number(&mut self, most: u64, behind: &str) -> Result<u64, Fault> {
        let word = self.peek();
        match decimal(word).filter(|&number| number <= most) {
            Some(number) => {
                self.pass(word);
                Ok(number)
            }
            None => {
                let limit = u128::from(most) + 1;
                Err(self.unlike(&format!("a number below {} behind '{}'", limit, behind)))
            }
        }
    }

    pub fn end(&self, behind: &str) -> Result<(), Fault> {
        match self.peek() {
            [] => Ok(()),
            _ => Err(self.unlike(&format!("the line's end behind {}", behind))),
        }
    }

    /// What stands behind one blank, up to the line's end.
    pub fn remainder(self) -> &'a [u8] {
        self.rest.get(1..).unwrap_or(&[])
    }

    fn peek(&self) -> &'a [u8] {
        let begin = blanks(self.rest);
        let word = &self.rest[begin..];
        let end = word.iter().position(|&byte| is_blank(byte));
        &word[..end.unwrap_or(word.len())]
    }

    fn pass(&mut self, word: &[u8]) {
        self.rest = &self.rest[blanks(self.rest) + word.len()..];
    }

    pub fn unlike(&self, expected: &str) -> Fault {
        let found = match self.peek() {
            [] => "the line's end".to_string(),
            word => format!("'{}'", printable(word)),
        };
        Fault::new(self.line, format!("{}, not {}", expected, found))
    }
}

pub fn is_blank(byte: u8) -> bool {
    byte == b' ' || byte == b'\t'
}

/// How many blanks stand in front.
pub fn blanks(text: &[u8]) -> usize {
    text.iter().take_while(|&&byte| is_blank(byte)).count()
}

/// The value of one or more decimal digits, where 64 bits hold it.
pub fn decimal(digits: &[u8]) -> Option<u64> {
    if digits.is_empty() {
        return None;
    }
    digits.iter().try_fold(0u64, |number, &byte| {
        let digit = byte.checked_sub(b'0').filter(|&digit| digit < 10)?;
        number.checked_mul(10)?.checked_add(u64::from(digit))
    })
}

#[cfg(test)]
mod tests {
    use super::*;

    #[test]
    fn words_between_blanks() {
        let mut words = Words::new(b" \tadd  ann\t7 ", 3);
        assert_eq!(words.one("add", "nothing"), Ok(()));
        assert_eq!(words.any("an address"), Ok(&b"ann"[..]));
        assert_eq!(words.number(7, "start"), Ok(7));
        assert_eq!(words.end("the number"), Ok(()));
    }

    #[test]
    fn the_remainder_is_behind_one_blank() {
        for (text, rest) in [("a  b ", " b "), ("a ", ""), ("a", ""), ("a\tb", "b")] {
            let mut words = Words::new(text.as_bytes(), 1);
            words.any("a word").unwrap();
            assert_eq!(words.remainder(), rest.as_bytes(), "{}", text);
        }
    }

    #[test]
    fn faults_say_what_was_expected_and_found() {
        let mut words = Words::new(b" x\xff", 9);
        let fault = words.one("start", "the address").unwrap_err();
        let text = "'start' behind the address, not 'x\\xff'";
        assert_eq!(fault, Fault::new(9, text));
        let fault = words.number(9, "at").unwrap_err();
        let text = "a number below 10 behind 'at', not 'x\\xff'";
        assert_eq!(fault, Fault::new(9, text));
        let fault = Words::new(b" ", 2).any("an address").unwrap_err();
        assert_eq!(fault, Fault::new(2, "an address, not the line's end"));
    }

    #[test]
    fn numbers() {
        assert_eq!(decimal(b"0018446744073709551615"), Some(u64::MAX));
        for text in ["", "18446744073709551616", "+1", "1a", "-1", "1."] {
            assert_eq!(decimal(text.as_bytes()), None, "{}", text);
        }
    }
}
