//! The values behind the header, one after the other.
use super::header::{Format, Scalar};
use quads::LIMIT;
use std::io::{BufRead, ErrorKind, Read, Take};

/// The most bytes of values that are read: a line of 256 bytes for each point and each quad of the largest sheet.
const MOST_BYTES: u64 = 2 * 256 * LIMIT as u64;

/// The longest word of a number.
const LONGEST_WORD: usize = 1024;

/// What is left of the values.
pub struct Values<'a> {
    format: Format,
    input: Take<&'a mut dyn BufRead>,
}

impl<'a> Values<'a> {
    /// All values of an input, from behind the header.
    pub fn new(format: Format, input: &'a mut dyn BufRead) -> Values<'a> {
        Values { format, input: input.take(MOST_BYTES) }
    }

    /// The next value of a type; an f64 holds each of them exactly.
    pub fn next(&mut self, scalar: Scalar) -> Result<f64, String> {
        if self.format == Format::Ascii {
            let word = self.word()?;
            return word.parse().map_err(|_| format!("{word} is not a number"));
        }
        match scalar {
            Scalar::I8 => Ok(i8::from_le_bytes(self.bytes()?).into()),
            Scalar::U8 => Ok(u8::from_le_bytes(self.bytes()?).into()),
            Scalar::I16 => Ok(i16::from_le_bytes(self.bytes()?).into()),
            Scalar::U16 => Ok(u16::from_le_bytes(self.bytes()?).into()),
            Scalar::I32 => Ok(i32::from_le_bytes(self.bytes()?).into()),
            Scalar::U32 => Ok(u32::from_le_bytes(self.bytes()?).into()),
            Scalar::F32 => Ok(f32::from_le_bytes(self.bytes()?).into()),
            Scalar::F64 => Ok(f64::from_le_bytes(self.bytes()?)),
        }
    }

    /// The next N bytes, the lowest first.
    fn bytes<const N: usize>(&mut self) -> Result<[u8; N], String> {
        let mut bytes = [0; N];
        match self.input.read_exact(&mut bytes) {
            Ok(()) => {}
            Err(error) if error.kind() == ErrorKind::UnexpectedEof => return Err(self.end()),
            Err(error) => return Err(error.to_string()),
        }
        if self.format == Format::BigEndian {
            bytes.reverse();
        }
        Ok(bytes)
    }

    /// The next word.
    fn word(&mut self) -> Result<String, String> {
        while self.part(u8::is_ascii_whitespace, |_| {})? > 0 {}
        let mut word = Vec::with_capacity(32);
        while self.part(|byte| !byte.is_ascii_whitespace(), |part| word.extend(part))? > 0 {
            if word.len() > LONGEST_WORD {
                return Err(format!("a word of more than {LONGEST_WORD} bytes is not a number"));
            }
        }
        if word.is_empty() {
            return Err(self.end());
        }
        String::from_utf8(word).map_err(|_| "its values are not text".into())
    }

    /// Takes the bytes of a kind that come next and are here already, and hands them on: how many there are, 0 where
    /// another kind or the end comes.
    fn part(&mut self, is_of_kind: fn(&u8) -> bool, take: impl FnOnce(&[u8])) -> Result<usize, String> {
        let here = self.input.fill_buf().map_err(|error| error.to_string())?;
        let length = here.iter().take_while(|byte| is_of_kind(byte)).count();
        take(&here[..length]);
        self.input.consume(length);
        Ok(length)
    }

    /// What is wrong where no more values come.
    fn end(&self) -> String {
        match self.input.limit() {
            0 => format!("the file is longer than {MOST_BYTES} bytes, the most that a sheet can take"),
            _ => "the file ends too early".into(),
        }
    }
}

#[cfg(test)]
mod tests {
    use super::*;
    use std::io::BufReader;

    /// All words of a text that comes in parts of so many bytes.
    fn words(text: &str, bytes: usize) -> Vec<Result<f64, String>> {
        let mut input = BufReader::with_capacity(bytes, text.as_bytes());
        let mut values = Values::new(Format::Ascii, &mut input);
        (0..4).map(|_| values.next(Scalar::F64)).collect()
    }

    #[test]
    fn words_may_come_in_parts() {
        let told = |text: &str| Err(text.to_string());
        for bytes in [1, 2, 3, 100] {
            let expected = [Ok(-12.5), Ok(1e9), told("x7 is not a number"), told("the file ends too early")];
            assert_eq!(words(" \t-12.5\r\n\n1e9 x7", bytes), expected, "{bytes}");
        }
    }

    #[test]
    fn a_word_has_an_end() {
        let long = "1".repeat(LONGEST_WORD + 1);
        assert!(words(&long, 100)[0].as_ref().is_err_and(|told| told.starts_with("a word of more than")));
        assert_eq!(words(&long[1..], 100)[0], Ok(long[1..].parse().unwrap()));
    }

    #[test]
    fn values_have_an_end() {
        let mut endless = BufReader::new(std::io::repeat(b' '));
        let mut values = Values::new(Format::Ascii, &mut endless);
        values.input.set_limit(10_000);
        assert!(values.next(Scalar::F64).is_err_and(|told| told.starts_with("the file is longer than")));
    }
}
