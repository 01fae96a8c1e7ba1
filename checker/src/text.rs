//! Reading one line as an event. The leftmost wrong byte of the line decides.

use crate::event::Event;
use crate::fault::Cause;

/// A wrong byte in a line: its column (from 1) and the cause.
#[derive(Clone, Copy, PartialEq, Eq, Debug)]
pub struct WrongByte {
    pub column: usize,
    pub cause: Cause,
}

/// Reads a whole line, without its newline.
pub fn event(line: &[u8]) -> Result<Event, WrongByte> {
    let second_letter = match line.first() {
        Some(b'l' | b'u') => b'L',
        Some(b's' | b'j') => b'T',
        _ => return Err(WrongByte { column: 1, cause: Cause::FirstLetter }),
    };
    let mut rest = Reader { line, at: 1 };
    rest.byte(b'(')?;
    rest.byte(b'T')?;
    let thread = rest.number()?;
    rest.byte(b',')?;
    rest.byte(second_letter)?;
    let other = rest.number()?;
    rest.byte(b')')?;
    rest.end()?;
    Ok(match line[0] {
        b'l' => Event::Lock { thread, lock: other },
        b'u' => Event::Release { thread, lock: other },
        b's' => Event::Start { thread, started: other },
        _ => Event::Join { thread, joined: other },
    })
}

/// A line and the place of its next unread byte.
struct Reader<'a> {
    line: &'a [u8],
    at: usize,
}

impl Reader<'_> {
    fn next(&self) -> Option<u8> {
        self.line.get(self.at).copied()
    }

    fn wrong<T>(&self, cause: Cause) -> Result<T, WrongByte> {
        Err(WrongByte { column: self.at + 1, cause })
    }

    fn byte(&mut self, wanted: u8) -> Result<(), WrongByte> {
        if self.next() != Some(wanted) {
            return self.wrong(Cause::WrongByte);
        }
        self.at += 1;
        Ok(())
    }

    fn end(&self) -> Result<(), WrongByte> {
        match self.next() {
            None => Ok(()),
            Some(_) => self.wrong(Cause::WrongByte),
        }
    }

    fn digit(&mut self) -> Option<usize> {
        let byte = self.next().filter(u8::is_ascii_digit)?;
        self.at += 1;
        Some(usize::from(byte - b'0'))
    }

    /// One to three digits; a zero stands only alone.
    fn number(&mut self) -> Result<usize, WrongByte> {
        let Some(mut value) = self.digit() else {
            return self.wrong(Cause::WrongNumber);
        };
        let most_digits = if value == 0 { 1 } else { 3 };
        for _ in 1..most_digits {
            match self.digit() {
                Some(digit) => value = 10 * value + digit,
                None => return Ok(value),
            }
        }
        match self.next() {
            Some(byte) if byte.is_ascii_digit() => self.wrong(Cause::WrongNumber),
            _ => Ok(value),
        }
    }
}
