//! The tokens of a schedule's text. A token is the slice of its bytes; the end of the text is the empty slice.

/// A place of the text at which no schedule continues.
pub struct Stuck(pub usize);

pub struct Tokens<'t> {
    text: &'t [u8],
    at: usize,
    pub token: &'t [u8],
    /// The start of the first number that is too large.
    pub first_large: Option<usize>,
}

/// The length of the token at the start of these bytes, or None if there is no token.
fn length_of_token(rest: &[u8]) -> Option<usize> {
    let run = |fits: fn(&u8) -> bool| rest.iter().take_while(|byte| fits(byte)).count();
    match rest {
        [] => Some(0),
        [b'a'..=b'z' | b'A'..=b'Z', ..] => Some(run(u8::is_ascii_alphabetic)),
        [b'0', b'0'..=b'9', ..] => None,
        [b'0'..=b'9', ..] => Some(run(u8::is_ascii_digit)),
        [b'_', b'1' | b'2', ..] | [b'&', b'&', ..] | [b'|', b'|', ..] | [b'<' | b'>' | b'!', b'=', ..] => Some(2),
        [b'(' | b')' | b',' | b'.' | b'<' | b'>' | b'=' | b'+' | b'*', ..] => Some(1),
        _ => None,
    }
}

impl<'t> Tokens<'t> {
    pub fn new(text: &'t str) -> Result<Self, Stuck> {
        let mut tokens = Tokens { text: text.as_bytes(), at: 0, token: b"", first_large: None };
        tokens.advance()?;
        Ok(tokens)
    }

    /// Advances to the next token.
    pub fn advance(&mut self) -> Result<(), Stuck> {
        self.at += self.token.len();
        while self.text.get(self.at) == Some(&b' ') {
            self.at += 1;
        }
        let rest = &self.text[self.at..];
        let length = length_of_token(rest).ok_or(Stuck(self.at))?;
        self.token = &rest[..length];
        Ok(())
    }

    pub fn stuck<T>(&self) -> Result<T, Stuck> {
        Err(Stuck(self.at))
    }

    /// Reads this token, if it is here.
    pub fn accept(&mut self, token: &[u8]) -> Result<bool, Stuck> {
        if self.token != token {
            return Ok(false);
        }
        self.advance()?;
        Ok(true)
    }

    pub fn expect(&mut self, token: &[u8]) -> Result<(), Stuck> {
        if self.accept(token)? {
            Ok(())
        } else {
            self.stuck()
        }
    }

    pub fn number(&mut self) -> Result<u64, Stuck> {
        if !self.token.first().is_some_and(u8::is_ascii_digit) {
            return self.stuck();
        }
        let add = |number: u64, digit: &u8| number.checked_mul(10)?.checked_add(u64::from(digit - b'0'));
        let number = self.token.iter().try_fold(0, add);
        if number.is_none() && self.first_large.is_none() {
            self.first_large = Some(self.at);
        }
        self.advance()?;
        Ok(number.unwrap_or(u64::MAX))
    }
}
