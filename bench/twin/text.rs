//! Words and numbers of a text.

/// A fault in a file: the number of the refusal, and the place of the token's first byte.
pub struct Fault {
    pub number: u8,
    pub at: usize,
}

pub const MALFORMED: u8 = 7;

/// A number and the place where its token begins.
pub struct Number {
    pub value: u32,
    pub at: usize,
}

impl Number {
    /// The fault that this number is.
    pub fn fault(&self, number: u8) -> Fault {
        Fault {
            number,
            at: self.at,
        }
    }
}

/// A text with the place up to which it has been read.
pub struct Reader<'a> {
    text: &'a [u8],
    at: usize,
}

fn is_blank(byte: u8) -> bool {
    matches!(byte, 9 | 10 | 13 | 32)
}

impl<'a> Reader<'a> {
    pub fn new(text: &'a [u8]) -> Self {
        Reader { text, at: 0 }
    }

    /// Where the next token begins; the text's length where there is none.
    pub fn next_start(&mut self) -> usize {
        while self.at < self.text.len() && is_blank(self.text[self.at]) {
            self.at += 1;
        }
        self.at
    }

    fn token(&mut self) -> (usize, &'a [u8]) {
        let start = self.next_start();
        while self.at < self.text.len() && !is_blank(self.text[self.at]) {
            self.at += 1;
        }
        (start, &self.text[start..self.at])
    }

    /// The name: 1 to 64 digits or marks.
    pub fn skip_name(&mut self) -> Result<(), Fault> {
        let (at, token) = self.token();
        if (1..=64).contains(&token.len()) && token.iter().all(|byte| (33..=126).contains(byte)) {
            return Ok(());
        }
        Err(Fault {
            number: MALFORMED,
            at,
        })
    }

    /// A number of 1 to 10 digits, at most 4,294,967,295.
    pub fn number(&mut self) -> Result<Number, Fault> {
        let (at, token) = self.token();
        let fault = Fault {
            number: MALFORMED,
            at,
        };
        if !(1..=10).contains(&token.len()) {
            return Err(fault);
        }
        let mut value: u64 = 0;
        for byte in token {
            if !byte.is_ascii_digit() {
                return Err(fault);
            }
            value = value * 10 + (byte - b'0') as u64;
        }
        match u32::try_from(value) {
            Ok(value) => Ok(Number { value, at }),
            Err(_) => Err(fault),
        }
    }

    /// No token is left.
    pub fn end(&mut self) -> Result<(), Fault> {
        let at = self.next_start();
        if at == self.text.len() {
            Ok(())
        } else {
            Err(Fault {
                number: MALFORMED,
                at,
            })
        }
    }
}
