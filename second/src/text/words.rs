//! Lines and their words.

/// The words of one line, without its comment, and the next one to be taken.
#[derive(Clone, Debug)]
pub struct Words<'a> {
    words: Vec<&'a str>,
    next: usize,
}

/// The lines that are not empty, each with its number counted from 1.
pub fn numbered_lines(text: &str) -> impl Iterator<Item = (usize, Words<'_>)> {
    text.lines()
        .enumerate()
        .map(|(index, line)| (index + 1, Words::of(line)))
        .filter(|(_, words)| words.peek().is_some())
}

impl<'a> Words<'a> {
    pub fn of(line: &'a str) -> Words<'a> {
        let line = line.split('#').next().unwrap_or("");
        Words {
            words: line.split_ascii_whitespace().collect(),
            next: 0,
        }
    }

    /// All words, one space apart.
    pub fn text(&self) -> String {
        self.words.join(" ")
    }

    /// The next word, left in place.
    pub fn peek(&self) -> Option<&'a str> {
        self.words.get(self.next).copied()
    }

    /// Says what was expected and what stands there.
    pub fn wrong<T>(&self, expected: &str) -> Result<T, String> {
        match self.peek() {
            Some(found) => Err(format!("expected {expected}, found `{found}`")),
            None => Err(format!("expected {expected}, found the end of the line")),
        }
    }

    /// Takes the next word.
    pub fn take(&mut self, expected: &str) -> Result<&'a str, String> {
        match self.peek() {
            Some(word) => {
                self.next += 1;
                Ok(word)
            }
            None => self.wrong(expected),
        }
    }

    /// Takes the next word if it is this one.
    pub fn takes(&mut self, word: &str) -> bool {
        let found = self.peek() == Some(word);
        if found {
            self.next += 1;
        }
        found
    }

    /// Takes this word.
    pub fn must_take(&mut self, word: &str) -> Result<(), String> {
        if self.takes(word) {
            Ok(())
        } else {
            self.wrong(&format!("`{word}`"))
        }
    }

    /// Takes a word that `read` understands.
    pub fn parse<T>(
        &mut self,
        expected: &str,
        read: impl Fn(&str) -> Option<T>,
    ) -> Result<T, String> {
        match self.peek().and_then(read) {
            Some(value) => {
                self.next += 1;
                Ok(value)
            }
            None => self.wrong(expected),
        }
    }

    /// Takes a decimal number from 0 to `most`.
    pub fn number(&mut self, what: &str, most: u64) -> Result<u64, String> {
        let expected = format!("{what} (a number from 0 to {most})");
        self.parse(&expected, |word| decimal(word, most))
    }

    /// Takes a byte of two hexadecimal digits.
    pub fn byte(&mut self) -> Result<u8, String> {
        self.parse("a byte of two hexadecimal digits", |word| {
            Some(hexadecimal(word, 2)? as u8)
        })
    }

    /// Takes 64 bits of 16 hexadecimal digits.
    pub fn bits(&mut self, expected: &str) -> Result<u64, String> {
        self.parse(expected, |word| hexadecimal(word, 16))
    }

    /// Takes the bytes that are left, at least one.
    pub fn bytes(&mut self) -> Result<Vec<u8>, String> {
        let mut bytes = vec![self.byte()?];
        while self.peek().is_some() {
            bytes.push(self.byte()?);
        }
        Ok(bytes)
    }

    /// The line must end here.
    pub fn must_end(&self) -> Result<(), String> {
        match self.peek() {
            None => Ok(()),
            Some(_) => self.wrong("the end of the line"),
        }
    }
}

/// Decimal digits alone, at most `most`.
pub fn decimal(word: &str, most: u64) -> Option<u64> {
    if !word.bytes().all(|digit| digit.is_ascii_digit()) {
        return None;
    }
    word.parse().ok().filter(|&number| number <= most)
}

/// So many hexadecimal digits, at most 16.
fn hexadecimal(word: &str, digits: usize) -> Option<u64> {
    if word.len() != digits || !word.bytes().all(|digit| digit.is_ascii_hexdigit()) {
        return None;
    }
    u64::from_str_radix(word, 16).ok()
}
