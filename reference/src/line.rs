//! A line under construction: the mark, then columns with one blank before
//! each of them.

/// The line of one record.
#[derive(Default)]
pub struct Line {
    text: String,
}

impl Line {
    /// Begins a line anew.
    pub fn begin(&mut self, mark: &str) {
        self.text.clear();
        self.text.push_str(mark);
    }

    /// A column.
    pub fn word(&mut self, word: &str) {
        self.text.push(' ');
        self.text.push_str(word);
    }

    /// A decimal column.
    pub fn number(&mut self, number: impl Into<u128>) {
        self.word(&number.into().to_string());
    }

    pub fn numbers<const N: usize>(&mut self, numbers: [u128; N]) {
        for number in numbers {
            self.number(number);
        }
    }

    /// A column of lower-case hex.
    pub fn hex(&mut self, bytes: &[u8]) {
        self.text.push(' ');
        push_hex(&mut self.text, bytes);
    }

    /// The line feed.
    pub fn end(&mut self) {
        self.text.push('\n');
    }

    pub fn as_bytes(&self) -> &[u8] {
        self.text.as_bytes()
    }
}

/// Lower-case hex of `bytes`, appended.
pub fn push_hex(out: &mut String, bytes: &[u8]) {
    const DIGITS: &[u8; 16] = b"0123456789abcdef";
    for byte in bytes {
        out.push(char::from(DIGITS[usize::from(byte >> 4)]));
        out.push(char::from(DIGITS[usize::from(byte & 15)]));
    }
}
