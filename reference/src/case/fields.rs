//! The words of a case line after its first: bare ones and `name=value` ones.

use super::text::whole_number;

/// The words not yet taken.
pub struct Fields {
    pub bare: Vec<String>,
    named: Vec<(String, String)>,
}

impl Fields {
    pub fn new(text: &str) -> Result<Fields, String> {
        let mut fields = Fields {
            bare: Vec::new(),
            named: Vec::new(),
        };
        for word in text.split_whitespace() {
            match word.split_once('=') {
                Some((name, value)) => {
                    if fields.named.iter().any(|(known, _)| known == name) {
                        return Err(format!("expected {name}= once"));
                    }
                    fields.named.push((name.to_string(), value.to_string()));
                }
                None => fields.bare.push(word.to_string()),
            }
        }
        Ok(fields)
    }

    pub fn take(&mut self, name: &str) -> Option<String> {
        let at = self.named.iter().position(|(known, _)| known == name)?;
        Some(self.named.remove(at).1)
    }

    pub fn number(&mut self, name: &str, most: u64) -> Result<u64, String> {
        let text = self.take(name).ok_or(format!("expected {name}=NUMBER"))?;
        let fits = whole_number(&text).filter(|number| *number <= most);
        fits.ok_or_else(|| format!("expected {name}= from 0 to {most}, not `{text}`"))
    }

    pub fn number_or(&mut self, name: &str, most: u64, other: u64) -> Result<u64, String> {
        match self.named.iter().any(|(known, _)| known == name) {
            true => self.number(name, most),
            false => Ok(other),
        }
    }

    /// A list of numbers joined by commas, where `A-B` stands for the numbers from A
    /// to B and `N*COUNT` for N that many times; empty if not given.
    pub fn list(&mut self, name: &str, most: u64) -> Result<Vec<u64>, String> {
        let text = self.take(name).unwrap_or_default();
        let parts = text.split(',').filter(|part| !part.is_empty());
        let mut list = Some(Vec::new());
        for part in parts {
            let numbers = numbers(part).filter(|numbers| numbers.iter().all(|n| *n <= most));
            list = list.zip(numbers).map(|(list, more)| [list, more].concat());
        }
        list.ok_or_else(|| format!("expected {name}= as numbers from 0 to {most}, not `{text}`"))
    }

    pub fn hex_or(&mut self, name: &str, length: usize, other: u8) -> Result<Vec<u8>, String> {
        let bytes = match self.take(name) {
            Some(text) => hex_groups(&text)?,
            None => vec![other; length],
        };
        match bytes.len() == length {
            true => Ok(bytes),
            false => Err(format!("expected {name}= of {length} bytes")),
        }
    }

    /// `fill=HH`: the byte that stands in each place.
    pub fn fill(&mut self) -> Result<Option<u8>, String> {
        let Some(text) = self.take("fill") else {
            return Ok(None);
        };
        match hex_groups(&text).as_deref() {
            Ok([byte]) => Ok(Some(*byte)),
            _ => Err(format!(
                "expected fill= as one byte of two hex digits, not `{text}`"
            )),
        }
    }

    /// An error if a word is left beyond the first `bare` bare ones.
    pub fn all_used(&self, bare: usize) -> Result<(), String> {
        if let Some((name, _)) = self.named.first() {
            return Err(format!("expected no `{name}=` here"));
        }
        match self.bare.get(bare) {
            Some(word) => Err(format!("expected no `{word}` here")),
            None => Ok(()),
        }
    }
}

/// One part of a list of numbers: `N`, `A-B` or `N*COUNT`, of at most 65,536 numbers.
fn numbers(part: &str) -> Option<Vec<u64>> {
    let few = |count: u64| count <= 1 << 16;
    if let Some((from, to)) = part.split_once('-') {
        let (from, to) = (whole_number(from)?, whole_number(to)?);
        return few(to.checked_sub(from)?).then(|| (from..=to).collect());
    }
    if let Some((number, count)) = part.split_once('*') {
        let (number, count) = (whole_number(number)?, whole_number(count)?);
        return few(count).then(|| vec![number; count as usize]);
    }
    Some(vec![whole_number(part)?])
}

/// Hex groups joined by commas, each repeated by `*COUNT`: `0102,00*6`.
pub fn hex_groups(text: &str) -> Result<Vec<u8>, String> {
    let wrong = || format!("expected bytes in hex, two digits each, not `{text}`");
    let mut out = Vec::new();
    for group in text.split(',').filter(|group| !group.is_empty()) {
        let (digits, times) = group.split_once('*').unwrap_or((group, "1"));
        let times = whole_number(times)
            .filter(|n| *n <= 1 << 20)
            .ok_or_else(wrong)?;
        if digits.len() % 2 != 0 || !digits.bytes().all(|b| b.is_ascii_hexdigit()) {
            return Err(wrong());
        }
        let mut bytes = Vec::new();
        for at in (0..digits.len()).step_by(2) {
            bytes.push(u8::from_str_radix(&digits[at..at + 2], 16).map_err(|_| wrong())?);
        }
        for _ in 0..times {
            out.extend(&bytes);
        }
    }
    Ok(out)
}
