//! Options and names of a subcommand's command line.

use std::ops::Range;

/// The words not yet taken.
pub struct Arguments {
    words: Vec<String>,
}

impl Arguments {
    pub fn new(words: Vec<String>) -> Self {
        Arguments { words }
    }

    /// Takes an option without a value.
    pub fn flag(&mut self, name: &str) -> bool {
        let at = self.words.iter().position(|word| word == name);
        at.map(|at| self.words.remove(at)).is_some()
    }

    /// Takes an option with its value.
    pub fn value(&mut self, name: &str) -> Result<Option<String>, String> {
        let Some(at) = self.words.iter().position(|word| word == name) else {
            return Ok(None);
        };
        self.words.remove(at);
        if at == self.words.len() {
            return Err(format!("expected a value after {name}"));
        }
        Ok(Some(self.words.remove(at)))
    }

    /// Takes an option with a number.
    pub fn number(&mut self, name: &str) -> Result<Option<u64>, String> {
        let Some(text) = self.value(name)? else {
            return Ok(None);
        };
        let number = text.parse().ok();
        number
            .ok_or(format!("expected a number after {name}, not `{text}`"))
            .map(Some)
    }

    /// Takes `--seeds A..B` (B not included) or `--seeds A`.
    pub fn seeds(&mut self) -> Result<Option<Range<u64>>, String> {
        let Some(text) = self.value("--seeds")? else {
            return Ok(None);
        };
        let range = match text.split_once("..") {
            Some((from, to)) => from.parse().ok().zip(to.parse().ok()),
            None => text
                .parse()
                .ok()
                .and_then(|n: u64| Some((n, n.checked_add(1)?))),
        };
        let (from, to) = range.ok_or(format!("expected --seeds A..B, not `{text}`"))?;
        Ok(Some(from..to))
    }

    /// The names left, at most `most` of them.
    pub fn end(self, most: usize) -> Result<Vec<String>, String> {
        let option = self.words.iter().find(|w| w.starts_with('-') && *w != "-");
        let surplus = option.or(self.words.get(most));
        match surplus {
            Some(word) => Err(format!("expected no `{word}` here; see --help")),
            None => Ok(self.words),
        }
    }
}
