//! The text of a case file: comments, `repeat` blocks and placeholders, down
//! to plain lines with their expectation.

use std::fmt;

/// An error of a case file, printed as `FILE:LINE: what was expected`.
#[derive(Clone, Debug, PartialEq, Eq)]
pub struct CaseError {
    pub file: String,
    pub line: usize,
    pub message: String,
}

impl fmt::Display for CaseError {
    fn fmt(&self, f: &mut fmt::Formatter<'_>) -> fmt::Result {
        write!(f, "{}:{}: {}", self.file, self.line, self.message)
    }
}

/// A line of the case after `repeat` and placeholders.
#[derive(Clone, Debug, PartialEq, Eq)]
pub struct PlainLine {
    /// The number of the line in the file.
    pub line: usize,
    /// The record's words.
    pub words: String,
    /// What follows `=>`.
    pub expected: Option<String>,
}

/// The counters of the blocks around a line: name and value.
type Counters = Vec<(String, i128)>;

/// All plain lines of a case text, or (line, message).
pub fn plain_lines(text: &str) -> Result<Vec<PlainLine>, (usize, String)> {
    let lines: Vec<(usize, &str)> = text
        .lines()
        .enumerate()
        .map(|(at, line)| (at + 1, without_comment(line).trim()))
        .filter(|(_, line)| !line.is_empty())
        .collect();
    let mut plain = Vec::new();
    expand(&lines, &mut Counters::new(), &mut plain)?;
    Ok(plain)
}

/// A `#` begins a comment, except inside double quotes.
fn without_comment(line: &str) -> &str {
    let mut quoted = false;
    for (at, character) in line.char_indices() {
        match character {
            '"' => quoted = !quoted,
            '#' if !quoted => return &line[..at],
            _ => {}
        }
    }
    line
}

fn expand(
    lines: &[(usize, &str)],
    counters: &mut Counters,
    plain: &mut Vec<PlainLine>,
) -> Result<(), (usize, String)> {
    let mut at = 0;
    while at < lines.len() {
        let (number, line) = lines[at];
        let words: Vec<&str> = line.split_whitespace().collect();
        match words[0] {
            "repeat" => {
                let close = block_end(lines, at)?;
                let usage = || (number, "expected `repeat COUNT [COUNTER]`".to_string());
                let name = match words.as_slice() {
                    [_, _] => "i",
                    [_, _, name] if is_name(name) => name,
                    _ => return Err(usage()),
                };
                let count_text = placeholders(words[1], counters).map_err(|e| (number, e))?;
                let count = whole_number(&count_text).ok_or_else(usage)?;
                for value in 0..count {
                    counters.push((name.to_string(), value as i128));
                    expand(&lines[at + 1..close], counters, plain)?;
                    counters.pop();
                }
                at = close + 1;
            }
            "end" => return Err((number, "expected `repeat` before this `end`".to_string())),
            _ => {
                let line = placeholders(line, counters).map_err(|e| (number, e))?;
                let (words, expected) = match line.split_once("=>") {
                    Some((words, expected)) => (words.trim(), Some(expected.trim().to_string())),
                    None => (line.trim(), None),
                };
                if expected.as_deref() == Some("") {
                    return Err((number, "expected an answer after `=>`".to_string()));
                }
                plain.push(PlainLine {
                    line: number,
                    words: words.to_string(),
                    expected,
                });
                at += 1;
            }
        }
    }
    Ok(())
}

/// The place of the `end` that closes the `repeat` at `open`.
fn block_end(lines: &[(usize, &str)], open: usize) -> Result<usize, (usize, String)> {
    let mut depth = 0;
    for (at, (_, line)) in lines.iter().enumerate().skip(open) {
        match line.split_whitespace().next() {
            Some("repeat") => depth += 1,
            Some("end") => depth -= 1,
            _ => {}
        }
        if depth == 0 {
            return Ok(at);
        }
    }
    Err((lines[open].0, "expected `end` to this `repeat`".to_string()))
}

fn is_name(text: &str) -> bool {
    !text.is_empty() && text.chars().all(|c| c.is_ascii_lowercase())
}

/// A decimal or 0x hexadecimal number.
pub fn whole_number(text: &str) -> Option<u64> {
    let plain = text.replace('_', "");
    match plain
        .strip_prefix("0x")
        .or_else(|| plain.strip_prefix("0X"))
    {
        Some(hex) if !hex.starts_with('+') => u64::from_str_radix(hex, 16).ok(),
        _ if plain.starts_with('+') => None,
        _ => plain.parse().ok(),
    }
}

/// The line with every `{expression}` worked out.
fn placeholders(line: &str, counters: &Counters) -> Result<String, String> {
    let mut out = String::new();
    let mut rest = line;
    while let Some(open) = rest.find('{') {
        let close = rest[open..]
            .find('}')
            .ok_or("expected `}` after this `{`")?;
        out.push_str(&rest[..open]);
        let expression = &rest[open + 1..open + close];
        out.push_str(&worked_out(expression, counters)?.to_string());
        rest = &rest[open + close + 1..];
    }
    out.push_str(rest);
    Ok(out)
}

/// Sums and products of numbers and counters; `*` binds closer than `+` `-`.
fn worked_out(expression: &str, counters: &Counters) -> Result<i128, String> {
    let wrong = || format!("expected a sum or product of numbers and counters in {{{expression}}}");
    let mut sum: i128 = 0;
    let mut sign = 1;
    let mut rest = expression.trim();
    loop {
        let end = rest.find(['+', '-']).unwrap_or(rest.len());
        let mut product: i128 = 1;
        for factor in rest[..end].split('*') {
            let factor = factor.trim();
            let counter = counters.iter().rev().find(|(name, _)| name == factor);
            let value = match counter {
                Some((_, value)) => *value,
                None => whole_number(factor).ok_or_else(wrong)?.into(),
            };
            product = product.checked_mul(value).ok_or_else(wrong)?;
        }
        sum = sum.checked_add(sign * product).ok_or_else(wrong)?;
        if end == rest.len() {
            break;
        }
        sign = if rest.as_bytes()[end] == b'-' { -1 } else { 1 };
        rest = &rest[end + 1..];
    }
    if sum < 0 {
        return Err(format!(
            "expected a result of 0 or more in {{{expression}}}"
        ));
    }
    Ok(sum)
}
