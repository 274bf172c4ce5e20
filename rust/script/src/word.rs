//! The words of a line.

use crate::Mistake;

/// A word of a line: plain, or text between quotation marks.
#[derive(Clone, Copy)]
pub enum Word<'a> {
    Plain(&'a str),
    Text(&'a str),
}

impl<'a> Word<'a> {
    /// The word, if it is plain.
    pub fn plain(self) -> Option<&'a str> {
        match self {
            Word::Plain(word) => Some(word),
            Word::Text(_) => None,
        }
    }

    /// The word as a sentence names it: not too long, without characters that a terminal obeys.
    pub fn shown(self) -> String {
        let (word, mark) = match self {
            Word::Plain(word) => (word, ""),
            Word::Text(text) => (text, "\""),
        };
        let shown = |c: char| if c.is_control() { '?' } else { c };
        let start: String = word.chars().take(40).map(shown).collect();
        format!("{mark}{start}{mark}")
    }
}

/// Parts a line into its words.
pub fn words(mut line: &str) -> Result<Vec<Word<'_>>, Mistake> {
    let mut words = Vec::new();
    loop {
        line = line.trim_start();
        if line.is_empty() {
            return Ok(words);
        }
        if let Some(text) = line.strip_prefix('"') {
            let (text, rest) = text.split_once('"').ok_or(Mistake::OpenText)?;
            words.push(Word::Text(text));
            line = rest;
        } else {
            let end = line.find(|c: char| c == '"' || c.is_whitespace());
            let (word, rest) = line.split_at(end.unwrap_or(line.len()));
            words.push(Word::Plain(word));
            line = rest;
        }
    }
}

/// The place of the first mark that is not between quotation marks.
pub fn find_unquoted(line: &str, mark: &str) -> Option<usize> {
    let mut quoted = false;
    line.char_indices()
        .find(|&(place, c)| {
            quoted ^= c == '"';
            !quoted && line[place..].starts_with(mark)
        })
        .map(|(place, _)| place)
}

/// A decimal number, digits only.
pub fn number(word: &str, largest: u32) -> Option<u32> {
    let digits = word.bytes().all(|byte| byte.is_ascii_digit());
    let number = word.parse().ok().filter(|_| digits)?;
    Some(number).filter(|&number| number <= largest)
}

/// The bytes of a text, a byte for each character.
pub fn text_bytes(text: &str) -> Result<&[u8], Mistake> {
    if text.is_empty() {
        return Err(Mistake::EmptyText);
    }
    match text.chars().find(|c| !c.is_ascii()) {
        None => Ok(text.as_bytes()),
        Some(c) => Err(Mistake::WideCharacter(c)),
    }
}
