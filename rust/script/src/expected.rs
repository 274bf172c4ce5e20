//! The answer that a line expects, and when it is the one that is heard.

use std::fmt;

/// An expected answer, in the words of the answer.
#[derive(Clone, Debug, PartialEq, Eq, Hash)]
pub struct Expected(String);

impl Expected {
    /// The answer that the text after the sign => expects: none if there is no word in it.
    pub fn new(text: &str) -> Option<Expected> {
        let text = text.trim();
        words(text).next()?;
        Some(Expected(text.to_string()))
    }

    /// Whether this is what is heard: the same words in the same order. Marks between words and
    /// the case of letters are not heard.
    ///
    /// ```
    /// use raftershim_script::Expected;
    ///
    /// let expected = Expected::new("bytes lost 0").expect("it has words");
    /// assert!(expected.is("bytes lost: 0"));
    /// assert!(!expected.is("bytes lost: 10"));
    /// ```
    pub fn is(&self, heard: &str) -> bool {
        words(&self.0).eq(words(heard))
    }
}

/// The words of a sentence: runs of letters and digits.
fn words(text: &str) -> impl Iterator<Item = String> + '_ {
    text.split(|c: char| !c.is_alphanumeric())
        .filter(|word| !word.is_empty())
        .map(str::to_lowercase)
}

impl fmt::Display for Expected {
    fn fmt(&self, f: &mut fmt::Formatter<'_>) -> fmt::Result {
        f.write_str(&self.0)
    }
}
