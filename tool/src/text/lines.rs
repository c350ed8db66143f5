//! A text as lines of words.

use crate::problem::Problem;
use std::ops::Range;

/// More words than a line of any score has.
const MOST_WORDS: usize = 8192;

#[derive(Clone, Debug)]
pub struct Word<'a> {
    pub text: &'a str,
    pub place: Range<usize>,
}

impl Word<'_> {
    /// Whether it is a number, or is meant as one: no name begins with a digit.
    pub fn is_numeral(&self) -> bool {
        self.text.starts_with(|c: char| c.is_ascii_digit())
    }
}

/// A line: its indentation in spaces, its words, and what stands from `#` on. A colon is a word.
pub struct Line<'a> {
    pub indent: usize,
    pub words: Vec<Word<'a>>,
    pub comment: Option<&'a str>,
    /// Where its words end.
    pub end: usize,
}

pub fn lines(text: &str) -> impl Iterator<Item = Result<Line<'_>, Problem>> {
    text.split_inclusive('\n').scan(0, |start, line| {
        let from = *start;
        *start += line.len();
        Some(read(line.trim_end_matches(['\n', '\r']), from))
    })
}

/// Reads a line that begins at an offset of the text.
fn read(line: &str, from: usize) -> Result<Line<'_>, Problem> {
    if let Some((at, c)) = line.char_indices().find(|(_, c)| c.is_control() && *c != '\t') {
        let place = from + at..from + at + c.len_utf8();
        return Err(Problem::new(place, "a control character", "expected text"));
    }
    let (said, comment) = match line.find('#') {
        Some(at) => (&line[..at], Some(line[at..].trim_end())),
        None => (line, None),
    };
    let indent = said.len() - said.trim_start_matches(' ').len();
    let blank = said[indent..].chars().next().filter(|c| c.is_whitespace() && !said.trim().is_empty());
    if let Some(blank) = blank {
        let place = from + indent..from + indent + blank.len_utf8();
        let what =
            if blank == '\t' { "a tab in the indentation" } else { "a blank in the indentation that is no space" };
        return Err(Problem::new(place, what, "expected spaces"));
    }
    let words: Vec<Word> = words(said, from).take(MOST_WORDS + 1).collect();
    if let Some(word) = words.get(MOST_WORDS) {
        return Err(Problem::new(word.place.clone(), "a line with more words than a score has", "expected a new line"));
    }
    Ok(Line { indent, words, comment, end: from + said.trim_end().len() })
}

/// The words of a part of a text that begins at an offset.
pub fn words(said: &str, from: usize) -> impl Iterator<Item = Word<'_>> {
    let mut at = 0;
    std::iter::from_fn(move || {
        let rest = &said[at..];
        let start = at + rest.find(|c: char| !c.is_whitespace())?;
        let word = &said[start..];
        let len = match word.find(|c: char| c.is_whitespace() || c == ':') {
            Some(0) => 1,
            Some(end) => end,
            None => word.len(),
        };
        at = start + len;
        Some(Word { text: &said[start..at], place: from + start..from + at })
    })
}
