//! What is wrong with a file, and where.

use codespan_reporting::diagnostic::{Diagnostic, Label};
use codespan_reporting::files::{Files, SimpleFile};
use codespan_reporting::term::termcolor::{ColorChoice, StandardStream};
use codespan_reporting::term::{emit, Chars, Config};
use serde_json::{json, Value};
use std::io::{stderr, IsTerminal, Write};
use std::ops::Range;
use std::path::Path;

/// No more problems of a text than these are told of.
pub const MOST_PROBLEMS: usize = 20;

/// A line that is longer is not shown.
const LONGEST_LINE: usize = 1000;

const MOST_SHOWN: usize = 60;

/// A text that has places: that of a file, or the listing of a file that is bytes.
pub struct Source {
    path: String,
    listed: bool,
    file: SimpleFile<String, String>,
}

impl Source {
    pub fn of_file(path: impl Into<String>, text: String) -> Source {
        let path = path.into();
        Source { file: SimpleFile::new(path.clone(), text), path, listed: false }
    }

    pub fn of_listing(path: &Path, text: String) -> Source {
        let path = path.display().to_string();
        Source { file: SimpleFile::new(format!("{path} (listed)"), text), path, listed: true }
    }

    pub fn text(&self) -> &str {
        self.file.source()
    }

    /// The same, with nothing in it that moves a cursor; all places stay.
    fn printable(&self) -> SimpleFile<String, String> {
        let printable = |c: char| match c {
            '\n' | '\t' => c.to_string(),
            _ if c.is_control() => "?".repeat(c.len_utf8()),
            _ => c.to_string(),
        };
        SimpleFile::new(shown(self.file.name()), self.text().chars().map(printable).collect())
    }
}

/// A fault at a place of a text.
#[derive(Clone, PartialEq, Eq, Debug)]
pub struct Problem {
    pub place: Range<usize>,
    pub message: String,
    /// What was expected there, or what the place is.
    pub label: String,
    /// Another place that has to do with it.
    pub beside: Option<(Range<usize>, String)>,
    /// The library's number, where it was the library that found it.
    pub number: Option<u32>,
    pub notes: Vec<String>,
}

impl Problem {
    pub fn new(place: Range<usize>, message: impl Into<String>, label: impl Into<String>) -> Problem {
        Problem { place, message: message.into(), label: label.into(), beside: None, number: None, notes: Vec::new() }
    }

    pub fn beside(mut self, place: Range<usize>, label: impl Into<String>) -> Problem {
        self.beside = Some((place, label.into()));
        self
    }

    /// The line and the column where it begins, from 1.
    pub fn position(&self, source: &Source) -> (usize, usize) {
        match source.file.location((), self.place.start) {
            Ok(location) => (location.line_number, location.column_number),
            Err(_) => (1, 1),
        }
    }

    /// In one line, as compilers print it.
    pub fn line(&self, source: &Source) -> String {
        let (line, column) = self.position(source);
        let label = if self.label.is_empty() { String::new() } else { format!(": {}", self.label) };
        format!("{}:{line}:{column}: {}: {}{label}", shown(source.file.name()), error(self.number), self.message)
    }

    pub fn json(&self, source: &Source) -> Value {
        let (line, column) = self.position(source);
        json!({
            "file": source.path, "listed": source.listed, "line": line, "column": column, "number": self.number,
            "message": self.message, "detail": self.label, "notes": self.notes,
        })
    }

    /// Whether the lines of its places can be shown.
    fn fits(&self, source: &Source) -> bool {
        let places = [Some(&self.place), self.beside.as_ref().map(|(place, _)| place)];
        places.into_iter().flatten().all(|place| {
            let line = source.file.line_index((), place.start).and_then(|line| source.file.line_range((), line));
            line.is_ok_and(|line| line.len() <= LONGEST_LINE)
        })
    }

    fn diagnostic(&self) -> Diagnostic<()> {
        let mut labels = vec![Label::primary((), self.place.clone()).with_message(&self.label)];
        if let Some((place, label)) = &self.beside {
            labels.push(Label::secondary((), place.clone()).with_message(label));
        }
        let mut diagnostic = Diagnostic::error().with_message(&self.message);
        diagnostic.code = self.number.map(|number| number.to_string());
        diagnostic.with_labels(labels).with_notes(self.notes.clone())
    }
}

/// How a line begins that tells of something wrong, with the library's number where it has one.
pub fn error(number: Option<u32>) -> String {
    number.map_or("error".into(), |number| format!("error[{number}]"))
}

/// A part of a text as it can be printed: not all of a long one, and nothing that moves a cursor.
pub fn shown(text: &str) -> String {
    let printed = |c: char| if c.is_control() { char::REPLACEMENT_CHARACTER } else { c };
    let more = if text.chars().nth(MOST_SHOWN).is_some() { "..." } else { "" };
    text.chars().take(MOST_SHOWN).map(printed).chain(more.chars()).collect()
}

/// Shows problems with their source lines, on standard error, in characters that every terminal has.
pub fn report(source: &Source, problems: &[Problem]) {
    let colour = if stderr().is_terminal() { ColorChoice::Auto } else { ColorChoice::Never };
    let stream = StandardStream::stderr(colour);
    let config = Config { chars: Chars::ascii(), ..Config::default() };
    let printable = source.printable();
    // Standard error that is closed is no reason to stop.
    for problem in problems {
        let _ = if problem.fits(source) {
            emit(&mut stream.lock(), &config, &printable, &problem.diagnostic()).is_ok()
        } else {
            writeln!(stream.lock(), "{}", problem.line(source)).is_ok()
        };
    }
    if problems.len() == MOST_PROBLEMS {
        let _ = writeln!(stream.lock(), "no more than {MOST_PROBLEMS} are shown");
    }
}
