//! Where the lines come from that a score is played with.

use rustyline::error::ReadlineError;
use rustyline::{Config, Editor};
use score::open::Failure;
use score::problem::{Problem, Source};
use std::io::{stdin, stdout, BufRead, Cursor, ErrorKind, IsTerminal, Read};
use std::path::Path;

/// No line is read that has more bytes.
const LONGEST_LINE: usize = 1 << 20;

/// Lines, one after another.
pub struct Lines {
    name: String,
    from: From,
    /// Whether a person types them, who can be told of a wrong one and go on.
    typed: bool,
    /// All that was read, up to the last line, and where that line begins.
    text: String,
    start: usize,
}

enum From {
    /// A terminal, with a prompt.
    Editor(Box<Editor<()>>),
    /// Standard input, as it comes.
    Stdin,
    File(Cursor<Vec<u8>>),
}

impl Lines {
    pub fn of_file(path: &Path, bytes: Vec<u8>) -> Lines {
        Lines::new(path.display().to_string(), From::File(Cursor::new(bytes)), false)
    }

    /// Lines of standard input, with a prompt on a terminal where one is wanted.
    pub fn of_stdin(prompt: bool) -> Lines {
        let typed = stdin().is_terminal();
        let from = if prompt && typed && stdout().is_terminal() {
            let config = Config::builder().bracketed_paste(false).auto_add_history(true).build();
            From::Editor(Box::new(Editor::with_config(config)))
        } else {
            From::Stdin
        };
        Lines::new("standard input".into(), from, typed)
    }

    fn new(name: String, from: From, typed: bool) -> Lines {
        Lines { name, from, typed, text: String::new(), start: 0 }
    }

    /// Whether a person types them.
    pub fn typed(&self) -> bool {
        self.typed
    }

    /// Whether they are waited for, so that what was said so far must be seen.
    pub fn live(&self) -> bool {
        !matches!(self.from, From::File(_))
    }

    /// The next line, if there is one; a line that is no text is a problem.
    pub fn next(&mut self, prompt: &str) -> Result<Option<Result<&str, Problem>>, Failure> {
        let mut bytes = Vec::new();
        let read = match &mut self.from {
            From::Editor(editor) => match editor.readline(prompt) {
                Ok(line) => {
                    bytes = line.into_bytes();
                    bytes.push(b'\n');
                    Ok(bytes.len())
                }
                Err(ReadlineError::Eof | ReadlineError::Interrupted) => Ok(0),
                Err(ReadlineError::Utf8Error) => return Ok(Some(Err(noise()))),
                Err(ReadlineError::Io(error)) if error.kind() == ErrorKind::InvalidData => {
                    return Ok(Some(Err(noise())));
                }
                Err(error) => Err(error.to_string()),
            },
            From::Stdin => {
                let mut line = stdin().lock().take(LONGEST_LINE as u64 + 1);
                line.read_until(b'\n', &mut bytes).map_err(|error| error.to_string())
            }
            From::File(file) => file.read_until(b'\n', &mut bytes).map_err(|error| error.to_string()),
        };
        match read {
            Ok(0) => Ok(None),
            Ok(read) if read > LONGEST_LINE => Err(Failure::File(format!("{}: a line of a megabyte", self.name))),
            Ok(_) => Ok(Some(self.add(&bytes))),
            Err(error) => Err(Failure::File(format!("{}: {error}", self.name))),
        }
    }

    /// Adds a line to the text, without the mark that a text may begin with.
    fn add(&mut self, bytes: &[u8]) -> Result<&str, Problem> {
        let mark: &[u8] = if self.text.is_empty() { "\u{FEFF}".as_bytes() } else { b"" };
        let bytes = bytes.strip_prefix(mark).unwrap_or(bytes);
        self.start = self.text.len();
        self.text += &String::from_utf8_lossy(bytes);
        match std::str::from_utf8(bytes) {
            Ok(_) => Ok(&self.text[self.start..]),
            Err(error) => {
                let at = error.valid_up_to();
                let mut problem = Problem::new(at..at + 1, "not text", "expected UTF-8");
                if bytes.contains(&0) {
                    problem.notes.push("an input list is played with --inputs".into());
                }
                Err(problem)
            }
        }
    }

    /// A problem of the last line, at its place in the whole text.
    pub fn failure(self, mut problem: Problem) -> Failure {
        problem.place = self.start + problem.place.start..self.start + problem.place.end;
        Failure::Text(Source::of_file(self.name, self.text), vec![problem])
    }
}

/// What was typed is no text.
fn noise() -> Problem {
    Problem::new(0..0, "not text", "expected UTF-8")
}
