//! What commands write: lines on standard output, and files.

use codespan_reporting::term::termcolor::{BufferedStandardStream, Color, ColorChoice, ColorSpec, WriteColor};
use score::library::{Map, Status};
use score::names::Names;
use score::open::Failure;
use serde_json::Value;
use std::fmt::Display;
use std::fs::{self, File};
use std::io::{self, stdout, ErrorKind, IsTerminal, Write};
use std::path::Path;

/// Standard output. Where nobody reads it any more, nothing more is written.
pub struct Output {
    stream: BufferedStandardStream,
    closed: bool,
}

impl Output {
    pub fn new() -> Output {
        let colour = if stdout().is_terminal() { ColorChoice::Auto } else { ColorChoice::Never };
        Output { stream: BufferedStandardStream::stdout(colour), closed: false }
    }

    /// Whether nobody reads it any more.
    pub fn closed(&self) -> bool {
        self.closed
    }

    pub fn text(&mut self, text: impl Display) -> Result<(), Failure> {
        self.attempt(|stream| write!(stream, "{text}"))
    }

    pub fn bytes(&mut self, bytes: &[u8]) -> Result<(), Failure> {
        self.attempt(|stream| stream.write_all(bytes))
    }

    pub fn line(&mut self, line: impl Display) -> Result<(), Failure> {
        self.attempt(|stream| writeln!(stream, "{line}"))
    }

    /// Writes what has to do with a status, on a terminal in its colour.
    pub fn status(&mut self, status: Status, text: impl Display) -> Result<(), Failure> {
        let colour = match status {
            Status::Quiet => return self.text(text),
            Status::Clash => Color::Yellow,
            Status::Aborted => Color::Red,
        };
        self.attempt(|stream| {
            stream.set_color(ColorSpec::new().set_fg(Some(colour)))?;
            write!(stream, "{text}")?;
            stream.reset()
        })
    }

    pub fn flush(&mut self) -> Result<(), Failure> {
        self.attempt(|stream| stream.flush())
    }

    fn attempt(&mut self, write: impl FnOnce(&mut BufferedStandardStream) -> io::Result<()>) -> Result<(), Failure> {
        if self.closed {
            return Ok(());
        }
        match write(&mut self.stream) {
            Err(error) if error.kind() == ErrorKind::BrokenPipe => {
                self.closed = true;
                Ok(())
            }
            Err(error) => Err(Failure::File(format!("standard output: {error}"))),
            Ok(()) => Ok(()),
        }
    }
}

/// Tokens in a line, by name.
pub fn tokens(names: &Names, map: &Map) -> String {
    match map.tokens().map(|token| names.token(token)).collect::<Vec<_>>() {
        none if none.is_empty() => "-".into(),
        tokens => tokens.join(" "),
    }
}

pub fn tokens_json(names: &Names, map: &Map) -> Value {
    map.tokens().map(|token| names.token(token)).collect()
}

/// A number of instants in words.
pub fn counted(instants: u64) -> String {
    format!("{instants} instant{}", if instants == 1 { "" } else { "s" })
}

/// Writes a file whole: what was there stays until all of the new is. What is no file, such as a device, is written to.
pub fn write(path: &Path, bytes: &[u8]) -> Result<(), Failure> {
    let place = fs::canonicalize(path).unwrap_or_else(|_| path.to_path_buf());
    let written = match fs::metadata(&place) {
        Ok(there) if !there.is_file() => fs::write(&place, bytes),
        _ => {
            let mut beside = place.as_os_str().to_os_string();
            beside.push(format!(".{}.part", std::process::id()));
            // What is there by this name is somebody else's.
            let mut part = File::create_new(&beside).map_err(|error| Failure::file(path, error))?;
            part.write_all(bytes).and_then(|()| fs::rename(&beside, &place)).map_err(|error| {
                // Where it cannot be taken away either, the first error is the one to tell of.
                let _ = fs::remove_file(&beside);
                error
            })
        }
    };
    written.map_err(|error| Failure::file(path, error))
}

/// Whether two paths lead to the same file.
pub fn same_file(path: &Path, other: &Path) -> bool {
    fs::canonicalize(path).is_ok_and(|path| fs::canonicalize(other).is_ok_and(|other| path == other))
}
