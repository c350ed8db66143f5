//! Opens files: a score as bytes or as text, and the names beside it.

use crate::library::{self, Refusal};
use crate::names::{self, Names};
use crate::origins;
use crate::problem::{Problem, Source};
use crate::refusal;
use crate::score::Score;
use crate::text::{make, print, Comments, Made, Places};
use serde_json::{json, Value};
use std::fs::{self, File};
use std::io::{stdin, ErrorKind, Read};
use std::path::{Path, PathBuf};

/// No file is read that has more bytes.
const MOST_BYTES: u64 = 1 << 30;

/// No text is read that has more: its lines alone take room.
const MOST_TEXT_BYTES: usize = 1 << 24;

/// The path that stands for standard input, and for standard output.
pub const STANDARD_INPUT: &str = "-";

/// Why a file could not be used.
pub enum Failure {
    /// It could not be read, or written.
    File(String),
    /// A text is wrong, or the library turned a score down at a place of its text or listing.
    Text(Source, Vec<Problem>),
    /// The library turned bytes down that have no listing.
    Bytes(PathBuf, Refusal, String),
}

impl Failure {
    pub fn file(path: &Path, error: std::io::Error) -> Failure {
        let error = error.to_string();
        let said = error.split(" (os error").next().unwrap_or_default();
        Failure::File(format!("{}: {said}", path.display()))
    }

    pub fn json(&self) -> Value {
        match self {
            Failure::File(message) => json!({ "error": message }),
            Failure::Text(source, problems) => {
                json!({ "problems": problems.iter().map(|problem| problem.json(source)).collect::<Vec<_>>() })
            }
            Failure::Bytes(path, refusal, message) => {
                let file = path.display().to_string();
                json!({ "problems": [{ "file": file, "number": refusal.number, "message": message }] })
            }
        }
    }
}

/// A score from a file, which the library may have turned down.
pub struct Opened {
    pub bytes: Vec<u8>,
    pub score: Score,
    pub names: Names,
    pub comments: Comments,
    /// The text that it was made of, or its listing, and where its words stand there.
    pub source: Source,
    pub places: Places,
    pub verdict: Result<Accepted, Refusal>,
}

/// What the library takes: a score, or a draft with its plain score.
pub enum Accepted {
    Score,
    Draft(Vec<u8>),
}

/// The bytes of a file, or of standard input for `-`.
pub fn read(path: &Path) -> Result<Vec<u8>, Failure> {
    let mut bytes = Vec::new();
    let read = if path == Path::new(STANDARD_INPUT) {
        stdin().take(MOST_BYTES + 1).read_to_end(&mut bytes)
    } else {
        File::open(path).and_then(|file| file.take(MOST_BYTES + 1).read_to_end(&mut bytes))
    };
    match read {
        Ok(read) if read as u64 > MOST_BYTES => Err(Failure::File(format!("{}: more than a gigabyte", path.display()))),
        Ok(_) => Ok(bytes),
        Err(error) => Err(Failure::file(path, error)),
    }
}

/// Standard input cannot be two things that are read.
pub fn check_apart(path: &Path, other: &Path) -> Result<(), Failure> {
    if path == other && path == Path::new(STANDARD_INPUT) {
        return Err(Failure::File("standard input cannot be both".into()));
    }
    Ok(())
}

/// A file that must be text.
pub fn read_text(path: &Path) -> Result<Source, Failure> {
    text_of(path, read(path)?)
}

/// The text of bytes, without the mark that it may begin with.
fn text_of(path: &Path, bytes: Vec<u8>) -> Result<Source, Failure> {
    let name = if path == Path::new(STANDARD_INPUT) { "standard input".into() } else { path.display().to_string() };
    if bytes.len() > MOST_TEXT_BYTES {
        return Err(Failure::File(format!("{name}: more than the 16 megabytes that a text may have")));
    }
    match String::from_utf8(bytes) {
        Ok(text) => Ok(Source::of_file(name, text.trim_start_matches('\u{FEFF}').into())),
        Err(error) => {
            let at = error.utf8_error().valid_up_to();
            let text = String::from_utf8_lossy(error.as_bytes()).into_owned();
            let place = at..at + char::REPLACEMENT_CHARACTER.len_utf8();
            Err(Failure::Text(Source::of_file(name, text), vec![Problem::new(place, "not text", "expected UTF-8")]))
        }
    }
}

/// The names file that stands beside a file.
pub fn names_beside(path: &Path) -> PathBuf {
    let mut name = path.as_os_str().to_os_string();
    name.push(".names");
    name.into()
}

/// The names that are told of, or those beside a file, where there are any.
pub fn names(path: &Path, told: Option<&Path>) -> Result<Names, Failure> {
    let beside = names_beside(path);
    let absent = || path == Path::new(STANDARD_INPUT) || fs::metadata(&beside).is_err_and(|error| is_absent(&error));
    let source = match told {
        Some(told) => read_text(told)?,
        None if absent() => return Ok(Names::default()),
        None => read_text(&beside)?,
    };
    names::read(source.text()).map_err(|problem| Failure::Text(source, vec![problem]))
}

/// Whether there is no such file, or none can have such a name.
fn is_absent(error: &std::io::Error) -> bool {
    matches!(error.kind(), ErrorKind::NotFound | ErrorKind::InvalidFilename)
}

/// Whether bytes are meant as a score: they begin as one does, or have a zero as no text has.
pub fn is_score(bytes: &[u8]) -> bool {
    bytes.is_empty() || bytes.get(3) == Some(&0x10) || bytes.contains(&0)
}

/// Opens a score, as bytes or as text.
pub fn score(path: &Path, told: Option<&Path>) -> Result<Opened, Failure> {
    let bytes = read(path)?;
    named(path, bytes, names(path, told)?)
}

/// The score of a file's bytes, with names.
pub fn named(path: &Path, bytes: Vec<u8>, names: Names) -> Result<Opened, Failure> {
    if is_score(&bytes) {
        of_bytes(path, bytes, names)
    } else {
        of_text(text_of(path, bytes)?, &names)
    }
}

fn of_bytes(path: &Path, bytes: Vec<u8>, names: Names) -> Result<Opened, Failure> {
    let Some(score) = Score::read(&bytes) else {
        let refusal = library::check(&bytes).expect_err("bytes that are a score can be taken apart");
        let held = refusal::of_bytes(refusal, &bytes);
        return Err(Failure::Bytes(path.to_path_buf(), refusal, held));
    };
    let comments = Comments::default();
    let listing = print(&score, &names, &comments);
    let source = Source::of_listing(path, listing.text);
    let verdict = judge(&score, &bytes);
    Ok(Opened { bytes, score, names, comments, source, places: listing.places, verdict })
}

/// Makes a score of a text.
pub fn of_text(source: Source, names: &Names) -> Result<Opened, Failure> {
    match make(source.text(), names) {
        Ok(Made { score, names, places, comments }) => {
            let bytes = score.bytes();
            let verdict = judge(&score, &bytes);
            Ok(Opened { bytes, score, names, comments, source, places, verdict })
        }
        Err(problems) => Err(Failure::Text(source, problems)),
    }
}

/// What the library says of a score, or of a draft.
fn judge(score: &Score, bytes: &[u8]) -> Result<Accepted, Refusal> {
    if score.is_draft() {
        library::translate(bytes).map(Accepted::Draft)
    } else {
        library::check(bytes).map(|()| Accepted::Score)
    }
}

impl Opened {
    /// The library's refusal, at its place.
    pub fn refused(&self, refusal: Refusal) -> Problem {
        refusal::problem(refusal, &self.score, &self.names, &self.places)
    }

    /// What a console plays: the score, or the plain score of a draft.
    pub fn plain(self) -> Result<Plain, Failure> {
        match self.verdict {
            Ok(Accepted::Score) => Ok(Plain { bytes: self.bytes, score: self.score, names: self.names, draft: false }),
            Ok(Accepted::Draft(bytes)) => {
                let score = Score::read(&bytes).expect("a plain score is a score");
                let names = match origins::of(&self.score, &score) {
                    Some(origins) => origins.names(&self.names),
                    None => Names { tokens: self.names.tokens, ..Names::default() },
                };
                Ok(Plain { bytes, score, names, draft: true })
            }
            Err(refusal) => {
                let problem = self.refused(refusal);
                Err(Failure::Text(self.source, vec![problem]))
            }
        }
    }
}

/// An accepted score, without watches.
pub struct Plain {
    pub bytes: Vec<u8>,
    pub score: Score,
    pub names: Names,
    /// Whether it was made of a draft.
    pub draft: bool,
}
