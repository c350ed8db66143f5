//! Checks scores, many at a time, and says of each that is not fine what is wrong and where.

use super::output::Output;
use super::Ended;
use indicatif::{ProgressBar, ProgressDrawTarget, ProgressStyle};
use score::library;
use score::names::Names;
use score::open::{self, Accepted, Failure};
use score::problem::{error, shown, Problem, Source, MOST_PROBLEMS};
use serde_json::{json, Value};
use std::collections::HashSet;
use std::env;
use std::fs;
use std::io::{stderr, IsTerminal};
use std::path::{Path, PathBuf};
use std::sync::atomic::{AtomicUsize, Ordering};
use std::sync::Mutex;
use std::thread;

/// Endings of files that stand beside scores and are none.
const BESIDE: [&str; 4] = ["names", "inputs", "journal", "part"];

/// The stack of a thread: four times what the library needs for a draft.
const STACK_BYTES: usize = 2 << 20;

/// What was found of a file.
struct Found {
    path: PathBuf,
    score: Result<Kind, Failure>,
    /// What is wrong with the names beside it, which no console reads.
    names: Option<Failure>,
}

#[derive(Clone, Copy, PartialEq, Eq)]
enum Kind {
    Score,
    Draft,
}

/// Checks files and all files of folders. A draft is refused, as a console does, unless drafts are taken.
pub fn check(paths: &[PathBuf], jobs: Option<u16>, drafts: bool, json: bool) -> Result<Ended, Failure> {
    let jobs = jobs.map_or_else(|| thread::available_parallelism().map_or(1, usize::from), usize::from);
    let found = check_all(all_files(paths), jobs, drafts, !json);
    let count = |wanted: fn(&Found) -> bool| found.iter().filter(|found| wanted(found)).count();
    let unreadable = count(|found| matches!(found.score, Err(Failure::File(_))));
    let refused = count(|found| found.score.is_err()) - unreadable;
    let wrong_names = count(|found| found.names.is_some());
    let mut out = Output::new();
    if json {
        let files: Vec<Value> = found.iter().map(as_json).collect();
        let fine = found.len() - refused - unreadable;
        out.line(json!({ "files": files, "fine": fine, "refused": refused, "unreadable": unreadable }))?;
    } else {
        for found in &found {
            found
                .score
                .as_ref()
                .err()
                .into_iter()
                .chain(&found.names)
                .try_for_each(|failure| out.line(line(failure)))?;
        }
        out.line(summary(&found, refused, unreadable, wrong_names))?;
    }
    out.flush()?;
    Ok(match (unreadable, refused + wrong_names) {
        (0, 0) => Ended::Fine,
        (0, _) => Ended::Refused,
        _ => Ended::Unreadable,
    })
}

fn summary(found: &[Found], refused: usize, unreadable: usize, wrong_names: usize) -> String {
    let drafts = found.iter().filter(|found| matches!(found.score, Ok(Kind::Draft))).count();
    let fine = found.len() - refused - unreadable;
    let drafts = if drafts > 0 { format!(" ({drafts} of them drafts)") } else { String::new() };
    let more = |count: usize, what: &str| if count > 0 { format!(", {count} {what}") } else { String::new() };
    let (unreadable, names) = (more(unreadable, "unreadable"), more(wrong_names, "with wrong names"));
    format!("{} checked: {fine} fine{drafts}, {refused} refused{unreadable}{names}", found.len())
}

/// The files that are named, and those in folders that are named, in the order of their names.
fn all_files(paths: &[PathBuf]) -> Vec<Result<PathBuf, (PathBuf, Failure)>> {
    let (mut files, mut seen) = (Vec::new(), HashSet::new());
    for path in paths {
        if !path.is_dir() {
            files.push(Ok(path.clone()));
            continue;
        }
        let before = files.len();
        add_folder(path, &mut files, &mut seen);
        if files.len() == before {
            let message = format!("{}: no scores in this folder", path.display());
            files.push(Err((path.clone(), Failure::File(message))));
        }
    }
    files
}

/// Adds the files of a folder and of the folders in it, each folder once.
fn add_folder(folder: &Path, files: &mut Vec<Result<PathBuf, (PathBuf, Failure)>>, seen: &mut HashSet<PathBuf>) {
    let entries = fs::read_dir(folder).and_then(|entries| entries.collect::<Result<Vec<_>, _>>());
    let mut entries = match fs::canonicalize(folder).and_then(|place| Ok((place, entries?))) {
        Ok((place, _)) if !seen.insert(place.clone()) => return,
        Ok((_, entries)) => entries,
        Err(error) => return files.push(Err((folder.to_path_buf(), Failure::file(folder, error)))),
    };
    entries.sort_by_key(|entry| entry.file_name());
    for entry in entries {
        let (path, hidden) = (entry.path(), entry.file_name().to_string_lossy().starts_with('.'));
        let beside = path.extension().is_some_and(|ending| BESIDE.iter().any(|other| ending == *other));
        match fs::metadata(&path) {
            _ if hidden || beside => (),
            Ok(there) if there.is_dir() => add_folder(&path, files, seen),
            Ok(there) if there.is_file() => files.push(Ok(path)),
            Ok(_) => files.push(Err((path.clone(), Failure::File(format!("{}: not a file", path.display()))))),
            Err(error) => files.push(Err((path.clone(), Failure::file(&path, error)))),
        }
    }
}

fn check_all(files: Vec<Result<PathBuf, (PathBuf, Failure)>>, jobs: usize, drafts: bool, shown: bool) -> Vec<Found> {
    let progress = progress(files.len(), shown);
    let next = AtomicUsize::new(0);
    let files: Vec<Mutex<Option<_>>> = files.into_iter().map(|file| Mutex::new(Some(file))).collect();
    let found: Vec<Mutex<Option<Found>>> = files.iter().map(|_| Mutex::new(None)).collect();
    let work = || loop {
        let k = next.fetch_add(1, Ordering::Relaxed);
        let Some(file) = files.get(k).and_then(|file| file.lock().ok()?.take()) else { break };
        let checked = match file {
            Ok(path) => check_file(path, drafts),
            Err((path, failure)) => Found { path, score: Err(failure), names: None },
        };
        *found[k].lock().expect("no thread fails while it holds it") = Some(checked);
        progress.inc(1);
    };
    thread::scope(|scope| {
        for _ in 1..jobs.min(files.len()) {
            // Where there is no room for another thread, those that there are do it all.
            if thread::Builder::new().stack_size(STACK_BYTES).spawn_scoped(scope, work).is_err() {
                break;
            }
        }
        work();
    });
    progress.finish_and_clear();
    found.into_iter().filter_map(|found| found.into_inner().ok().flatten()).collect()
}

/// A line that is drawn on a terminal alone, and only on one that can draw.
fn progress(files: usize, shown: bool) -> ProgressBar {
    let draws = env::var("TERM").is_ok_and(|terminal| !terminal.is_empty() && terminal != "dumb");
    let drawn = shown && draws && stderr().is_terminal();
    let target = if drawn { ProgressDrawTarget::stderr() } else { ProgressDrawTarget::hidden() };
    let bar = ProgressBar::with_draw_target(Some(files as u64), target);
    match ProgressStyle::with_template("checking {pos} of {len} {wide_bar}") {
        Ok(style) => bar.with_style(style.progress_chars("=> ")),
        Err(_) => bar,
    }
}

fn check_file(path: PathBuf, drafts: bool) -> Found {
    let (names, wrong) = match open::names(&path, None) {
        Ok(names) => (names, None),
        Err(failure) => (Names::default(), Some(failure)),
    };
    let score = judge(&path, names, drafts);
    Found { path, score, names: wrong }
}

fn judge(path: &Path, names: Names, drafts: bool) -> Result<Kind, Failure> {
    let opened = open::named(path, open::read(path)?, names)?;
    let refusal = match (library::check(&opened.bytes), &opened.verdict) {
        (Ok(()), _) => return Ok(Kind::Score),
        (Err(_), Ok(Accepted::Draft(_))) if drafts => return Ok(Kind::Draft),
        (Err(_), Err(refusal)) if drafts => *refusal,
        (Err(refusal), _) => refusal,
    };
    let problem = opened.refused(refusal);
    Err(Failure::Text(opened.source, vec![problem]))
}

/// What is wrong with a file, in one line: where it is, the number, what it says, and the line of the text form.
fn line(failure: &Failure) -> String {
    match failure {
        Failure::File(message) => message.clone(),
        Failure::Bytes(path, refusal, message) => {
            format!("{}: {}: {message}", path.display(), error(Some(refusal.number)))
        }
        Failure::Text(source, problems) => {
            let more = match problems.len() {
                0 | 1 => String::new(),
                MOST_PROBLEMS => format!(" (and at least {} more)", MOST_PROBLEMS - 1),
                count => format!(" (and {} more)", count - 1),
            };
            problems.first().map_or(String::new(), |problem| problem_line(source, problem)) + &more
        }
    }
}

fn problem_line(source: &Source, problem: &Problem) -> String {
    let said = source.text()[problem.place.start..].lines().next().unwrap_or_default().trim();
    let said = if said.is_empty() { String::new() } else { format!(": {}", shown(said)) };
    let notes: String = problem.notes.iter().map(|note| format!("; {note}")).collect();
    format!("{}{notes}{said}", problem.line(source))
}

fn as_json(found: &Found) -> Value {
    let kind = match found.score {
        Ok(Kind::Score) => Some("score"),
        Ok(Kind::Draft) => Some("draft"),
        Err(_) => None,
    };
    let wrong = found.score.as_ref().err().map_or(Value::Null, Failure::json);
    let names = found.names.as_ref().map_or(Value::Null, Failure::json);
    json!({
        "file": found.path.display().to_string(), "fine": kind.is_some(), "kind": kind, "wrong": wrong,
        "wrong_names": names,
    })
}
