//! Makes a score of a text.

use super::output::{same_file, write, Output};
use super::Ended;
use score::names::{self, Names};
use score::open::{self, Accepted, Failure, STANDARD_INPUT};
use serde_json::json;
use std::fs;
use std::path::Path;

/// Nothing is written of a text that is wrong, or that the library turns down.
pub fn make(text: &Path, output: &Path, plain: bool, names: Option<&Path>, json: bool) -> Result<Ended, Failure> {
    check_spare(output)?;
    if same_file(text, &open::names_beside(output)) {
        return Err(Failure::File(format!("{}: the names would be written over the text", text.display())));
    }
    let others = open::names(text, names)?;
    let bytes = open::read(text)?;
    if open::is_score(&bytes) {
        let message = format!("{}: not a text; `score list` prints a score as text", text.display());
        return Err(Failure::File(message));
    }
    let opened = open::named(text, bytes, others)?;
    let draft = matches!(opened.verdict, Ok(Accepted::Draft(_)));
    let (bytes, names) = if plain || opened.verdict.is_err() {
        let plain = opened.plain()?;
        (plain.bytes, plain.names)
    } else {
        (opened.bytes, opened.names)
    };
    let mut out = Output::new();
    if output == Path::new(STANDARD_INPUT) {
        out.bytes(&bytes)?;
        out.flush()?;
        return Ok(Ended::Fine);
    }
    write(output, &bytes)?;
    let named = write_names(output, &names)?;
    let kind = if draft && !plain { "draft" } else { "score" };
    let file = output.display();
    if json {
        out.line(json!({ "file": file.to_string(), "kind": kind, "bytes": bytes.len(), "names": named }))?;
    } else {
        let names = if named { " and its names" } else { "" };
        out.line(format_args!("{file}: a {kind} of {} bytes{names}", bytes.len()))?;
    }
    out.flush()?;
    Ok(Ended::Fine)
}

/// A score is not written over a text.
fn check_spare(output: &Path) -> Result<(), Failure> {
    let there = fs::metadata(output).is_ok_and(|there| there.is_file());
    if there && !open::is_score(&open::read(output)?) {
        return Err(Failure::File(format!("{}: the score would be written over a text", output.display())));
    }
    Ok(())
}

/// Writes the names beside a score, and says whether there are any. Names of an older score do not stay.
fn write_names(output: &Path, names: &Names) -> Result<bool, Failure> {
    let beside = open::names_beside(output);
    let named = *names != Names::default() && fs::metadata(output).is_ok_and(|there| there.is_file());
    if named {
        write(&beside, names::print(names).as_bytes())?;
    } else if beside.is_file() {
        fs::remove_file(&beside).map_err(|error| Failure::file(&beside, error))?;
    }
    Ok(named)
}
