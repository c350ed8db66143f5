//! Prints a journal, and checks it.

use super::output::{counted, tokens, tokens_json, Output};
use super::Ended;
use score::instants::{self, Entry, Fault, Form};
use score::library::{self, Map, Refusal, State, Status};
use score::names::Names;
use score::open::{self, Failure, Plain};
use score::problem::error;
use score::refusal::in_words;
use serde_json::{json, Value};
use std::path::Path;

/// The pressed tokens of an instant are not made wider than this to stand in a column.
const WIDEST: usize = 32;

const CUT: &str = "this is the last instant; the journal may have been cut short";
const OLD: &str = "versions before 3 wrote the outputs of a clash to the journal; a clash commands nothing";

/// An accepted journal is fine; of any other, what stands before the fault is printed too.
pub fn journal(file: &Path, path: &Path, names: Option<&Path>, json: bool) -> Result<Ended, Failure> {
    open::check_apart(file, path)?;
    let plain = open::score(file, names)?.plain()?;
    let bytes = open::read(path)?;
    let mut journal = Journal { path, plain, out: Output::new(), json };
    if journal.plain.draft && !json {
        journal.out.line("a draft: the journal is that of its plain score")?;
    }
    let fine = journal.judge(&bytes, false)?;
    journal.out.flush()?;
    Ok(Ended::of(fine))
}

struct Journal<'a> {
    path: &'a Path,
    plain: Plain,
    out: Output,
    json: bool,
}

impl Journal<'_> {
    /// Prints a journal, or the part of it before a fault in its form, with the library's verdict.
    fn judge(&mut self, bytes: &[u8], part: bool) -> Result<bool, Failure> {
        match library::journal_check(&self.plain.bytes, bytes) {
            Ok(instants) => {
                self.print(bytes, None)?;
                self.say_fine(instants, part)?;
                Ok(true)
            }
            Err(refusal) => {
                match Fault::of(refusal, bytes, Form::Journal, self.plain.score.tokens) {
                    Some(fault) => {
                        let before = instants::first(bytes, fault.instant.unwrap_or(0));
                        self.judge(before, true)?;
                        self.say_fault(refusal, &fault, part)?;
                    }
                    None if refusal.number == 14 => {
                        let wrong = refusal.value as usize;
                        self.print(bytes, Some(wrong))?;
                        self.say_difference(refusal, bytes, wrong, part)?;
                    }
                    None => return Err(self.refused(refusal)),
                }
                Ok(false)
            }
        }
    }

    fn refused(&self, refusal: Refusal) -> Failure {
        Failure::Bytes(self.path.to_path_buf(), refusal, in_words(refusal.number).into())
    }

    /// Prints the instants; those after a wrong one were not judged.
    fn print(&mut self, bytes: &[u8], wrong: Option<usize>) -> Result<(), Failure> {
        let (number, pressed) = self.widths(bytes);
        for (k, entry) in instants::entries(bytes).enumerate() {
            if self.out.closed() {
                break;
            }
            let judged = wrong.map_or(true, |wrong| k <= wrong);
            if self.json {
                let mut value = entry_json(&self.plain.names, &entry);
                value["instant"] = k.into();
                value["judged"] = judged.into();
                self.out.line(value)?;
                continue;
            }
            self.out.text(format_args!("{k:number$}  "))?;
            self.say_entry(&entry, pressed)?;
            self.out.line(match wrong {
                Some(wrong) if k == wrong => "  (wrong)",
                _ if judged => "",
                _ => "  (not judged)",
            })?;
        }
        Ok(())
    }

    /// How wide the numbers are and the pressed tokens.
    fn widths(&self, bytes: &[u8]) -> (usize, usize) {
        let (mut count, mut widest) = (0_usize, 1);
        for entry in instants::entries(bytes) {
            count += 1;
            if widest < WIDEST {
                widest = widest.max(tokens(&self.plain.names, &entry.pressed).chars().count()).min(WIDEST);
            }
        }
        (count.saturating_sub(1).to_string().len().max(4), widest)
    }

    /// An instant, without an end of the line.
    fn say_entry(&mut self, entry: &Entry, width: usize) -> Result<(), Failure> {
        self.out.status(entry.status, format_args!("{:7}", entry.status.word()))?;
        let (pressed, outputs) = (tokens(&self.plain.names, &entry.pressed), tokens(&self.plain.names, &entry.outputs));
        self.out.text(format_args!("  {pressed:width$}  ->  {outputs}"))
    }

    fn say_fine(&mut self, instants: u64, part: bool) -> Result<(), Failure> {
        if self.json {
            return self.out.line(json!({ "fine": true, "instants": instants, "part": part }));
        }
        match (part, instants) {
            (true, 0) => Ok(()),
            (true, _) => self.out.line(format_args!("fine up to there: {}", counted(instants))),
            (false, 0) => self.out.line("fine: no instants, the journal is empty"),
            (false, _) => self.out.line(format_args!("fine: {}", counted(instants))),
        }
    }

    /// Says which word has not the form of a journal's.
    fn say_fault(&mut self, refusal: Refusal, fault: &Fault, part: bool) -> Result<(), Failure> {
        let (said, line) = (in_words(refusal.number), fault.line());
        if self.json {
            return self.out.line(json!({
                "fine": false, "number": refusal.number, "message": format!("{said}: {line}"), "part": part,
                "word": fault.at, "held": fault.held, "instant": fault.instant,
            }));
        }
        self.out.line(format_args!("{}: {}: {said}: {line}", self.path.display(), error(Some(refusal.number))))
    }

    /// Says what the score plays in the instant that is wrong, and what the journal says.
    fn say_difference(&mut self, refusal: Refusal, bytes: &[u8], wrong: usize, part: bool) -> Result<(), Failure> {
        let until = instants::first(bytes, wrong + 1);
        let played = library::run(&self.plain.bytes, &mut State::start(&self.plain.score), &instants::inputs(until))
            .map_err(|refusal| self.refused(refusal))?;
        let (Some(plays), Some(says)) = (instants::entries(&played).last(), instants::entries(until).last()) else {
            return Err(self.refused(refusal));
        };
        let said = in_words(refusal.number);
        let differences = differences(&self.plain.names, &plays, &says);
        let last = instants::first(bytes, wrong + 1).len() == bytes.len();
        let note = match (plays.status, says.status) {
            (Status::Clash, Status::Clash) => Some(OLD),
            (plays_so, says_so) if last && plays_so == says_so && goes_on(&says.outputs, &plays.outputs) => Some(CUT),
            _ => None,
        };
        if self.json {
            return self.out.line(json!({
                "fine": false, "number": refusal.number, "message": format!("{said}: instant {wrong}"), "part": part,
                "instant": wrong, "plays": entry_json(&self.plain.names, &plays),
                "says": entry_json(&self.plain.names, &says), "differences": differences, "note": note,
            }));
        }
        self.out.line(format_args!(
            "{}: {}: {said}: instant {wrong}",
            self.path.display(),
            error(Some(refusal.number))
        ))?;
        for (label, entry) in [("the score plays", &plays), ("the journal says", &says)] {
            self.out.text(format_args!("  {label:16}  "))?;
            self.say_entry(entry, 1)?;
            self.out.line("")?;
        }
        differences.iter().try_for_each(|difference| self.out.line(format_args!("  {difference}")))?;
        note.map_or(Ok(()), |note| self.out.line(format_args!("note: {note}")))
    }
}

/// Whether outputs are the first of others: all of them, in their order, up to where they end.
fn goes_on(outputs: &Map, others: &Map) -> bool {
    others.tokens().zip(outputs.tokens()).all(|(other, token)| other == token)
}

/// In what the journal differs from what is played.
fn differences(names: &Names, plays: &Entry, says: &Entry) -> Vec<String> {
    let without = |map: &Map, other: &Map| map.tokens().filter(|&token| !other.has(token)).collect::<Map>();
    let status = (plays.status != says.status)
        .then(|| format!("another status: {} instead of {}", says.status.word(), plays.status.word()));
    let outputs = [
        ("outputs missing", without(&plays.outputs, &says.outputs)),
        ("outputs too many", without(&says.outputs, &plays.outputs)),
    ];
    let outputs = outputs.into_iter().filter(|(_, map)| *map != Map::default());
    status.into_iter().chain(outputs.map(|(what, map)| format!("{what}: {}", tokens(names, &map)))).collect()
}

fn entry_json(names: &Names, entry: &Entry) -> Value {
    json!({
        "status": entry.status.word(),
        "pressed": tokens_json(names, &entry.pressed),
        "outputs": tokens_json(names, &entry.outputs),
    })
}
