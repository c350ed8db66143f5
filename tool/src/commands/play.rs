//! Plays a score, instant by instant.

use super::lines::Lines;
use super::output::{counted, same_file, tokens, tokens_json, write, Output};
use super::Ended;
use score::instants::{self, Fault, Form};
use score::library::{self, Map, Refusal, State, Status, INSTANT_WORD, KIND_MASK};
use score::open::{self, Failure, Plain, STANDARD_INPUT};
use score::problem::Problem;
use score::refusal::in_words;
use score::score::words;
use score::switches::{Asked, Line, Switches, COMMANDS, HELP};
use score::text::brief;
use score::waiting::{self, Step, Wrong};
use serde_json::{json, Value};
use std::fs;
use std::path::Path;

/// Not more lines than these are said after an instant of what is awake, and of what waits: an instant fits on a screen.
const MOST_LINES: usize = 8;

/// Why play stops before its end.
enum Stop {
    Failure(Failure),
    /// This program and the library differ in an instant.
    Differs(u32),
}

impl From<Failure> for Stop {
    fn from(failure: Failure) -> Stop {
        Stop::Failure(failure)
    }
}

/// Where the switches come from: an input list, or lines.
enum Inputs {
    List(Vec<u8>),
    Lines(Lines),
}

/// The journal of what was played is written however play ends.
pub fn play(
    file: &Path,
    inputs: Option<&Path>,
    journal: Option<&Path>,
    names: Option<&Path>,
    json: bool,
) -> Result<Ended, Failure> {
    open::check_apart(file, inputs.unwrap_or(Path::new(STANDARD_INPUT)))?;
    let plain = open::score(file, names)?.plain()?;
    let lines = open_inputs(inputs, &plain, json)?;
    let mut player = Player::new(file, plain, json);
    player.inputs = inputs;
    player.journal = journal;
    player.keep_journal()?;
    let played = player.play(lines);
    let written = journal.map_or(Ok(()), |journal| player.write_journal(journal));
    let ended = player.end(played, written);
    player.out.flush()?;
    ended
}

/// Whether a file can be replaced by a journal: it is not there, is a device, or has a journal in it.
fn is_spare(path: &Path) -> Result<bool, Failure> {
    if !fs::metadata(path).is_ok_and(|there| there.is_file()) {
        return Ok(true);
    }
    let bytes = open::read(path)?;
    let begins = words(&bytes).next().is_some_and(|word| word & KIND_MASK == INSTANT_WORD);
    Ok(begins || bytes.is_empty())
}

/// Opens the inputs. An input list is one that the library takes.
fn open_inputs(inputs: Option<&Path>, plain: &Plain, json: bool) -> Result<Inputs, Failure> {
    let Some(path) = inputs else { return Ok(Inputs::Lines(Lines::of_stdin(!json))) };
    let bytes = open::read(path)?;
    if !bytes.contains(&0) {
        return Ok(Inputs::Lines(Lines::of_file(path, bytes)));
    }
    match library::list_check(&plain.bytes, State::start(&plain.score), &bytes) {
        Ok(()) => Ok(Inputs::List(bytes)),
        Err(refusal) => {
            let fault = Fault::of(refusal, &bytes, Form::List, plain.score.tokens).map(|fault| fault.line());
            Err(refused(path, refusal, fault))
        }
    }
}

/// A refusal in words, with what it speaks of.
fn refused(path: &Path, refusal: Refusal, what: Option<String>) -> Failure {
    let said = in_words(refusal.number);
    Failure::Bytes(path.to_path_buf(), refusal, what.map_or(said.into(), |what| format!("{said}: {what}")))
}

/// A score that is played.
struct Player<'a> {
    file: &'a Path,
    plain: Plain,
    /// Where an input list or lines come from, and where the journal goes.
    inputs: Option<&'a Path>,
    journal: Option<&'a Path>,
    state: State,
    /// The input list of the instants played.
    list: Vec<u8>,
    /// For each instant that one can go back over, the state before it and how long the list was.
    before: Vec<(State, usize)>,
    out: Output,
    json: bool,
}

impl<'a> Player<'a> {
    fn new(file: &'a Path, plain: Plain, json: bool) -> Player<'a> {
        let (state, out) = (State::start(&plain.score), Output::new());
        Player { file, plain, inputs: None, journal: None, state, list: Vec::new(), before: Vec::new(), out, json }
    }

    /// Writes the journal so far where it goes, with no word of it, so that it is there where play breaks off.
    fn keep_journal(&self) -> Result<(), Failure> {
        self.journal.map_or(Ok(()), |path| self.save(path))
    }

    /// Writes the journal of what was played, by the library's run, and over nothing else.
    fn save(&self, path: &Path) -> Result<(), Failure> {
        if self.inputs.is_some_and(|inputs| same_file(inputs, path)) || !is_spare(path)? {
            let message = format!("{}: the journal would be written over something else", path.display());
            return Err(Failure::File(message));
        }
        let journal = library::run(&self.plain.bytes, &mut State::start(&self.plain.score), &self.list);
        write(path, &journal.map_err(|refusal| refused(self.file, refusal, None))?)
    }

    /// What play ends with. Of two failures the first is for the caller to tell of.
    fn end(&mut self, played: Result<(), Stop>, written: Result<(), Failure>) -> Result<Ended, Failure> {
        if let (Err(_), Err(Failure::File(message))) = (&played, &written) {
            self.say_error(message)?;
        }
        match played {
            Ok(()) => written.map(|()| Ended::Fine),
            Err(Stop::Failure(failure)) => Err(failure),
            Err(Stop::Differs(instant)) => self.say_difference(instant).map(|()| Ended::Refused),
        }
    }

    fn play(&mut self, inputs: Inputs) -> Result<(), Stop> {
        if self.plain.draft && !self.json {
            self.out.line("a draft: its plain score is played")?;
        }
        let called = self.plain.names.tokens.values().filter(|name| COMMANDS.contains(&name.as_str()));
        for name in called.cloned().collect::<Vec<_>>() {
            self.say(&format!("`{name}` alone is a command; `press {name}` presses the token"))?;
        }
        self.say_state("start")?;
        match inputs {
            Inputs::Lines(lines) => self.play_lines(lines),
            Inputs::List(list) => self.play_list(&list),
        }
    }

    fn play_list(&mut self, list: &[u8]) -> Result<(), Stop> {
        for entry in instants::entries(list) {
            self.instant(&entry.pressed)?;
            if self.out.closed() {
                break;
            }
        }
        Ok(())
    }

    /// Plays until the lines end, or nobody reads what is said of them. A wrong line ends it too, if nobody typed it.
    fn play_lines(&mut self, mut lines: Lines) -> Result<(), Stop> {
        let switches = Switches::of(&self.plain.score, &self.plain.names);
        loop {
            if lines.live() {
                self.out.flush()?;
            }
            if self.out.closed() {
                return Ok(());
            }
            let prompt = format!("instant {}> ", self.state.number());
            let Some(line) = lines.next(&prompt)? else { return Ok(()) };
            match line.and_then(|line| switches.read(line)) {
                Ok(Line::Remark) => (),
                Ok(Line::Quit) => return Ok(()),
                Ok(Line::Play(asked)) => match self.obey(asked) {
                    Err(Stop::Failure(Failure::File(message))) if lines.typed() => self.say_error(&message)?,
                    done if lines.typed() => {
                        done?;
                        self.keep_journal()?;
                    }
                    done => done?,
                },
                Err(problem) if lines.typed() => self.say_problem(&problem)?,
                Err(problem) => return Err(lines.failure(problem).into()),
            }
        }
    }

    fn obey(&mut self, asked: Asked) -> Result<(), Stop> {
        match asked {
            Asked::Press(pressed) => {
                let before = (self.state, self.list.len());
                self.instant(&pressed)?;
                self.before.push(before);
                Ok(())
            }
            Asked::Back => self.back(),
            Asked::Awake => self.say_state("now"),
            Asked::Store => self.say_store(),
            Asked::Journal(path) => Ok(self.write_journal(&path)?),
            Asked::Help => Ok(self.say_help()?),
        }
    }

    /// Plays an instant, and the one after it as it would be with nothing pressed.
    fn instant(&mut self, pressed: &Map) -> Result<(), Stop> {
        let step = self.step(&self.state, pressed)?;
        let ahead = self.step(&step.after, &Map::default())?;
        let number = self.state.number();
        self.state = step.after;
        instants::push(&mut self.list, pressed);
        Ok(self.say_instant(number, pressed, &step, &ahead)?)
    }

    fn step(&self, state: &State, pressed: &Map) -> Result<Step, Stop> {
        waiting::step(&self.plain.bytes, &self.plain.score, state, pressed).map_err(|wrong| match wrong {
            Wrong::Refused(refusal) => refused(self.file, refusal, None).into(),
            Wrong::Differs => Stop::Differs(state.number()),
        })
    }

    fn back(&mut self) -> Result<(), Stop> {
        match self.before.pop() {
            Some((state, list)) => {
                self.state = state;
                self.list.truncate(list);
                self.say_state("back")
            }
            None => Ok(self.say("this is the start: there is no instant to go back over")?),
        }
    }

    /// Writes the journal of the instants played, as the library runs them.
    fn write_journal(&mut self, path: &Path) -> Result<(), Failure> {
        self.save(path)?;
        let instants = self.state.number();
        if self.json {
            self.out.line(json!({ "journal": path.display().to_string(), "instants": instants }))
        } else {
            self.out.line(format_args!("{}: the journal of {}", path.display(), counted(instants.into())))
        }
    }

    fn say_instant(&mut self, number: u32, pressed: &Map, step: &Step, ahead: &Step) -> Result<(), Failure> {
        let (status, outputs) = (step.instant.status, &step.instant.output);
        if self.json {
            let mut value = self.awake_json(&step.after, ahead);
            value["instant"] = number.into();
            value["status"] = status.word().into();
            value["pressed"] = tokens_json(&self.plain.names, pressed);
            value["outputs"] = tokens_json(&self.plain.names, outputs);
            return self.out.line(value);
        }
        self.out.text(format_args!("instant {number}: "))?;
        self.out.status(status, in_full(status))?;
        self.out.line("")?;
        self.out.line(format_args!("  pressed  {}", tokens(&self.plain.names, pressed)))?;
        self.out.line(format_args!("  outputs  {}", tokens(&self.plain.names, outputs)))?;
        self.say_awake(&step.after, ahead, MOST_LINES)
    }

    /// Says where play stands: what is awake, and what waits.
    fn say_state(&mut self, at: &str) -> Result<(), Stop> {
        let (state, number) = (self.state, self.state.number());
        let ahead = self.step(&state, &Map::default())?;
        if self.json {
            let mut value = self.awake_json(&state, &ahead);
            value["at"] = at.into();
            value["next"] = number.into();
            value["draft"] = self.plain.draft.into();
            return Ok(self.out.line(value)?);
        }
        self.out.line(format_args!("{at}: instant {number} is next"))?;
        Ok(self.say_awake(&state, &ahead, usize::MAX)?)
    }

    /// Says what is awake in a state, and what the instant after it, with nothing pressed, leaves over: of each not more
    /// than so many.
    fn say_awake(&mut self, state: &State, ahead: &Step, most: usize) -> Result<(), Failure> {
        let (score, names) = (&self.plain.score, &self.plain.names);
        let awake = state.awake().map(|agent| format!("{} {}", names.agent(agent), brief(score, names, agent)));
        let waiting = ahead.walk.waiting(score).map(|(agent, _)| brief(score, names, agent));
        for (label, lines) in [("awake", awake.collect::<Vec<_>>()), ("waiting", waiting.collect())] {
            if lines.is_empty() {
                self.out.line(format_args!("  {label:7}  -"))?;
            }
            for line in lines.iter().take(most) {
                self.out.line(format_args!("  {label:7}  {line}"))?;
            }
            if lines.len() > most {
                self.out.line(format_args!("  {label:7}  and {} more; `awake` says all", lines.len() - most))?;
            }
        }
        if ahead.instant.status != Status::Quiet && !state.aborted() {
            self.out.line(format_args!("  ahead    {} with nothing pressed", ahead.instant.status.word()))?;
        }
        Ok(())
    }

    fn awake_json(&self, state: &State, ahead: &Step) -> Value {
        let waiting = ahead.walk.waiting(&self.plain.score).map(|(agent, token)| {
            let mut value = self.agent_json(agent);
            value["token"] = self.plain.names.token(token).into();
            value
        });
        json!({
            "awake": state.awake().map(|agent| self.agent_json(agent)).collect::<Vec<_>>(),
            "waiting": waiting.collect::<Vec<_>>(),
            "ahead": ahead.instant.status.word(),
        })
    }

    fn agent_json(&self, agent: usize) -> Value {
        let (score, names) = (&self.plain.score, &self.plain.names);
        json!({ "agent": agent, "name": names.agents.get(&agent), "text": brief(score, names, agent) })
    }

    /// Says the store that the last instant ended with: it is played again from the state before it.
    fn say_store(&mut self) -> Result<(), Stop> {
        let Some(&(state, list)) = self.before.last() else {
            return Ok(self.say("this is the start: no instant has a store yet")?);
        };
        let pressed = instants::entries(&self.list[list..]).next().map_or(Map::default(), |entry| entry.pressed);
        let store = self.step(&state, &pressed)?.instant.store;
        let number = state.number();
        if self.json {
            let store = tokens_json(&self.plain.names, &store);
            return Ok(self.out.line(json!({ "store": store, "of": number }))?);
        }
        Ok(self.out.line(format_args!("store of instant {number}: {}", tokens(&self.plain.names, &store)))?)
    }

    fn say_help(&mut self) -> Result<(), Failure> {
        if self.json {
            let help: Vec<Value> = HELP.iter().map(|(line, what)| json!({ "line": line, "what": what })).collect();
            return self.out.line(json!({ "help": help }));
        }
        HELP.iter().try_for_each(|(line, what)| self.out.line(format_args!("  {line:12}  {what}")))
    }

    fn say(&mut self, message: &str) -> Result<(), Failure> {
        if self.json {
            self.out.line(json!({ "note": message }))
        } else {
            self.out.line(message)
        }
    }

    /// Tells the person who types of something that was not done.
    fn say_error(&mut self, message: &str) -> Result<(), Failure> {
        if self.json {
            self.out.line(json!({ "error": message }))
        } else {
            self.out.line(format_args!("error: {message}"))
        }
    }

    fn say_problem(&mut self, problem: &Problem) -> Result<(), Failure> {
        self.say_error(&format!("{}: {}", problem.message, problem.label))
    }

    /// Says that what this program reads in an instant is not what the library answers; neither is shown.
    fn say_difference(&mut self, instant: u32) -> Result<(), Failure> {
        self.say_error(&format!(
            "{}: in instant {instant} what this program reads differs from the library's answer; \
             this is a fault of this program, not of the score, and nothing is shown of that instant",
            self.file.display()
        ))
    }
}

/// A status, and what it means for the drives.
fn in_full(status: Status) -> &'static str {
    match status {
        Status::Quiet => "quiet",
        Status::Clash => "clash, and nothing goes to the drives",
        Status::Aborted => "aborted, and the score stays aborted for good",
    }
}
