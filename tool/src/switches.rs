//! A line that is typed to a score that is played: the tokens that are pressed in one instant, or a command.

use crate::library::Map;
use crate::names::{closest, Names, CLASH};
use crate::problem::{shown, Problem};
use crate::score::Score;
use crate::text::lines::{words, Word};
use crate::text::number;
use std::collections::HashMap;
use std::path::PathBuf;

/// What a line is.
#[derive(PartialEq, Eq, Debug)]
pub enum Line {
    /// For people alone.
    Remark,
    Play(Asked),
    Quit,
}

/// What play is asked for.
#[derive(PartialEq, Eq, Debug)]
pub enum Asked {
    Press(Map),
    Back,
    Awake,
    Store,
    Journal(PathBuf),
    Help,
}

/// The words that are no tokens where a line begins with them.
pub const COMMANDS: [&str; 7] = ["press", "back", "awake", "store", "journal", "help", "quit"];

/// What can be typed, a line each.
pub const HELP: [(&str, &str); 9] = [
    ("TOKENS", "press these tokens, by name or number, for one instant; an empty line presses none"),
    ("press TOKENS", "the same, also for tokens that are called as a command is"),
    ("back", "go back one instant"),
    ("awake", "say again what is awake and what waits"),
    ("store", "say which tokens were in the store at the end of the last instant"),
    ("journal FILE", "write the journal so far"),
    ("help", "say this"),
    ("quit", "end; so does the end of the input"),
    ("# ...", "a remark, which is passed over"),
];

fn pressing(pressed: Map) -> Line {
    Line::Play(Asked::Press(pressed))
}

/// The tokens of a score, by name.
pub struct Switches {
    tokens: usize,
    numbers: HashMap<String, u8>,
}

impl Switches {
    pub fn of(score: &Score, names: &Names) -> Switches {
        let named = names.tokens.range(..score.tokens).map(|(&token, name)| (name.clone(), token as u8));
        let numbers = [(CLASH.to_string(), 0)].into_iter().chain(named).collect();
        Switches { tokens: score.tokens, numbers }
    }

    /// Reads a line; a problem has its place in the line.
    pub fn read(&self, line: &str) -> Result<Line, Problem> {
        let words: Vec<Word> = words(line, 0).collect();
        let Some(first) = words.first() else { return Ok(pressing(Map::default())) };
        let lone = |wanted| words.get(1).map_or(Ok(wanted), |word| Err(not_alone(first.text, word)));
        match first.text {
            "press" => self.tokens(&words[1..], false).map(pressing),
            "back" => lone(Line::Play(Asked::Back)),
            "awake" => lone(Line::Play(Asked::Awake)),
            "store" => lone(Line::Play(Asked::Store)),
            "help" => lone(Line::Play(Asked::Help)),
            "quit" => lone(Line::Quit),
            "journal" => match line[first.place.end..].trim() {
                "" => Err(Problem::new(first.place.clone(), "no file for the journal", "expected `journal FILE`")),
                path => Ok(Line::Play(Asked::Journal(path.into()))),
            },
            remark if remark.starts_with('#') => Ok(Line::Remark),
            _ => self.tokens(&words, true).map(pressing),
        }
    }

    /// The tokens that words name; the first word may have been meant as a command.
    fn tokens(&self, words: &[Word], command: bool) -> Result<Map, Problem> {
        words.iter().enumerate().map(|(k, word)| self.token(word, command && k == 0)).collect()
    }

    fn token(&self, word: &Word, command: bool) -> Result<u8, Problem> {
        if word.is_numeral() {
            return number(word, 0, self.tokens - 1).map(|token| token as u8);
        }
        self.numbers.get(word.text).copied().ok_or_else(|| self.unknown(word, command))
    }

    /// Says that a word names no token, and which it may have been meant for.
    fn unknown(&self, word: &Word, command: bool) -> Problem {
        let commands = COMMANDS.into_iter().filter(|_| command);
        let names = commands.chain(self.numbers.keys().map(String::as_str));
        let label = match closest(word.text, names) {
            Some(name) => format!("expected the name or number of a token; did you mean `{name}`?"),
            None if word.text.starts_with('#') => "expected a token; a remark has a line of its own".into(),
            None => "expected the name or number of a token".into(),
        };
        Problem::new(word.place.clone(), format!("no token has the name `{}`", shown(word.text)), label)
    }
}

fn not_alone(command: &str, word: &Word) -> Problem {
    let label = format!("expected nothing; `press {command} ...` presses a token of that name");
    Problem::new(word.place.clone(), format!("`{command}` stands alone"), label)
}

#[cfg(test)]
mod tests {
    use super::*;
    use crate::score::bytes;

    fn switches() -> Switches {
        let words = [0x10000005, 0xB0000302, 0x40000000, 0x30000000];
        let names = [(1, "switch"), (2, "up"), (4, "back"), (9, "beyond")];
        let tokens = names.into_iter().map(|(token, name)| (token, name.to_string())).collect();
        let names = Names { tokens, ..Names::default() };
        Switches::of(&Score::read(&bytes(words)).unwrap(), &names)
    }

    fn pressed(line: &str) -> Vec<u8> {
        match switches().read(line) {
            Ok(Line::Play(Asked::Press(map))) => map.tokens().collect(),
            other => panic!("{line}: {other:?}"),
        }
    }

    #[test]
    fn tokens_are_pressed_by_name_or_number() {
        assert!(pressed("").is_empty());
        assert!(pressed(" \t\r").is_empty());
        assert_eq!(pressed("up 1 switch  3 up"), [1, 2, 3]);
        assert_eq!(pressed("clash 005"), [0, 5]);
        assert!(pressed("press").is_empty());
        assert_eq!(pressed("press back up"), [2, 4]);
        assert_eq!(pressed("up back"), [2, 4]);
    }

    #[test]
    fn commands_are_read() {
        let read = |line| switches().read(line).unwrap();
        assert_eq!(read("back"), Line::Play(Asked::Back));
        assert_eq!(read(" awake "), Line::Play(Asked::Awake));
        assert_eq!(read("journal  my file "), Line::Play(Asked::Journal("my file".into())));
        assert_eq!(read("  # back"), Line::Remark);
        assert_eq!(read("#back"), Line::Remark);
    }

    #[test]
    fn what_is_no_token_is_said_with_its_place() {
        let wrong = |line| switches().read(line).unwrap_err();
        let problem = wrong("up swich");
        assert_eq!((problem.place, problem.message.as_str()), (3..8, "no token has the name `swich`"));
        assert_eq!(problem.label, "expected the name or number of a token; did you mean `switch`?");
        assert!(wrong("quti").label.ends_with("did you mean `quit`?"));
        assert!(!wrong("press quti").label.contains("quit"));
        assert_eq!(wrong("6").label, "expected a number from 0 to 5");
        assert_eq!(wrong("1up").message, "`1up` is not a number");
        assert_eq!(wrong("99999999999999999999999").label, "expected a number from 0 to 5");
        assert_eq!(wrong("beyond").message, "no token has the name `beyond`");
        assert_eq!(wrong("back up").message, "`back` stands alone");
        assert_eq!(wrong("journal").label, "expected `journal FILE`");
        assert!(wrong("up # go").label.ends_with("a remark has a line of its own"));
        assert_eq!(wrong("a\u{1b}[2J").message, "no token has the name `a\u{fffd}[2J`");
    }
}
