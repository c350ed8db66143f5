//! What tokens, procedures and agents are called: by name where there is one, by number otherwise. A names file stands
//! beside its score, as FILE.names, and has a line for each name, such as `token 3 winch1.up`.

use crate::library::{MAX_AGENTS, MAX_PROCEDURES, MAX_TOKENS};
use crate::problem::Problem;
use crate::text::lines::{lines, Word};
use std::collections::BTreeMap;
use std::fmt::Write;

/// The words of the text form, which are no names.
pub const KEYWORDS: [&str; 24] = [
    "tokens",
    "ports",
    "to",
    "procedure",
    "from",
    "unused",
    "rule",
    "fact",
    "and",
    "gives",
    "parallel",
    "right",
    "when",
    "unless",
    "next",
    "watch",
    "tell",
    "call",
    "skip",
    "abort",
    "agent",
    "token",
    "word",
    "score",
];

pub const CLASH: &str = "clash";
pub const NOT_CLASH: &str = "clash is the name of token 0, and its only one";

/// Token 0 has no entry: it is always the clash.
#[derive(Clone, Default, PartialEq, Eq, Debug)]
pub struct Names {
    pub tokens: BTreeMap<usize, String>,
    pub procedures: BTreeMap<usize, String>,
    pub agents: BTreeMap<usize, String>,
}

fn name_or_number(names: &BTreeMap<usize, String>, number: usize) -> String {
    names.get(&number).cloned().unwrap_or_else(|| number.to_string())
}

impl Names {
    pub fn token(&self, token: u8) -> String {
        match token {
            0 => CLASH.to_string(),
            _ => name_or_number(&self.tokens, token as usize),
        }
    }

    pub fn procedure(&self, procedure: usize) -> String {
        name_or_number(&self.procedures, procedure)
    }

    /// Keeps the names of things that a score of these sizes has.
    pub fn keep(&mut self, tokens: usize, procedures: usize, agents: usize) {
        self.tokens.retain(|&token, _| token < tokens);
        self.procedures.retain(|&procedure, _| procedure < procedures);
        self.agents.retain(|&agent, _| agent < agents);
    }

    /// An agent, as it is referred to.
    pub fn agent(&self, agent: usize) -> String {
        format!("@{}", name_or_number(&self.agents, agent))
    }
}

/// Longer words are not compared: that takes as long, and as much room, as the product of their lengths.
const LONGEST_COMPARED: usize = 40;

/// The name that a word may have been meant for.
pub fn closest<'a>(word: &str, names: impl Iterator<Item = &'a str>) -> Option<&'a str> {
    names
        .filter(|name| word.len() <= LONGEST_COMPARED && name.len().abs_diff(word.len()) <= 4)
        .map(|name| (strsim::damerau_levenshtein(name, word), name))
        .filter(|(distance, name)| *distance <= 1 + name.len() / 4)
        .min()
        .map(|(_, name)| name)
}

/// Whether a word can be a name: a letter, then letters, digits, `_`, `-` and `.`.
pub fn is_name(word: &str) -> bool {
    word.starts_with(char::is_alphabetic)
        && word.chars().all(|c| c.is_alphanumeric() || "_-.".contains(c))
        && !KEYWORDS.contains(&word)
}

/// Reads a names file.
pub fn read(text: &str) -> Result<Names, Problem> {
    let mut names = Names::default();
    for line in lines(text) {
        let line = line?;
        match &line.words[..] {
            [] => (),
            [kind, number, name] => names.add(kind, number, name)?,
            [first, ..] => return Err(Problem::new(first.place.start..line.end, "not a line of names", LINE)),
        }
    }
    Ok(names)
}

const LINE: &str = "expected `token`, `procedure` or `agent`, its number and its name";
pub const NAME: &str = "expected a letter, then letters, digits, `_`, `-` or `.`, and no word of the text form";

impl Names {
    /// Adds the name of a line.
    fn add(&mut self, kind: &Word, number: &Word, name: &Word) -> Result<(), Problem> {
        let (table, most) = match kind.text {
            "token" => (&mut self.tokens, MAX_TOKENS),
            "procedure" => (&mut self.procedures, MAX_PROCEDURES),
            "agent" => (&mut self.agents, MAX_AGENTS),
            _ => return Err(Problem::new(kind.place.clone(), "not a line of names", LINE)),
        };
        let number_place = number.place.clone();
        let number = crate::text::number(number, 0, most - 1)?;
        let wrong = |message: &str, label: &str| Err(Problem::new(name.place.clone(), message, label));
        if !is_name(name.text) {
            return wrong("not a name", NAME);
        }
        if kind.text == "token" && (name.text == CLASH) != (number == 0) {
            return wrong(NOT_CLASH, "expected another name or number");
        }
        if let Some((other, _)) = table.iter().find(|(_, other)| *other == name.text) {
            return wrong(&format!("{} {other} has this name already", kind.text), "expected another name");
        }
        if table.contains_key(&number) {
            let message = format!("{} {number} has a name already", kind.text);
            return Err(Problem::new(number_place, message, "expected another number"));
        }
        if kind.text != "token" || number != 0 {
            table.insert(number, name.text.to_string());
        }
        Ok(())
    }
}

/// A names file, by kind and number; empty where nothing has a name.
pub fn print(names: &Names) -> String {
    let mut text = String::new();
    for (kind, table) in [("token", &names.tokens), ("procedure", &names.procedures), ("agent", &names.agents)] {
        for (number, name) in table {
            writeln!(text, "{kind} {number} {name}").expect("a string takes it");
        }
    }
    text
}
