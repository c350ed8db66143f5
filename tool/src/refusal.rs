//! The library's numbers in words, and the place and meaning of what they speak of.

use crate::library::{Refusal, INSTANT_WORD, KIND_MASK, MAX_AGENTS, MAX_BYTES, MAX_PROCEDURES, MAX_RULES, MAX_TOKENS};
use crate::names::Names;
use crate::problem::Problem;
use crate::score::{words, Agent, Part, Ports, Procedure, Score};
use crate::text::Places;

/// What a number says, in the words of a person.
pub fn in_words(number: u32) -> &'static str {
    match number {
        1 => "not the length of a score",
        2 => "no head at its beginning",
        3 => "not as many words as its head tells of",
        4 => "a word that has not the form of its place",
        5 => "a token that the score does not have",
        6 => "a reference that does not fit",
        7 => "calls that go in a circle within one instant",
        8 => "a buffer of another length",
        9 => "a state that is not one of this score",
        10 => "an input that the score does not have",
        11 => "a next state that is not one of this score",
        12 => "not whole words",
        13 => "a word that is out of place",
        14 => "not what the score plays",
        15 => "no room for the journal",
        16 => "a plain score that would be too large",
        17 => "switches that cannot be counted",
        18 => "no number left for another instant",
        _ => "a number that this program does not know",
    }
}

/// A refusal of a score, with the place that it speaks of and what its value means.
pub fn problem(refusal: Refusal, score: &Score, names: &Names, places: &Places) -> Problem {
    let Refusal { number, value } = refusal;
    let value = value as usize;
    let part = match number {
        4..=6 => score.part(value),
        7 => Part::Procedure(value),
        16 => score.agents.iter().position(Agent::is_watch).map_or(Part::Head, Part::Agent),
        _ => Part::Head,
    };
    let watch = matches!(part, Part::Agent(agent) if number == 4 && score.agents[agent].is_watch());
    let said = if watch { "a watch, which makes it a draft; no console takes one" } else { in_words(number) };
    let mut problem = Problem::new(places.of(part), said, meaning(number, part, score, names));
    problem.number = Some(number);
    if (4..=6).contains(&number) {
        problem.notes.push(format!("{}, word {value} of the score", part_in_words(part)));
    }
    problem
}

/// What a part is called.
pub fn part_in_words(part: Part) -> String {
    match part {
        Part::Head => "the head".into(),
        Part::Ports => "the ports".into(),
        Part::Agent(agent) => format!("agent {agent}"),
        Part::Procedure(procedure) => format!("procedure {procedure}"),
        Part::Rule(rule) => format!("rule {rule}"),
    }
}

/// What was expected of a part that is refused.
fn meaning(number: u32, part: Part, score: &Score, names: &Names) -> String {
    let upto = |count: usize| format!("0 to {}", count - 1);
    match (number, part) {
        (4, Part::Agent(agent)) if score.agents[agent].is_watch() => {
            "expected a plain score, which `score make --plain` makes; `--drafts` takes drafts".into()
        }
        (4, Part::Head | Part::Ports) => "expected a ports word".into(),
        (4, Part::Agent(_)) => "expected an agent's word".into(),
        (4, Part::Procedure(_)) => "expected a procedure's word".into(),
        (4, Part::Rule(_)) => "expected a rule's word or a fact's".into(),
        (5, _) => format!("expected tokens {}", upto(score.tokens)),
        (6, Part::Ports) => match score.ports {
            Ports::Range(lowest, highest) => {
                format!("expected the lowest first: {} is token {lowest}, {} token {highest}", names.token(lowest), names.token(highest))
            }
            Ports::Formless(_) => "expected the lowest first".into(),
        },
        (6, Part::Procedure(procedure)) => match score.procedures[procedure] {
            Procedure::Root(root) => format!("its agent is {root}; expected agents {}", upto(score.agents.len())),
            Procedure::Formless(_) => format!("expected agents {}", upto(score.agents.len())),
        },
        (6, Part::Agent(agent)) => match score.agents[agent] {
            Agent::Call(procedure) => {
                format!("it calls procedure {procedure}; expected procedures {}", upto(score.procedures.len()))
            }
            word => match word.inner().find(|&part| part >= agent) {
                Some(wrong) if wrong < score.agents.len() => {
                    format!("expected an agent that is written before it, and agent {wrong} is not")
                }
                wrong => {
                    let wrong = wrong.map_or(String::new(), |wrong| format!("; it refers to agent {wrong}"));
                    format!("expected agents {}{wrong}", upto(score.agents.len()))
                }
            },
        },
        (7, _) => "it calls itself again, with no `next` or `unless` on the way".into(),
        (16, _) => format!(
            "expected at most {MAX_TOKENS} tokens, {MAX_AGENTS} agents, {MAX_PROCEDURES} procedures and {MAX_RULES} rules"
        ),
        _ => String::new(),
    }
}

/// What is wrong with bytes that cannot be taken apart.
pub fn of_bytes(refusal: Refusal, bytes: &[u8]) -> String {
    let held = match (refusal.number, words(bytes).next()) {
        (1, _) if bytes.is_empty() => "it is empty".into(),
        (1, _) => format!("its bytes are {}; expected whole words of 4 bytes, and at most {MAX_BYTES}", bytes.len()),
        (2, Some(word)) if word & KIND_MASK == INSTANT_WORD => "this is an input list or a journal".into(),
        (2, Some(word)) => format!("its first word is {word:08X}; expected 10 as its first two digits"),
        (3, Some(word)) => {
            let (_, agents, procedures) = Score::sizes(word).unwrap_or_default();
            let (held, least) = (bytes.len() / 4, 2 + agents + procedures);
            let most = least + MAX_RULES;
            format!("its words are {held}; expected {least} to {most}, its agents being {agents} and its procedures {procedures}")
        }
        _ => String::new(),
    };
    format!("{}: {held}", in_words(refusal.number))
}
