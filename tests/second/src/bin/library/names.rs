//! The names of a score's tokens, procedures and agents, and the text in which they are kept.

use second::random::Random;
use std::collections::{BTreeMap, BTreeSet};

/// Words of the listings, which are no names.
const KEPT_WORDS: [&str; 25] = [
    "right",
    "word",
    "score",
    "tokens",
    "ports",
    "to",
    "procedure",
    "from",
    "unused",
    "rule",
    "fact",
    "and",
    "gives",
    "parallel",
    "when",
    "unless",
    "next",
    "watch",
    "tell",
    "call",
    "skip",
    "abort",
    "agent",
    "token",
    "clash",
];

/// Names by number.
pub struct Names {
    pub tokens: BTreeMap<usize, String>,
    pub procedures: BTreeMap<usize, String>,
    pub agents: BTreeMap<usize, String>,
}

impl Names {
    /// Forgets one name in so many, as in files that nobody kept up.
    pub fn forget_some(&mut self, random: &mut Random, times: u32) {
        for names in [&mut self.tokens, &mut self.procedures, &mut self.agents] {
            names.retain(|_, _| !random.one_in(times));
        }
    }

    pub fn text(&self, comment: &str) -> String {
        let kinds = [("token", &self.tokens), ("procedure", &self.procedures), ("agent", &self.agents)];
        let lines = kinds.into_iter().flat_map(|(kind, names)| lines(kind, names));
        [format!("# {comment}\n")].into_iter().chain(lines).collect()
    }
}

fn lines(kind: &str, names: &BTreeMap<usize, String>) -> Vec<String> {
    let distinct: BTreeSet<&String> = names.values().collect();
    assert_eq!(distinct.len(), names.len(), "two have the same {kind} name");
    names.iter().map(|(number, name)| format!("{kind} {number} {}\n", checked(name))).collect()
}

fn checked(name: &str) -> &str {
    let is_further = |letter: char| letter.is_ascii_alphanumeric() || "_-.".contains(letter);
    let is_name = name.starts_with(|first: char| first.is_ascii_alphabetic()) && name.chars().all(is_further);
    assert!(is_name && !KEPT_WORDS.contains(&name), "{name} is no name");
    name
}
