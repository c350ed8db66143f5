//! What the parts of a plain score were in its draft, so that they keep their names. The library does not say it: the draft
//! is walked as include/score.h tells, and the plain score that comes out must be the library's.

use crate::names::{is_name, Names};
use crate::score::{Agent, Procedure, Rule, Score};
use std::collections::{BTreeMap, BTreeSet};

/// Drafts with more agents and sets than these are not walked.
const MOST: usize = 100_000;

/// A set of watch tokens. Sets are ordered as the sums of 2 to the power of each token: the highest token comes first.
#[derive(Clone, Copy, PartialEq, Eq, PartialOrd, Ord, Default, Debug)]
struct Set([u128; 2]);

impl Set {
    fn with(mut self, token: u8) -> Set {
        self.0[1 - token as usize / 128] |= 1 << (token % 128);
        self
    }

    fn tokens(self) -> impl Iterator<Item = u8> {
        (0..=255).filter(move |&token| self.0[1 - token as usize / 128] >> (token % 128) & 1 == 1)
    }
}

/// Of each agent and procedure of a plain score, its number in the draft and the set that it stands under; of each new
/// token, the set that it stands for.
#[derive(Debug)]
pub struct Origins<'a> {
    draft: &'a Score,
    agents: BTreeSet<(usize, Set)>,
    procedures: BTreeSet<(usize, Set)>,
    tokens: BTreeSet<Set>,
}

/// The origins of the parts of a plain score, if they can be told.
pub fn of<'a>(draft: &'a Score, plain: &Score) -> Option<Origins<'a>> {
    walk(draft).filter(|origins| origins.plain().as_ref() == Some(plain))
}

/// Walks a draft from its start: every agent and procedure with every set that it stands under.
fn walk(draft: &Score) -> Option<Origins<'_>> {
    let procedures = [(0, Set::default())].into();
    let mut origins = Origins { draft, agents: BTreeSet::new(), procedures, tokens: BTreeSet::new() };
    let (mut seen, mut tasks) = (BTreeSet::new(), vec![(draft.procedures[0].root(), Set::default())]);
    while let Some((agent, set)) = tasks.pop() {
        if !seen.insert((agent, set)) {
            continue;
        }
        if seen.len() > MOST {
            return None;
        }
        match draft.agents[agent] {
            Agent::Watch(token, body) => {
                tasks.push((body, set.with(token)));
                continue;
            }
            Agent::Call(procedure) => {
                origins.procedures.insert((procedure, set));
                tasks.push((draft.procedures[procedure].root(), set));
            }
            Agent::Unless(token, _) => origins.asks(set.with(token)),
            Agent::Next(_) => origins.asks(set),
            _ => (),
        }
        origins.agents.insert((agent, set));
        tasks.extend(draft.agents[agent].inner().map(|part| (part, set)));
    }
    Some(origins)
}

impl Origins<'_> {
    /// Notes that an agent asks for a set; one for two tokens or more is a new token.
    fn asks(&mut self, set: Set) {
        if set.tokens().nth(1).is_some() {
            self.tokens.insert(set);
        }
    }

    /// The plain score that has these origins.
    fn plain(&self) -> Option<Score> {
        let numbers = |parts: &BTreeSet<(usize, Set)>| -> BTreeMap<(usize, Set), usize> {
            parts.iter().enumerate().map(|(k, &part)| (part, k)).collect()
        };
        let (agents, procedures) = (numbers(&self.agents), numbers(&self.procedures));
        let new = |(k, set): (usize, &Set)| (self.draft.tokens + k, *set);
        let tokens: BTreeMap<Set, usize> = self.tokens.iter().enumerate().map(new).map(|(k, set)| (set, k)).collect();
        let part = |agent, set| agents.get(&self.beneath(agent, set)).copied();
        let asked = |set: Set| match tokens.get(&set) {
            Some(&token) => u8::try_from(token).ok(),
            None => set.tokens().next(),
        };
        let agent = |&(agent, set): &(usize, Set)| match self.draft.agents[agent] {
            Agent::Parallel(half, other) => Some(Agent::Parallel(part(half, set)?, part(other, set)?)),
            Agent::When(token, body) => Some(Agent::When(token, part(body, set)?)),
            Agent::Next(body) if set == Set::default() => Some(Agent::Next(part(body, set)?)),
            Agent::Next(body) => Some(Agent::Unless(asked(set)?, part(body, set)?)),
            Agent::Unless(token, body) => Some(Agent::Unless(asked(set.with(token))?, part(body, set)?)),
            Agent::Call(procedure) => procedures.get(&(procedure, set)).map(|&procedure| Agent::Call(procedure)),
            other => Some(other),
        };
        let root =
            |&(procedure, set): &(usize, Set)| part(self.draft.procedures[procedure].root(), set).map(Procedure::Root);
        let members = self.tokens.iter().enumerate().map(new);
        let added = members.flat_map(|(k, set)| set.tokens().map(move |token| Rule::Rule(token, token, k as u8)));
        Some(Score {
            tokens: self.draft.tokens + self.tokens.len(),
            ports: self.draft.ports,
            agents: self.agents.iter().map(agent).collect::<Option<_>>()?,
            procedures: self.procedures.iter().map(root).collect::<Option<_>>()?,
            rules: self.draft.rules.iter().copied().chain(added).collect(),
        })
    }

    /// The agent that stands there once watches are gone, with the set that it stands under.
    fn beneath(&self, mut agent: usize, mut set: Set) -> (usize, Set) {
        while let Agent::Watch(token, body) = self.draft.agents[agent] {
            (agent, set) = (body, set.with(token));
        }
        (agent, set)
    }

    /// The names of the draft, for its plain score.
    pub fn names(&self, names: &Names) -> Names {
        let mut tokens = names.tokens.clone();
        tokens.retain(|&token, _| token < self.draft.tokens);
        let new = self.tokens.iter().enumerate().map(|(k, set)| (self.draft.tokens + k, joined(*set, names)));
        add(&mut tokens, new);
        Names {
            tokens,
            procedures: carried(&self.procedures, &names.procedures, names),
            agents: carried(&self.agents, &names.agents, names),
        }
    }
}

/// The tokens of a set, as a name.
fn joined(set: Set, names: &Names) -> String {
    set.tokens().map(|token| names.token(token)).collect::<Vec<_>>().join("-or-")
}

/// Carries names over. Where one thing has become several, those that stand under watches say so.
fn carried(parts: &BTreeSet<(usize, Set)>, known: &BTreeMap<usize, String>, names: &Names) -> BTreeMap<usize, String> {
    let copies = |number| parts.range((number, Set::default())..(number + 1, Set::default())).count();
    let as_it_was = |&(_, &(number, set)): &(usize, &(usize, Set))| set == Set::default() || copies(number) == 1;
    let (same, others): (Vec<_>, Vec<_>) = parts.iter().enumerate().partition(as_it_was);
    let mut carried = BTreeMap::new();
    add(&mut carried, same.iter().filter_map(|(k, (number, _))| Some((*k, known.get(number)?.clone()))));
    let until = |name: &String, set| format!("{name}-until-{}", joined(set, names));
    add(&mut carried, others.iter().filter_map(|(k, (number, set))| Some((*k, until(known.get(number)?, *set)))));
    carried
}

/// Adds names that are names and that are not taken.
fn add(names: &mut BTreeMap<usize, String>, more: impl Iterator<Item = (usize, String)>) {
    let mut taken: BTreeSet<String> = names.values().cloned().collect();
    for (number, name) in more {
        if is_name(&name) && taken.insert(name.clone()) {
            names.insert(number, name);
        }
    }
}

#[cfg(test)]
mod tests {
    use super::*;
    use crate::library;
    use crate::text::{make, print, Comments};

    /// The plain score of a text, listed with the names that are carried over.
    fn listed(text: &str) -> String {
        let made = make(text, &Names::default()).expect("a text");
        let plain = Score::read(&library::translate(&made.score.bytes()).expect("a draft")).expect("a score");
        let names = of(&made.score, &plain).expect("its origins").names(&made.names);
        print(&plain, &names, &Comments::default()).text
    }

    #[test]
    fn names_are_carried_over() {
        let draft = "tokens 4
    1 stop
    2 end
    3 lamp
ports lamp to lamp

procedure main
    parallel
        watch stop call act
        watch stop watch end call act
        call lamps

procedure act
    parallel
        @shine: tell lamp
        next call act

procedure lamps
    next call lamps
";
        let plain = "tokens 5
    1 stop
    2 end
    3 lamp
    4 stop-or-end
ports lamp to lamp

procedure main
    parallel
        call act-until-stop
        call act-until-stop-or-end
        call lamps

procedure act-until-stop
    @11: parallel
        @shine-until-stop: tell lamp
        @9: unless stop
            @7: call act-until-stop

procedure act-until-stop-or-end from 6
    @12: parallel
        @shine-until-stop-or-end: tell lamp
        @10: unless stop-or-end
            @8: call act-until-stop-or-end

procedure lamps
    next call lamps

rule stop gives stop-or-end
rule end gives stop-or-end
";
        assert_eq!(listed(draft), plain);
    }

    /// A name beyond the draft's tokens is not that of a new one.
    #[test]
    fn new_tokens_have_no_old_names() {
        let draft = "tokens 3\nports 1 to 2\nprocedure 0\n    watch 1 watch 2 next call 0\n";
        let others = Names { tokens: [(3, "other".to_string())].into(), ..Names::default() };
        let made = make(draft, &others).expect("a text");
        let plain = Score::read(&library::translate(&made.score.bytes()).expect("a draft")).expect("a score");
        let names = of(&made.score, &plain).expect("its origins").names(&made.names);
        assert_eq!((plain.tokens, names.tokens), (4, BTreeMap::new()));
    }

    /// What is not the plain score of a draft has no origins in it.
    #[test]
    fn another_score_is_seen() {
        let read = |path: &str| Score::read(&std::fs::read(path).expect(path)).expect("a score");
        let (draft, other) = (read("../sample/draft"), read("../sample/score"));
        let mut plain = Score::read(&library::translate(&draft.bytes()).expect("a draft")).expect("a score");
        assert!(of(&draft, &plain).is_some());
        assert!(of(&draft, &other).is_none());
        plain.agents.swap(2, 5);
        assert!(of(&draft, &plain).is_some(), "both call procedure 1");
        plain.procedures[1] = Procedure::Root(3);
        assert!(of(&draft, &plain).is_none());
    }
}
