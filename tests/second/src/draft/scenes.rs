//! Valid drafts in which much happens, with lists for them.

use crate::decoded::Token;
use crate::draft::{acts, limits, Draft, Form, WATCH};
use crate::generate::{self, Score};
use crate::oracle::{self, kind};
use crate::random::Random;
use crate::scenes::{self, Rates, Sizes};
use crate::words;

/// The tokens that watches wait for, and one in how many agents is a watch.
pub(crate) struct Watching {
    pub tokens: Vec<u32>,
    times: u32,
}

/// Few tokens, so that an agent often stands under one of them twice.
pub(crate) fn watching(random: &mut Random, tokens: u32) -> Watching {
    let count = random.pick(&[1, 2, 3, 5, 8]);
    Watching { tokens: (0..count).map(|_| scenes::token(random, tokens, 16)).collect(), times: random.pick(&[3, 5, 8]) }
}

fn agent(random: &mut Random, sizes: &Sizes, number: u32, rates: Rates, watching: &Watching) -> u32 {
    if number > 0 && random.one_in(watching.times) {
        return words::watch(scenes::body(random, number), random.pick(&watching.tokens));
    }
    if number > 0 && random.one_in(16) {
        return words::unless(scenes::body(random, number), random.pick(&watching.tokens));
    }
    scenes::agent(random, sizes, number, rates)
}

fn build(random: &mut Random, sizes: Sizes) -> Score {
    let (rates, watching) = (scenes::rates(random), watching(random, sizes.tokens));
    let agents: Vec<u32> = (0..sizes.agents).map(|number| agent(random, &sizes, number, rates, &watching)).collect();
    let start_last: Vec<u32> = (0..sizes.procedures).rev().collect();
    let mut draft = Score {
        tokens: sizes.tokens,
        ports: generate::ports(random, sizes.tokens),
        procedures: generate::procedures_in_order(random, &agents, &start_last),
        rules: (0..sizes.rules).map(|_| scenes::rule(random, sizes.tokens, rates)).collect(),
        agents,
    };
    if draft.agents.len() <= 1000 {
        start_more(random, &mut draft);
        call_again(random, &mut draft, &watching);
    }
    draft
}

/// Sets some of the last agents beside the root of procedure 0. No other procedure calls it unguarded, nor do these.
fn start_more(random: &mut Random, draft: &mut Score) {
    let calls = generate::unguarded_calls(&draft.agents);
    let last = calls.len() as u32 - 1;
    for _ in 0..random.below(4) {
        let (root, other) = (draft.procedures[0] & 0x3FF, last - random.below(calls.len().min(8) as u32));
        if calls[other as usize] & 1 == 0 {
            draft.procedures[0] = words::procedure(draft.agents.len() as u32);
            draft.agents.push(words::parallel(root, other));
        }
    }
}

/// Sets a call of procedure 0, after a next or an unless, beside its root: under no watch, under one of its own, or
/// under one with the root.
pub(crate) fn call_again(random: &mut Random, draft: &mut Score, watching: &Watching) {
    let (root, token) = (draft.procedures[0] & 0x3FF, random.pick(&watching.tokens));
    let first = draft.agents.len() as u32;
    let again = if random.one_in(3) { words::unless(first, token) } else { words::next(first) };
    let agents = match random.below(4) {
        0 => return,
        1 => vec![words::call(0), again, words::parallel(root, first + 1)],
        2 => vec![words::call(0), again, words::watch(first + 1, token), words::parallel(root, first + 2)],
        _ => vec![words::call(0), again, words::parallel(root, first + 1), words::watch(first + 2, token)],
    };
    draft.agents.extend(agents);
    draft.procedures[0] = words::procedure(draft.agents.len() as u32 - 1);
}

pub fn tiny_draft(random: &mut Random) -> Vec<u8> {
    let sizes = Sizes {
        tokens: random.between(2, 5),
        agents: random.between(2, 9),
        procedures: random.between(1, 2),
        rules: random.below(4),
    };
    build(random, sizes).bytes()
}

pub fn small_draft(random: &mut Random) -> Vec<u8> {
    let sizes = scenes::small(random);
    build(random, sizes).bytes()
}

/// A draft of any size, mostly small.
pub fn draft(random: &mut Random) -> Vec<u8> {
    let sizes = scenes::mostly_small(random);
    build(random, sizes).bytes()
}

pub fn large_draft(random: &mut Random) -> Vec<u8> {
    let sizes = scenes::large(random);
    build(random, sizes).bytes()
}

/// A score with a watch for some of its whens, which are tested alike.
pub fn watched(random: &mut Random, score: &[u8]) -> Vec<u8> {
    let mut words = oracle::words(score);
    let times = random.pick(&[1, 2, 4]);
    for at in oracle::agent_places(&words) {
        if kind(words[at]) == 7 && random.one_in(times) {
            words[at] = words[at] & 0x0FFF_FFFF | WATCH << 28;
        }
    }
    [words::to_bytes(&words), score[score.len() / 4 * 4..].to_vec()].concat()
}

pub fn watched_score(random: &mut Random) -> Vec<u8> {
    let score = scenes::score(random);
    watched(random, &score)
}

/// A draft of these agents, with procedure 0 at the last, all tokens at the ports.
pub fn of_agents(tokens: u32, agents: Vec<u32>) -> Score {
    let root = agents.len() as u32 - 1;
    let ports = words::ports(0, tokens - 1);
    Score { tokens, ports, agents, procedures: vec![words::procedure(root)], rules: vec![] }
}

/// Something to be watched, that tells token 1 at every instant: a next, an unless, or one of each.
fn telling(random: &mut Random, asked: u32) -> Vec<u32> {
    let mut agents = vec![words::tell(1), words::call(1), words::next(1), words::unless(1, asked)];
    agents.push(match random.below(3) {
        0 => words::parallel(0, 2),
        1 => words::parallel(0, 3),
        _ => words::parallel(2, 3),
    });
    agents.push(words::parallel(0, 4));
    agents
}

/// The agents of a draft whose procedure 1 is at the agent that is watched.
fn with_telling(tokens: u32, agents: Vec<u32>) -> Vec<u8> {
    let mut draft = of_agents(tokens, agents);
    draft.procedures.push(words::procedure(5));
    draft.bytes()
}

/// Watches one on the other, of any tokens, often of all 256.
pub fn watch_chain(random: &mut Random) -> Vec<u8> {
    let tokens = if random.one_in(2) { 256 } else { random.between(2, 256) };
    let mut agents = telling(random, 0);
    for _ in 0..random.pick(&[1, 2, 3, 8, 100]) {
        let body = agents.len() as u32 - 1;
        agents.push(words::watch(body, random.below(tokens)));
    }
    with_telling(tokens, agents)
}

/// One agent under no watch and under several, some of them the same.
pub fn shared_body(random: &mut Random) -> Vec<u8> {
    let tokens = random.between(3, 256);
    let pool: Vec<u32> = (0..3).map(|_| random.below(tokens)).collect();
    let mut agents = telling(random, pool[0]);
    let mut root = 5;
    for _ in 0..random.between(1, 6) {
        let first = agents.len() as u32;
        agents.push(words::watch(5, random.pick(&pool)));
        agents.push(words::watch(first, random.pick(&pool)));
        agents.push(words::parallel(root, first + random.below(2)));
        root = first + 2;
    }
    with_telling(tokens, agents)
}

/// At each step the agent before stands both under one more watch and not: as many sets as there are of its tokens.
pub fn diamond(body: u32, steps: u32, first_token: u32) -> Vec<u32> {
    let mut agents = vec![words::tell(1), body];
    for step in 0..steps {
        let before = agents.len() as u32 - 1;
        agents.push(words::watch(before, first_token + step));
        agents.push(words::parallel(before, before + 1));
    }
    agents
}

/// A diamond of few steps, which is not too large.
pub fn small_diamond(random: &mut Random) -> Vec<u8> {
    let (tokens, steps) = (random.between(8, 199), random.between(1, 6));
    let first_token = random.below(tokens - steps);
    let body = random.pick(&[words::skip(), words::next(0), words::unless(0, first_token), words::when(0, 1)]);
    of_agents(tokens, diamond(body, steps, first_token)).bytes()
}

/// Procedures that call one another after a next, each under a watch of its own.
pub fn recursion(random: &mut Random) -> Vec<u8> {
    let procedures = random.between(1, 4);
    let tokens = procedures + random.between(2, 6);
    let mut agents = vec![];
    let mut roots = vec![];
    for procedure in 0..procedures {
        let first = agents.len() as u32;
        agents.push(words::tell(procedure + 2));
        agents.push(words::call(random.below(procedures)));
        agents.push(if random.one_in(3) { words::unless(first + 1, procedure + 2) } else { words::next(first + 1) });
        agents.push(words::watch(first + 2, random.below(tokens)));
        agents.push(words::when(first, random.below(tokens)));
        agents.push(words::parallel(first + 4, first + random.between(2, 3)));
        roots.push(words::procedure(first + 5));
    }
    let rules = (0..random.below(3)).map(|_| generate::rule_or_fact(random, tokens)).collect();
    Score { tokens, ports: words::ports(0, tokens - 1), agents, procedures: roots, rules }.bytes()
}

/// Each procedure calls the next one both under a watch of its own and not; the last has agent 0, a tell, or agent 1, a
/// next, for its root.
pub fn diamond_of_calls(procedures: u32, last: u32) -> Score {
    let mut agents = vec![words::tell(1), words::next(0)];
    let mut roots = vec![];
    for procedure in 1..procedures {
        let first = agents.len() as u32;
        agents.push(words::call(procedure));
        agents.push(words::watch(first, procedure + 1));
        agents.push(words::parallel(first + 1, first));
        roots.push(words::procedure(first + 2));
    }
    roots.push(words::procedure(last));
    Score { tokens: procedures + 2, ports: words::ports(1, 1), agents, procedures: roots, rules: vec![] }
}

pub fn small_diamond_of_calls(random: &mut Random) -> Vec<u8> {
    diamond_of_calls(random.between(1, 6), random.below(2)).bytes()
}

/// The one procedure leads past 900 watches to a branch for each of so many tokens, where after a next it is called
/// again under a watch of that token: on one path there are as many rounds as branches, each past all 900 watches.
pub fn rounds(branches: u32) -> Vec<u8> {
    let mut agents = vec![words::call(0), words::next(0)];
    for branch in 0..branches {
        let before = agents.len() as u32 - 1;
        agents.push(words::watch(1, 1 + branch));
        agents.push(words::parallel(before + 1, before));
    }
    for _ in 0..900 {
        agents.push(words::watch(agents.len() as u32 - 1, 0));
    }
    of_agents(1 + branches, agents).bytes()
}

fn watched_special_score(random: &mut Random) -> Vec<u8> {
    let score = scenes::special_score(random);
    watched(random, &score)
}

/// One of the drafts above.
pub fn special_draft(random: &mut Random) -> Vec<u8> {
    let kinds = [watch_chain, shared_body, small_diamond, recursion, small_diamond_of_calls, watched_special_score];
    random.pick(&kinds)(random)
}

/// A valid draft of any kind that is mostly not too large.
pub fn any_draft(random: &mut Random) -> Vec<u8> {
    let kinds = [acts::many, acts::many, acts::many, acts::few, draft, special_draft, limits::renamed, watched_score];
    random.pick(&kinds)(random)
}

/// The tokens of a draft's watches.
pub fn watch_tokens(draft: &Draft) -> Vec<Token> {
    let agents = 0..draft.score.agents.len();
    agents
        .filter_map(|agent| match draft.form(agent) {
            Form::Watch { token, .. } => Some(token),
            Form::Plain(_) => None,
        })
        .collect()
}

/// The inputs of some instants: often none, often a token that stops a watch.
pub fn instants(random: &mut Random, draft: &Draft, most: u32) -> Vec<Vec<Token>> {
    let watched = watch_tokens(draft);
    let inputs = |random: &mut Random| match random.below(8) {
        0..=3 => vec![],
        4 if !watched.is_empty() => vec![random.pick(&watched)],
        7 => scenes::tokens(random, &draft.score),
        _ => vec![scenes::token(random, draft.score.tokens as u32, 16) as usize],
    };
    (0..random.below(most + 1)).map(|_| inputs(random)).collect()
}
