//! Valid scores in which much happens, with states and inputs for them.

use crate::circles;
use crate::decoded::{Agent, Decoded, Token};
use crate::generate::{self, Score};
use crate::lent::*;
use crate::oracle;
use crate::random::Random;
use crate::words;

pub(crate) struct Sizes {
    pub tokens: u32,
    pub agents: u32,
    pub procedures: u32,
    pub rules: u32,
}

pub(crate) fn small(random: &mut Random) -> Sizes {
    Sizes {
        tokens: random.between(1, 10),
        agents: random.between(1, 24),
        procedures: random.between(1, 4),
        rules: random.below(9),
    }
}

pub(crate) fn middling(random: &mut Random) -> Sizes {
    Sizes {
        tokens: random.between(2, 64),
        agents: random.between(10, 120),
        procedures: random.between(1, 12),
        rules: random.below(41),
    }
}

pub(crate) fn large(random: &mut Random) -> Sizes {
    Sizes {
        tokens: random.between(64, 256),
        agents: random.between(256, 1024),
        procedures: random.between(1, 64),
        rules: random.below(257),
    }
}

/// Aborts, where a score has any, are rare enough that they are often not reached. Where a score has facts, one in so
/// many rules is one.
#[derive(Clone, Copy)]
pub(crate) struct Rates {
    pub aborts: bool,
    pub clash: u32,
    facts: Option<u32>,
}

pub(crate) fn rates(random: &mut Random) -> Rates {
    Rates {
        aborts: random.one_in(3),
        clash: random.pick(&[2, 8, 8, 64]),
        facts: random.pick(&[None, None, None, Some(8), Some(2), Some(1)]),
    }
}

/// A token; the clash once in so many times.
pub(crate) fn token(random: &mut Random, tokens: u32, clash: u32) -> u32 {
    if tokens == 1 || random.one_in(clash) {
        0
    } else {
        random.between(1, tokens - 1)
    }
}

pub(crate) fn rule(random: &mut Random, tokens: u32, rates: Rates) -> u32 {
    if rates.facts.is_some_and(|times| random.one_in(times)) {
        return words::fact(token(random, tokens, 32));
    }
    let conclusion = token(random, tokens, rates.clash);
    let premise = token(random, tokens, 16);
    let other = if random.one_in(3) { premise } else { token(random, tokens, 16) };
    words::rule(conclusion, premise, other)
}

/// A lower agent, often a close one.
pub(crate) fn body(random: &mut Random, agent: u32) -> u32 {
    if random.one_in(2) {
        agent - random.between(1, agent.min(6))
    } else {
        random.below(agent)
    }
}

fn leaf(random: &mut Random, tokens: u32, rates: Rates) -> u32 {
    match random.below(12) {
        0 if rates.aborts => words::abort(),
        0..=2 => words::skip(),
        _ => words::tell(token(random, tokens, rates.clash)),
    }
}

pub(crate) fn agent(random: &mut Random, sizes: &Sizes, agent: u32, rates: Rates) -> u32 {
    if agent == 0 || random.one_in(5) {
        return leaf(random, sizes.tokens, rates);
    }
    let (body, other) = (self::body(random, agent), self::body(random, agent));
    let token = token(random, sizes.tokens, 16);
    match random.below(16) {
        0..=4 => words::parallel(body, other),
        5..=8 => words::when(body, token),
        9 | 10 => words::next(body),
        11..=13 => words::unless(body, token),
        _ => words::call(random.below(sizes.procedures)),
    }
}

fn build(random: &mut Random, sizes: Sizes) -> Score {
    let rates = rates(random);
    build_at(random, sizes, rates)
}

fn build_at(random: &mut Random, sizes: Sizes, rates: Rates) -> Score {
    let agents: Vec<u32> = (0..sizes.agents).map(|number| agent(random, &sizes, number, rates)).collect();
    let mut score = Score {
        tokens: sizes.tokens,
        ports: generate::ports(random, sizes.tokens),
        procedures: generate::procedures(random, &agents, sizes.procedures),
        rules: (0..sizes.rules).map(|_| rule(random, sizes.tokens, rates)).collect(),
        agents,
    };
    if score.agents.len() <= 1021 && !random.one_in(3) {
        call_again(&mut score);
    }
    score
}

/// Sets "next call 0" beside the root of procedure 0.
fn call_again(score: &mut Score) {
    let (root, first) = (score.procedures[0] & 0x3FF, score.agents.len() as u32);
    score.agents.extend([words::call(0), words::next(first), words::parallel(root, first + 1)]);
    score.procedures[0] = words::procedure(first + 2);
}

/// A score whose states and inputs can all be gone through.
pub fn least_score(random: &mut Random) -> Vec<u8> {
    let sizes = Sizes {
        tokens: random.between(1, 3),
        agents: random.between(1, 5),
        procedures: random.between(1, 2),
        rules: random.below(3),
    };
    build(random, sizes).bytes()
}

pub fn tiny_score(random: &mut Random) -> Vec<u8> {
    let sizes = Sizes {
        tokens: random.between(1, 6),
        agents: random.between(1, 10),
        procedures: random.between(1, 3),
        rules: random.below(5),
    };
    build(random, sizes).bytes()
}

pub fn small_score(random: &mut Random) -> Vec<u8> {
    let sizes = small(random);
    build(random, sizes).bytes()
}

pub(crate) fn mostly_small(random: &mut Random) -> Sizes {
    match random.below(40) {
        0 => large(random),
        1..=9 => middling(random),
        _ => small(random),
    }
}

/// A score of any size, mostly small.
pub fn score(random: &mut Random) -> Vec<u8> {
    let sizes = mostly_small(random);
    build(random, sizes).bytes()
}

pub fn score_without_facts(random: &mut Random) -> Vec<u8> {
    let sizes = mostly_small(random);
    let rates = Rates { facts: None, ..rates(random) };
    build_at(random, sizes, rates).bytes()
}

/// A score that tells a token at every instant from the start state on, until it is aborted.
pub fn telling_score(random: &mut Random) -> Vec<u8> {
    let sizes = if random.one_in(6) { middling(random) } else { small(random) };
    let told = token(random, sizes.tokens, 16);
    let mut score = build(random, sizes);
    let (root, first) = (score.procedures[0] & 0x3FF, score.agents.len() as u32);
    score.agents.extend([words::tell(told), words::parallel(root, first)]);
    score.procedures[0] = words::procedure(first + 1);
    call_again(&mut score);
    score.bytes()
}

/// A small score of so many tokens, or a few more, in which pressing tokens leads to clashes or aborts, or to neither.
pub fn switchboard(random: &mut Random, tokens: u32) -> Vec<u8> {
    let tokens = (tokens + random.below(3)).min(256);
    let sizes =
        Sizes { tokens, agents: random.between(1, 12), procedures: random.between(1, 3), rules: random.below(5) };
    let rates = Rates { aborts: false, clash: 64, ..rates(random) };
    let mut score = build_at(random, sizes, rates);
    for _ in 0..random.pick(&[0, 0, 1, 1, 2, 4]) {
        score.rules.push(words::rule(0, random.below(tokens), random.below(tokens)));
    }
    for _ in 0..random.pick(&[0, 0, 0, 1, 1, 2]) {
        abort_when(random, &mut score);
    }
    score.bytes()
}

/// Sets an abort beside the root of procedure 0, under a when or two.
fn abort_when(random: &mut Random, score: &mut Score) {
    let (root, first) = (score.procedures[0] & 0x3FF, score.agents.len() as u32);
    score.agents.extend([words::abort(), words::when(first, random.below(score.tokens))]);
    if random.one_in(2) {
        score.agents.push(words::when(first + 1, random.below(score.tokens)));
    }
    let last = score.agents.len() as u32 - 1;
    score.agents.push(words::parallel(root, last));
    score.procedures[0] = words::procedure(last + 1);
}

pub fn large_score(random: &mut Random) -> Vec<u8> {
    let sizes = large(random);
    build(random, sizes).bytes()
}

/// A score of these agents, with procedure 0 at the last, all tokens at the ports.
pub(crate) fn plain(tokens: u32, agents: Vec<u32>, rules: Vec<u32>) -> Vec<u8> {
    let root = agents.len() as u32 - 1;
    let score =
        Score { tokens, ports: words::ports(0, tokens - 1), agents, procedures: vec![words::procedure(root)], rules };
    score.bytes()
}

/// Rules of which each adds the premise of another, from token 1 to the last.
fn chain(tokens: u32) -> Vec<u32> {
    (1..tokens - 1).map(|token| words::rule(token + 1, token, token.max(2) - 1)).collect()
}

/// How many tokens a chain of rules has, and so almost how many rules.
fn length_of_chain(random: &mut Random) -> u32 {
    if random.one_in(2) {
        256
    } else {
        random.between(3, 255)
    }
}

/// Leaves rules in their order, turns it round, or shuffles them.
fn reorder(random: &mut Random, rules: &mut [u32]) {
    match random.below(3) {
        0 => {}
        1 => rules.reverse(),
        _ => random.shuffle(rules),
    }
}

/// A chain of rules, in any order: the last conclusion needs as many passes as there are rules if the order is the
/// worst.
pub fn rule_chain(random: &mut Random) -> Vec<u8> {
    let tokens = length_of_chain(random);
    let mut rules = chain(tokens);
    reorder(random, &mut rules);
    let last = tokens - 1;
    plain(tokens, vec![words::tell(1), words::unless(0, last), words::parallel(0, 1)], rules)
}

/// A when and an unless on one token, with a skip for their body; the last agent is both.
pub(crate) fn asking(token: u32) -> Vec<u32> {
    vec![words::skip(), words::when(0, token), words::unless(0, token), words::parallel(1, 2)]
}

/// A chain of rules that starts with a fact, and at times ends with the clash; no agent tells anything.
pub fn fact_chain(random: &mut Random) -> Vec<u8> {
    let tokens = length_of_chain(random);
    let last = tokens - 1;
    let mut rules = chain(tokens);
    rules.push(words::fact(1));
    if random.one_in(2) {
        rules.push(words::rule(0, last, last));
    }
    reorder(random, &mut rules);
    plain(tokens, asking(last), rules)
}

/// As many rules as there can be, all of them facts: some tokens often, others never; seldom the clash.
pub fn all_facts(random: &mut Random) -> Vec<u8> {
    let tokens = random.between(2, 256);
    let highest = random.between(1, tokens - 1);
    let lowest = if random.one_in(6) { 0 } else { 1 };
    let rules = (0..256).map(|_| words::fact(random.between(lowest, highest))).collect();
    plain(tokens, asking(random.below(tokens)), rules)
}

/// Whens of which each tells the next one's token, awake all at once.
pub fn when_chain(random: &mut Random) -> Vec<u8> {
    let links = random.between(1, 254);
    let mut order = random.order(links);
    if random.one_in(2) {
        order.sort_unstable_by(|one, other| other.cmp(one));
    }
    let mut agents = vec![words::tell(1)];
    let mut root = 0;
    for link in order {
        let first = agents.len() as u32;
        agents.push(words::tell(link + 2));
        agents.push(words::when(first, link + 1));
        agents.push(words::parallel(root, first + 1));
        root = first + 2;
    }
    plain(links + 2, agents, vec![])
}

/// Whens one inside the other.
pub fn nested_whens(random: &mut Random) -> Vec<u8> {
    let (tokens, depth) = (random.between(2, 256), random.between(1, 1000));
    let mut agents = vec![words::tell(0), words::tell(1)];
    let first = random.below(2);
    agents.push(words::next(first));
    for _ in 0..depth {
        let body = agents.len() as u32 - 1;
        agents.push(words::when(body, if random.one_in(300) { random.below(tokens) } else { 1 }));
    }
    let last = agents.len() as u32 - 1;
    agents.push(words::parallel(1, last));
    plain(tokens, agents, vec![])
}

/// Parallels of one agent with itself, up to 2^1,000 copies, of a leaf or of something that waits.
pub fn deep_sharing(random: &mut Random) -> Vec<u8> {
    let mut agents = vec![words::tell(1), words::tell(2), words::next(0), words::unless(1, 1), words::when(0, 2)];
    let first = random.below(5);
    agents.push(words::parallel(first, random.below(5)));
    for _ in 0..random.between(1, 1000) {
        let half = agents.len() as u32 - 1;
        let other = if random.one_in(8) { random.below(half) } else { half };
        agents.push(words::parallel(half, other));
    }
    plain(3, agents, vec![])
}

/// Procedures that call one another in a chain, under whens and beside them.
pub fn call_chain(random: &mut Random) -> Vec<u8> {
    let procedures = random.between(2, 64);
    let mut agents = vec![words::tell(1)];
    let mut roots = Vec::new();
    for procedure in 0..procedures {
        let first = agents.len() as u32;
        agents.push(if procedure + 1 < procedures { words::call(procedure + 1) } else { words::tell(2) });
        agents.push(words::when(first, 1));
        agents.push(words::parallel(random.pick(&[0, first]), first + 1));
        roots.push(words::procedure(first + random.between(1, 2)));
    }
    let score = Score { tokens: 3, ports: words::ports(1, 2), agents, procedures: roots, rules: vec![] };
    score.bytes()
}

/// One of the scores above.
pub fn special_score(random: &mut Random) -> Vec<u8> {
    let kinds = [rule_chain, when_chain, nested_whens, deep_sharing, call_chain, fact_chain, all_facts];
    random.pick(&kinds)(random)
}

/// A score of one of the score check's generators, valid and not.
pub fn checked_score(random: &mut Random, index: u64) -> Vec<u8> {
    let generators = [
        circles::one_circle,
        circles::any_calls,
        generate::damaged_head,
        generate::lengths,
        generate::one_field_at_its_limit,
        generate::fact_damaged,
        generate::valid_small,
        generate::valid_with_facts,
    ];
    random.pick(&generators)(random, index).score
}

/// Some of the numbers below a limit, rising: none, one, a few, many or all.
pub fn some_below(random: &mut Random, limit: usize) -> Vec<usize> {
    let (odds, of) = random.pick(&[(0, 1), (1, limit as u32), (3, limit as u32), (1, 4), (1, 2), (9, 10), (1, 1)]);
    (0..limit).filter(|_| random.below(of) < odds).collect()
}

pub fn agents(random: &mut Random, score: &Decoded) -> Vec<Agent> {
    match random.below(3) {
        0 => vec![score.roots[0]],
        1 => vec![random.below(score.agents.len() as u32) as usize],
        _ => some_below(random, score.agents.len()),
    }
}

/// Some of the score's tokens; seldom the clash.
pub fn tokens(random: &mut Random, score: &Decoded) -> Vec<Token> {
    let mut tokens = some_below(random, score.tokens);
    if !random.one_in(8) {
        tokens.retain(|&token| token != 0);
    }
    tokens
}

/// The highest number from which all lists of the trials can be run to their ends.
const LAST_EARLY_NUMBER: u32 = LAST_NUMBER - 100_000;

/// Numbers whose bytes from the lowest on, or whose bits but the highest, are all 1.
const FULL_NUMBERS: [u32; 4] = [0xFF, 0xFFFF, 0xFF_FFFF, 0x7FFF_FFFF];

/// A number that is far from the last: 0, full or almost, or any other.
pub fn early_number(random: &mut Random) -> u32 {
    let number = match random.below(4) {
        0 => 0,
        1 => random.pick(&FULL_NUMBERS) - random.below(4),
        2 => random.word() >> random.below(32),
        _ => random.word(),
    };
    number.min(LAST_EARLY_NUMBER)
}

/// One of the last five numbers.
pub fn late_number(random: &mut Random) -> u32 {
    LAST_NUMBER - random.below(5)
}

pub fn any_number(random: &mut Random) -> u32 {
    if random.one_in(2) {
        late_number(random)
    } else {
        early_number(random)
    }
}

/// Any set of the score's agents, or at times an aborted state, far from the last number.
pub fn lawful_state(random: &mut Random, score: &Decoded) -> Vec<u8> {
    let state = if random.one_in(12) { state_bytes(ABORTED, []) } else { state_bytes(RUNNING, agents(random, score)) };
    numbered(state, early_number(random))
}

/// A number from the lowest on and below the limit, often at one of the two.
fn at_least(random: &mut Random, lowest: u32, limit: u32) -> Option<usize> {
    if lowest == limit {
        return None;
    }
    let number = match random.below(3) {
        0 => lowest,
        1 => limit - 1,
        _ => random.between(lowest, limit - 1),
    };
    Some(number as usize)
}

/// A state that meets number 9, whatever its instant number, but for one of five of the largest scores.
pub fn unlawful_state(random: &mut Random, score: &Decoded) -> Vec<u8> {
    let awake = agents(random, score);
    let unknown = at_least(random, score.agents.len() as u32, 1024);
    let state = match random.below(5) {
        0 => state_bytes(RUNNING, awake.into_iter().chain(unknown)),
        1 => state_bytes(ABORTED, [random.below(1024) as usize]),
        2 => state_bytes(RUNNING ^ 1 << random.between(1, 31), awake),
        3 => state_bytes(random.word() & 0x0FFF_FFFF, awake),
        _ => state_bytes(ABORTED ^ 1 << random.between(1, 31), []),
    };
    numbered(state, any_number(random))
}

pub fn lawful_input(random: &mut Random, score: &Decoded) -> Vec<u8> {
    map_bytes(&tokens(random, score))
}

/// An input map that meets number 10, where T is below 256.
pub fn unlawful_input(random: &mut Random, score: &Decoded) -> Vec<u8> {
    let mut tokens = tokens(random, score);
    tokens.extend(at_least(random, score.tokens as u32, 256));
    map_bytes(&tokens)
}

/// What a buffer may hold before a call: all 0, all 1, or anything.
pub fn dirt(random: &mut Random, len: usize) -> Vec<u8> {
    match random.below(4) {
        0 => vec![0x00; len],
        1 => vec![0xFF; len],
        _ => (0..len).map(|_| random.word() as u8).collect(),
    }
}

/// The lengths of a buffer that must be met.
pub struct Lengths {
    pub name: &'static str,
    pub right: usize,
    /// They meet number 8: none, one byte less, one byte more, and the length that document 01 had.
    pub wrong: [usize; 4],
    others: &'static [usize],
}

pub const SCRATCH_LENGTHS: Lengths = Lengths {
    name: "scratch",
    right: SCRATCH_BYTES,
    wrong: [0, 127, 129, 2048],
    others: &[1, 8, 32, 64, 120, 124, 126, 130, 132, 136, 256, 1024, 1920, 2044, 2047, 2049, 2176, 4096],
};

pub const STATE_LENGTHS: Lengths = Lengths {
    name: "state",
    right: STATE_BYTES,
    wrong: [0, 135, 137, 132],
    others: &[1, 4, 32, 33, 34, 64, 68, 124, 128, 131, 133, 134, 138, 139, 140, 144, 264, 272, 544, 4096],
};

impl Lengths {
    /// In turn each of the wrong ones, the right one, and any other wrong one.
    pub fn in_turn(&self, random: &mut Random, index: u64) -> usize {
        let in_turn = [&self.wrong[..], &[self.right]].concat();
        let turn = index as usize % (in_turn.len() + 1);
        in_turn.get(turn).copied().unwrap_or_else(|| random.pick(self.others))
    }

    /// All the wrong ones.
    pub fn all_wrong(&self) -> impl Iterator<Item = usize> + '_ {
        self.wrong.iter().chain(self.others).copied()
    }
}

/// The wrong lengths of a scratch, and others that could be taken for right: half the length, a word or two more, a
/// byte less than document 01.
pub fn wrong_scratch_lengths() -> impl Iterator<Item = usize> {
    SCRATCH_LENGTHS.wrong.into_iter().chain([1, 64, 132, 136, 2047])
}

/// A length that is not the one it should be.
fn another_length(random: &mut Random, length: usize) -> usize {
    let near = [length.saturating_sub(1), length + 1, length.saturating_sub(4), length + 4, 2 * length, length / 2];
    let far = [&[1, MAP_BYTES, STATE_BYTES, SCRATCH_BYTES], &SCRATCH_LENGTHS.wrong[..]].concat();
    let other = if random.one_in(2) { random.pick(&near) } else { random.pick(&far) };
    if other == length {
        length + 2
    } else {
        other
    }
}

/// Gives a buffer another length.
pub fn resize(random: &mut Random, buffer: &mut Vec<u8>) {
    let length = another_length(random, buffer.len());
    buffer.resize(length, random.word() as u8);
}

/// Damages a word of a score; at times the score has another length besides.
pub fn damage_score(random: &mut Random, score: &mut Vec<u8>) {
    let mut words = oracle::words(score);
    generate::damage_any(random, &mut words);
    *score = words::to_bytes(&words);
    if random.one_in(6) {
        resize(random, score);
    }
}

/// The inputs of some instants, each with few tokens.
pub fn instants(random: &mut Random, score: &Decoded, most: u32) -> Vec<Vec<Token>> {
    let few = |random: &mut Random| match random.below(4) {
        0 => vec![],
        1 => tokens(random, score),
        _ => vec![token(random, score.tokens as u32, 16) as usize],
    };
    (0..random.below(most + 1)).map(|_| few(random)).collect()
}

pub fn list(random: &mut Random, score: &Decoded, most: u32) -> Vec<u8> {
    list_bytes(&instants(random, score, most))
}
