//! Scores from random numbers: valid ones, damaged ones, and ones of every length.

use crate::answer::{refused, Answer, ACCEPTED};
use crate::oracle;
use crate::random::Random;
use crate::words;

/// A score to be checked, and its answer where that is known from how it was made.
pub struct Trial {
    pub score: Vec<u8>,
    pub known: Option<Answer>,
}

impl Trial {
    pub fn known(score: Vec<u8>, answer: Answer) -> Trial {
        Trial { score, known: Some(answer) }
    }

    pub fn open(score: Vec<u8>) -> Trial {
        Trial { score, known: None }
    }
}

/// A score whose head follows from the rest. Agents, procedures and rules are words.
pub struct Score {
    pub tokens: u32,
    pub ports: u32,
    pub agents: Vec<u32>,
    pub procedures: Vec<u32>,
    pub rules: Vec<u32>,
}

impl Score {
    /// Takes apart a score, or a draft, that the check accepts.
    pub fn read(score: &[u8]) -> Score {
        let words = oracle::words(score);
        let (agents, rules) = (oracle::agent_places(&words), oracle::rule_places(&words));
        Score {
            tokens: (words[0] & 0xFF) + 1,
            ports: words[1],
            procedures: words[agents.end..rules.start].to_vec(),
            agents: words[agents].to_vec(),
            rules: words[rules].to_vec(),
        }
    }

    pub fn words(&self) -> Vec<u32> {
        let (agents, procedures) = (self.agents.len() as u32, self.procedures.len() as u32);
        let mut words = vec![words::head(self.tokens, agents, procedures), self.ports];
        words.extend(&self.agents);
        words.extend(&self.procedures);
        words.extend(&self.rules);
        words
    }

    pub fn bytes(&self) -> Vec<u8> {
        words::to_bytes(&self.words())
    }

    /// The words that a score of these sizes has before its rules.
    fn words_before_rules(&self) -> usize {
        2 + self.agents.len() + self.procedures.len()
    }
}

/// A score of one procedure, whose root is the last agent, with all tokens at the ports.
pub fn one_procedure(tokens: u32, agents: &[u32], rules: &[u32]) -> Vec<u32> {
    let score = Score {
        tokens,
        ports: words::ports(0, tokens - 1),
        agents: agents.to_vec(),
        procedures: vec![words::procedure(agents.len() as u32 - 1)],
        rules: rules.to_vec(),
    };
    score.words()
}

#[derive(Clone, Copy)]
struct Sizes {
    tokens: u32,
    agents: u32,
    procedures: u32,
    rules: u32,
}

fn small(random: &mut Random) -> Sizes {
    Sizes {
        tokens: random.between(1, 8),
        agents: random.between(1, 12),
        procedures: random.between(1, 4),
        rules: random.below(5),
    }
}

fn middling(random: &mut Random) -> Sizes {
    Sizes {
        tokens: random.between(1, 256),
        agents: random.between(1, 100),
        procedures: random.between(1, 64),
        rules: random.below(21),
    }
}

fn any(random: &mut Random) -> Sizes {
    Sizes {
        tokens: random.between(1, 256),
        agents: random.between(1, 1024),
        procedures: random.between(1, 64),
        rules: random.below(257),
    }
}

/// Mostly small, so that each word of a score is often the one that is damaged.
fn mostly_small(random: &mut Random) -> Sizes {
    match random.below(50) {
        0 => any(random),
        1..=9 => middling(random),
        _ => small(random),
    }
}

/// A score without facts.
fn build(random: &mut Random, sizes: Sizes) -> Score {
    let agents = agents(random, sizes);
    Score {
        tokens: sizes.tokens,
        ports: ports(random, sizes.tokens),
        procedures: procedures(random, &agents, sizes.procedures),
        agents,
        rules: (0..sizes.rules).map(|_| rule(random, sizes.tokens)).collect(),
    }
}

pub fn ports(random: &mut Random, tokens: u32) -> u32 {
    let (one, other) = (random.below(tokens), random.below(tokens));
    words::ports(one.min(other), one.max(other))
}

pub fn rule(random: &mut Random, tokens: u32) -> u32 {
    let mut token = || random.below(tokens);
    words::rule(token(), token(), token())
}

/// A fact, often of the clash or of the highest token.
fn fact(random: &mut Random, tokens: u32) -> u32 {
    words::fact(match random.below(8) {
        0 => 0,
        1 => tokens - 1,
        _ => random.below(tokens),
    })
}

pub fn rule_or_fact(random: &mut Random, tokens: u32) -> u32 {
    if random.one_in(4) {
        fact(random, tokens)
    } else {
        rule(random, tokens)
    }
}

/// Puts facts in the place of some rules, or of all.
fn make_facts(random: &mut Random, score: &mut Score) {
    let times = random.pick(&[1, 2, 8]);
    for word in &mut score.rules {
        if random.one_in(times) {
            *word = fact(random, score.tokens);
        }
    }
}

/// A score that has a fact, and the place of that word.
fn build_with_fact(random: &mut Random) -> (Score, usize) {
    let mut sizes = mostly_small(random);
    sizes.rules = sizes.rules.max(1);
    let mut score = build(random, sizes);
    make_facts(random, &mut score);
    let rule = random.below(sizes.rules) as usize;
    score.rules[rule] = fact(random, sizes.tokens);
    let at = score.words_before_rules() + rule;
    (score, at)
}

fn agents(random: &mut Random, sizes: Sizes) -> Vec<u32> {
    let first = leaf(random, sizes.tokens);
    let others = (1..sizes.agents).map(|agent| self::agent(random, sizes, agent));
    [first].into_iter().chain(others).collect()
}

/// An agent that has no body and calls nothing.
pub fn leaf(random: &mut Random, tokens: u32) -> u32 {
    match random.below(4) {
        0 => words::skip(),
        1 => words::abort(),
        _ => words::tell(random.below(tokens)),
    }
}

fn agent(random: &mut Random, sizes: Sizes, agent: u32) -> u32 {
    let (body, token) = (random.below(agent), random.below(sizes.tokens));
    match random.below(8) {
        0 => leaf(random, sizes.tokens),
        1 | 2 => words::parallel(body, random.below(agent)),
        3 => words::when(body, token),
        4 => words::next(body),
        5 => words::unless(body, token),
        _ => words::call(random.below(sizes.procedures)),
    }
}

/// Gives roots to the procedures, in a random order.
pub fn procedures(random: &mut Random, agents: &[u32], procedures: u32) -> Vec<u32> {
    let order = random.order(procedures);
    procedures_in_order(random, agents, &order)
}

/// Gives roots to the procedures, so that each calls unguarded only those before it in the order.
pub fn procedures_in_order(random: &mut Random, agents: &[u32], order: &[u32]) -> Vec<u32> {
    let calls = unguarded_calls(agents);
    let mut before = 0;
    let mut words = vec![0; order.len()];
    for &procedure in order {
        let root = (0..8).map(|_| random.below(agents.len() as u32)).find(|&root| calls[root as usize] & !before == 0);
        words[procedure as usize] = words::procedure(root.unwrap_or(0));
        before |= 1 << procedure;
    }
    words
}

/// For each agent, of a score or of a draft, the set of procedures that it calls unguarded.
pub fn unguarded_calls(agents: &[u32]) -> Vec<u64> {
    let mut calls: Vec<u64> = Vec::new();
    for word in agents {
        let body = |lowest: u32| calls.get((word >> lowest & 0x3FF) as usize).copied();
        calls.push(match word >> 28 {
            6 => body(0).unwrap_or(0) | body(10).unwrap_or(0),
            7 | 15 => body(0).unwrap_or(0),
            10 => 1 << (word & 0x3F),
            _ => 0,
        });
    }
    calls
}

fn valid(random: &mut Random, sizes: Sizes) -> Trial {
    Trial::known(build(random, sizes).bytes(), ACCEPTED)
}

pub fn valid_small(random: &mut Random, _: u64) -> Trial {
    let sizes = small(random);
    valid(random, sizes)
}

pub fn valid_middling(random: &mut Random, _: u64) -> Trial {
    let sizes = middling(random);
    valid(random, sizes)
}

pub fn valid_any(random: &mut Random, _: u64) -> Trial {
    let sizes = any(random);
    valid(random, sizes)
}

pub fn valid_with_facts(random: &mut Random, _: u64) -> Trial {
    Trial::known(build_with_fact(random).0.bytes(), ACCEPTED)
}

const BOUNDARY_RULES: [u32; 5] = [0, 1, 255, 256, 257];

/// How many sizes at their limits there are.
pub const BOUNDARY_SIZES: u64 = 5 * 4 * 4 * 4;

/// Each of T, N and P at its lowest and highest two, with rules at theirs and one over; in a second round all rules are
/// facts.
pub fn boundary_sizes(random: &mut Random, index: u64) -> Trial {
    let pick = |from: &[u32], digit: u32| from[(index / 5 / 4u64.pow(digit) % 4) as usize];
    let sizes = Sizes {
        tokens: pick(&[1, 2, 255, 256], 0),
        agents: pick(&[1, 2, 1023, 1024], 1),
        procedures: pick(&[1, 2, 63, 64], 2),
        rules: BOUNDARY_RULES[(index % 5) as usize],
    };
    let mut score = build(random, sizes);
    if index / BOUNDARY_SIZES % 2 == 1 {
        score.rules.fill_with(|| fact(random, sizes.tokens));
    }
    let score = score.bytes();
    let answer = match sizes.rules {
        257 if score.len() > 5384 => refused(1, 0),
        257 => refused(3, 0),
        _ => ACCEPTED,
    };
    Trial::known(score, answer)
}

/// Cut short, or drawn out by rules and facts, to a length about one of the limits.
pub fn lengths(random: &mut Random, _: u64) -> Trial {
    let sizes = mostly_small(random);
    let mut score = build(random, sizes);
    let least = 4 * score.words_before_rules() as u32;
    let length = match random.below(8) {
        0 => random.below(9),
        1..=3 => random.between(least - 8, least + 8),
        4 | 5 => random.between(least + 1024 - 8, least + 1024 + 8),
        6 => random.between(5380, 5392),
        _ => random.below(5400),
    } as usize;
    let wanted = length.div_ceil(4);
    while score.words_before_rules() + score.rules.len() < wanted {
        score.rules.push(rule_or_fact(random, sizes.tokens));
    }
    let mut bytes = score.bytes();
    bytes.truncate(length);
    Trial::open(bytes)
}

/// Far more bytes than a score may have, up to 1 MiB.
pub fn far_too_long(random: &mut Random, index: u64) -> Trial {
    let sizes = any(random);
    let mut bytes = build(random, sizes).bytes();
    let length = match index % 4 {
        0 => 1 << 20,
        1 => 4 * random.between(1347, 1 << 18),
        2 => 5384 << random.between(1, 7),
        _ => random.between(5385, 1 << 20),
    };
    bytes.resize(length as usize, random.word() as u8);
    Trial::known(bytes, refused(1, 0))
}

pub fn random_bytes(random: &mut Random, _: u64) -> Trial {
    let length = random.below(65);
    let mut bytes: Vec<u8> = (0..length).map(|_| random.word() as u8).collect();
    if random.one_in(2) && bytes.len() >= 4 {
        let head = words::head(random.between(1, 256), random.between(1, 8), 1);
        bytes[..4].copy_from_slice(&head.to_le_bytes());
    }
    Trial::open(bytes)
}

pub fn damaged_head(random: &mut Random, _: u64) -> Trial {
    let sizes = mostly_small(random);
    let mut words = build(random, sizes).words();
    words[0] = match random.below(4) {
        0 => random.word(),
        1 => words[0] & 0x0FFF_FFFF | random.word() & 0xF000_0000,
        2 => words[0] | 1 << random.between(24, 27),
        _ => words[0] ^ 1 << random.below(24),
    };
    Trial::open(words::to_bytes(&words))
}

/// A place among the words, often an early or late one.
fn place(random: &mut Random, words: &[u32]) -> usize {
    let count = words.len() as u32;
    let near = count.min(4);
    (match random.below(8) {
        0 => random.below(near),
        1 => count - 1 - random.below(near),
        _ => random.below(count),
    }) as usize
}

fn damage_word(random: &mut Random, words: &mut [u32]) {
    let at = place(random, words);
    words[at] = match random.below(4) {
        0 => random.word(),
        1 => words[at] & 0xF000_0000 | random.word() & 0x0FFF_FFFF,
        2 => words[at] & 0x0FFF_FFFF | random.word() & 0xF000_0000,
        _ => random.pick(words),
    };
}

fn damage_bit(random: &mut Random, words: &mut [u32]) {
    let at = place(random, words);
    words[at] ^= 1 << random.below(32);
}

/// The fields of a word after the head: lowest bit, number of bits, and the number that each must be below.
fn limits(head: u32, at: u32, word: u32) -> Vec<(u32, u32, u32)> {
    let tokens = (head & 0xFF) + 1;
    let agents = (head >> 8 & 0x3FF) + 1;
    let procedures = (head >> 18 & 0x3F) + 1;
    let agent = at.wrapping_sub(2);
    match word >> 28 {
        11 => vec![(0, 8, tokens), (8, 8, tokens)],
        3 => vec![(0, 10, agents)],
        2 => vec![(0, 8, tokens), (8, 8, tokens), (16, 8, tokens)],
        5 => vec![(0, 8, tokens)],
        6 => vec![(0, 10, agent), (10, 10, agent)],
        7 | 9 | 15 => vec![(0, 10, agent), (10, 8, tokens)],
        8 => vec![(0, 10, agent)],
        10 => vec![(0, 6, procedures)],
        _ => vec![(0, 1, 1)],
    }
}

/// Sets a field to a number just below or just over its limit.
fn damage_field(random: &mut Random, words: &mut [u32]) {
    let at = place(random, words).max(1);
    let (lowest, bits, limit) = random.pick(&limits(words[0], at as u32, words[at]));
    let highest = (1 << bits) - 1;
    let value = match random.below(5) {
        0 => limit.wrapping_sub(1),
        1 | 2 => limit,
        3 => limit.wrapping_add(1),
        _ => highest,
    };
    words[at] = words[at] & !(highest << lowest) | value.min(highest) << lowest;
}

/// Puts a fact in the place of a rule, if there is one; its token may be unknown, and a bit set that is zero in a fact.
fn damage_to_fact(random: &mut Random, words: &mut [u32]) {
    let rules = oracle::rule_places(words);
    if !rules.is_empty() {
        let at = rules.start + random.below(rules.len() as u32) as usize;
        let highest = words[0] & 0xFF;
        let token = if random.one_in(2) { highest } else { random.below(256) };
        words[at] = words::fact(token) | random.below(2) << random.between(8, 26);
    }
}

type Damage = fn(&mut Random, &mut [u32]);

/// Any damage; for scores that have more than one fault, or a circle besides.
pub fn damage_any(random: &mut Random, words: &mut [u32]) {
    let damages: [Damage; 5] = [damage_word, damage_bit, damage_field, damage_field, damage_to_fact];
    random.pick(&damages)(random, words);
}

fn damaged(random: &mut Random, times: u32, damage: Damage) -> Trial {
    let sizes = mostly_small(random);
    let mut score = build(random, sizes);
    if random.one_in(2) {
        make_facts(random, &mut score);
    }
    let mut words = score.words();
    for _ in 0..times {
        damage(random, &mut words);
    }
    Trial::open(words::to_bytes(&words))
}

pub fn one_word_damaged(random: &mut Random, _: u64) -> Trial {
    damaged(random, 1, damage_word)
}

pub fn one_bit_damaged(random: &mut Random, _: u64) -> Trial {
    damaged(random, 1, damage_bit)
}

pub fn one_field_at_its_limit(random: &mut Random, _: u64) -> Trial {
    damaged(random, 1, damage_field)
}

pub fn several_faults(random: &mut Random, _: u64) -> Trial {
    let times = random.between(2, 5);
    damaged(random, times, damage_any)
}

/// A fact that has a bit from 8 to 26, a token T or above, or both.
pub fn fact_damaged(random: &mut Random, _: u64) -> Trial {
    let (score, at) = build_with_fact(random);
    let mut words = score.words();
    let is_unknown = score.tokens < 256 && random.one_in(2);
    if is_unknown {
        words[at] = words::fact(random.between(score.tokens, 255));
    }
    let has_bit = !is_unknown || random.one_in(2);
    if has_bit {
        words[at] |= 1 << random.between(8, 26);
    }
    Trial::known(words::to_bytes(&words), refused(if has_bit { 4 } else { 5 }, at as u64))
}

/// A score of nineteen words that has every kind, with tokens, agents and procedures to spare below their limits.
pub fn every_kind() -> Score {
    Score {
        tokens: 6,
        ports: words::ports(1, 4),
        agents: vec![
            words::tell(5),
            words::skip(),
            words::abort(),
            words::call(2),
            words::when(0, 3),
            words::next(3),
            words::unless(4, 5),
            words::parallel(5, 6),
            words::parallel(4, 3),
            words::tell(0),
        ],
        procedures: vec![words::procedure(8), words::procedure(7), words::procedure(9)],
        rules: vec![words::rule(0, 1, 2), words::rule(5, 5, 5), words::rule(3, 4, 5), words::rule(1, 0, 0)],
    }
}

/// The token of the fact below.
const FACT: u32 = 2;

/// The words of the same, with a fact after so many of its rules.
fn every_kind_and_fact(rules: usize) -> Vec<u32> {
    let mut score = every_kind();
    score.rules.insert(rules, words::fact(FACT));
    score.words()
}

/// Every bit of a fact, at every place among rules, in turn: without bit 27 it is a rule.
pub fn every_bit_of_fact(_: &mut Random, index: u64) -> Trial {
    let (rules, bit) = ((index / 32 % 5) as usize, index % 32);
    let mut words = every_kind_and_fact(rules);
    let at = oracle::rule_places(&words).start + rules;
    words[at] ^= 1 << bit;
    let answer = match bit {
        0..=7 if FACT ^ 1 << bit < every_kind().tokens => ACCEPTED,
        0..=7 => refused(5, at as u64),
        27 => ACCEPTED,
        _ => refused(4, at as u64),
    };
    Trial::known(words::to_bytes(&words), answer)
}

/// Every bit of a score that has every kind and a fact, in turn.
pub fn every_bit(_: &mut Random, index: u64) -> Trial {
    let mut words = every_kind_and_fact(4);
    let at = (index / 32) as usize % words.len();
    words[at] ^= 1 << (index % 32);
    Trial::open(words::to_bytes(&words))
}

/// Every kind at every word of a score that has every kind and a fact, in turn.
pub fn every_kind_everywhere(_: &mut Random, index: u64) -> Trial {
    let mut words = every_kind_and_fact(4);
    let at = (index / 16) as usize % words.len();
    words[at] = words[at] & 0x0FFF_FFFF | (index as u32 % 16) << 28;
    Trial::open(words::to_bytes(&words))
}
