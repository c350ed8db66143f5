//! Single scores with the answers that the document gives, or that follow from one of its sentences.

use second::answer::{refused, Answer, ACCEPTED};
use second::generate::{self, every_kind};
use second::sample::{replaced, S};
use second::words::*;

pub struct Score {
    pub name: &'static str,
    pub bytes: Vec<u8>,
    pub answer: Answer,
}

fn case(name: &'static str, words: &[u32], answer: Answer) -> Score {
    Score { name, bytes: to_bytes(words), answer }
}

pub fn all() -> Vec<Score> {
    [
        lengths(),
        document(),
        heads(),
        precedence(),
        references(),
        tokens(),
        facts(),
        counts_of_facts(),
        paths(),
        circles(),
    ]
    .into_iter()
    .flatten()
    .collect()
}

/// S with some of its words replaced.
fn s_with(words: &[(usize, u32)]) -> Vec<u32> {
    replaced(&S, words)
}

/// S drawn out by rules to so many bytes.
fn s_of_bytes(length: usize) -> Vec<u8> {
    let mut words = S.to_vec();
    words.resize(words.len().max(length.div_ceil(4)), S[8]);
    let mut bytes = to_bytes(&words);
    bytes.truncate(length);
    bytes
}

fn lengths() -> Vec<Score> {
    let case = |name, length, answer| Score { name, bytes: s_of_bytes(length), answer };
    vec![
        case("no bytes", 0, refused(1, 0)),
        case("1 byte", 1, refused(1, 0)),
        case("2 bytes", 2, refused(1, 0)),
        case("3 bytes", 3, refused(1, 0)),
        case("4 bytes: the head alone", 4, refused(3, 0)),
        case("S without its procedure and rule", 28, refused(3, 0)),
        case("S without its rule", 32, ACCEPTED),
        case("S and one byte", 37, refused(1, 0)),
        case("S with 256 rules", 32 + 1024, ACCEPTED),
        case("S with 257 rules", 32 + 1028, refused(3, 0)),
        case("5,383 bytes", 5383, refused(1, 0)),
        case("5,384 bytes, too many for S", 5384, refused(3, 0)),
        case("5,385 bytes", 5385, refused(1, 0)),
        case("5,388 bytes", 5388, refused(1, 0)),
    ]
}

fn document() -> Vec<Score> {
    vec![
        case("S", &S, ACCEPTED),
        Score {
            name: "the file sample/score",
            bytes: include_bytes!("../../../../../sample/score").to_vec(),
            answer: ACCEPTED,
        },
        case("S with root 5", &s_with(&[(7, 0x3000_0005)]), refused(6, 7)),
        case("S with root 4", &s_with(&[(7, 0x3000_0004)]), ACCEPTED),
        case("S with rule 0x20040200", &s_with(&[(8, 0x2004_0200)]), refused(5, 8)),
        case("S with agent 3 as 0x60000801", &s_with(&[(5, 0x6000_0801)]), refused(7, 0)),
    ]
}

fn heads() -> Vec<Score> {
    vec![
        case("word 0 is ports", &s_with(&[(0, 0xB000_0403)]), refused(2, 0)),
        case("the head's bit 24 is set", &s_with(&[(0, S[0] | 1 << 24)]), refused(2, 0)),
        case("the head's bit 27 is set", &s_with(&[(0, S[0] | 1 << 27)]), refused(2, 0)),
        case("a wrong head before a wrong count", &[0], refused(2, 0)),
        case("a wrong head before wrong words", &[0; 9], refused(2, 0)),
        case("a wrong count before wrong words", &[head(4, 5, 1), 0], refused(3, 0)),
        case("the least score", &[head(1, 1, 1), ports(0, 0), skip(), procedure(0)], ACCEPTED),
    ]
}

fn precedence() -> Vec<Score> {
    let s = |name, words: &[(usize, u32)], answer| case(name, &s_with(words), answer);
    vec![
        s("ports: 4 before 5 and 6", &[(1, ports(5, 4) | 1 << 16)], refused(4, 1)),
        s("ports: 5 before 6", &[(1, ports(5, 4))], refused(5, 1)),
        s("ports: 5 for the lowest alone", &[(1, ports(4, 3))], refused(5, 1)),
        s("ports: 5 for the highest alone", &[(1, ports(3, 4))], refused(5, 1)),
        s("ports: 6", &[(1, ports(3, 2))], refused(6, 1)),
        s("ports: lowest and highest alike", &[(1, ports(3, 3))], ACCEPTED),
        s("when: 4 before 5 and 6", &[(3, when(1, 4) | 1 << 27)], refused(4, 3)),
        s("when: 5 before 6", &[(3, when(1, 4))], refused(5, 3)),
        s("unless: 5 before 6", &[(3, unless(1, 4))], refused(5, 3)),
        s("parallel: 4 before 6", &[(6, parallel(4, 4) | 1 << 20)], refused(4, 6)),
        s("call: 4 before 6", &[(4, call(1) | 1 << 6)], refused(4, 4)),
        s("procedure: 4 before 6", &[(7, procedure(5) | 1 << 10)], refused(4, 7)),
        s("rule: 4 before 5", &[(8, rule(4, 4, 4) | 1 << 24)], refused(4, 8)),
        s(
            "the lowest word wins: 6 before a later 4 and 5",
            &[(3, when(1, 0)), (4, 0), (8, rule(4, 0, 0))],
            refused(6, 3),
        ),
        s("the lowest word wins: 5 before a later 4", &[(2, tell(4)), (7, 0)], refused(5, 2)),
        s("the lowest word wins: ports before agents", &[(1, ports(3, 2)), (2, 0)], refused(6, 1)),
        s("a wrong rule before a circle", &[(5, 0x6000_0801), (8, rule(0, 0, 4))], refused(5, 8)),
        s("a rule's kind at an agent", &[(2, rule(0, 0, 0))], refused(4, 2)),
        s("a procedure's kind at the last agent", &[(6, procedure(0))], refused(4, 6)),
        s("an agent's kind at a procedure", &[(7, tell(0))], refused(4, 7)),
        s("a procedure's kind at a rule", &[(8, procedure(0))], refused(4, 8)),
    ]
}

fn references() -> Vec<Score> {
    let score = every_kind().words();
    let with = |name, at, word, answer| case(name, &replaced(&score, &[(at, word)]), answer);
    vec![
        case("a score with every kind", &score, ACCEPTED),
        with("a call of procedure P - 1", 3, call(2), ACCEPTED),
        with("a call of procedure P", 3, call(3), refused(6, 3)),
        with("a call of procedure 63", 3, call(63), refused(6, 3)),
        with("a when of the agent before it", 6, when(3, 0), ACCEPTED),
        with("a when of itself", 6, when(4, 0), refused(6, 6)),
        with("a next of itself", 7, next(5), refused(6, 7)),
        with("an unless of itself", 8, unless(6, 0), refused(6, 8)),
        with("a parallel's first half is itself", 9, parallel(7, 0), refused(6, 9)),
        with("a parallel's second half is itself", 9, parallel(0, 7), refused(6, 9)),
        with("a parallel of one agent twice", 9, parallel(6, 6), ACCEPTED),
        with("agent 0 a next", 2, next(0), refused(6, 2)),
        with("a root N - 1", 14, procedure(9), ACCEPTED),
        with("a root N", 14, procedure(10), refused(6, 14)),
    ]
}

fn tokens() -> Vec<Score> {
    let score = every_kind().words();
    let with = |name, at, word, answer| case(name, &replaced(&score, &[(at, word)]), answer);
    vec![
        with("a tell of token T - 1", 2, tell(5), ACCEPTED),
        with("a tell of token T", 2, tell(6), refused(5, 2)),
        with("a when of token T", 6, when(0, 6), refused(5, 6)),
        with("an unless of token T", 8, unless(4, 6), refused(5, 8)),
        with("a conclusion T", 15, rule(6, 0, 0), refused(5, 15)),
        with("a first premise T", 16, rule(0, 6, 0), refused(5, 16)),
        with("a second premise T", 17, rule(0, 0, 6), refused(5, 17)),
        with("a rule of tokens T - 1", 18, rule(5, 5, 5), ACCEPTED),
    ]
}

/// Bit 27 of a word, which makes a fact of a rule.
const FACT_BIT: u32 = 1 << 27;

fn facts() -> Vec<Score> {
    let score = every_kind().words();
    let with = |name, words: &[(usize, u32)], answer| case(name, &replaced(&score, words), answer);
    let one = |name, at, word, answer| with(name, &[(at, word)], answer);
    vec![
        one("a fact of token 0", 18, fact(0), ACCEPTED),
        one("a fact of token T - 1", 18, fact(5), ACCEPTED),
        one("a fact of token T", 18, fact(6), refused(5, 18)),
        one("a fact of token 255", 18, fact(255), refused(5, 18)),
        one("a rule of premises 0 and bit 27 is a fact", 18, rule(5, 0, 0) | FACT_BIT, ACCEPTED),
        one("a fact with bit 8", 18, fact(5) | 1 << 8, refused(4, 18)),
        one("a fact with bit 15", 18, fact(5) | 1 << 15, refused(4, 18)),
        one("a fact with bit 16", 18, fact(5) | 1 << 16, refused(4, 18)),
        one("a fact with bit 23", 18, fact(5) | 1 << 23, refused(4, 18)),
        one("a fact with bit 24", 18, fact(5) | 1 << 24, refused(4, 18)),
        one("a fact with bit 26", 18, fact(5) | 1 << 26, refused(4, 18)),
        one("a fact with every bit from 8 to 26", 18, fact(5) | 0x07FF_FF00, refused(4, 18)),
        one("a fact: 4 before 5 by a premise's bit", 18, fact(6) | 1 << 8, refused(4, 18)),
        one("a fact: 4 before 5 by an unnamed bit", 18, fact(6) | 1 << 26, refused(4, 18)),
        one("bit 27 on the ports", 1, score[1] | FACT_BIT, refused(4, 1)),
        one("bit 27 on a tell", 2, score[2] | FACT_BIT, refused(4, 2)),
        one("bit 27 on a skip", 3, score[3] | FACT_BIT, refused(4, 3)),
        one("bit 27 on an abort", 4, score[4] | FACT_BIT, refused(4, 4)),
        one("bit 27 on a call", 5, score[5] | FACT_BIT, refused(4, 5)),
        one("bit 27 on a when", 6, score[6] | FACT_BIT, refused(4, 6)),
        one("bit 27 on a next", 7, score[7] | FACT_BIT, refused(4, 7)),
        one("bit 27 on an unless", 8, score[8] | FACT_BIT, refused(4, 8)),
        one("bit 27 on a parallel", 9, score[9] | FACT_BIT, refused(4, 9)),
        one("bit 27 on a procedure", 12, score[12] | FACT_BIT, refused(4, 12)),
        one("bit 27 on a procedure at a rule", 18, procedure(0) | FACT_BIT, refused(4, 18)),
        one("bit 27 on a tell at a rule", 18, tell(0) | FACT_BIT, refused(4, 18)),
        one("bit 27 on kind 0 at a rule", 18, FACT_BIT, refused(4, 18)),
        one("a fact at the ports", 1, fact(0), refused(4, 1)),
        one("a fact at an agent", 2, fact(0), refused(4, 2)),
        one("a fact at a procedure", 12, fact(0), refused(4, 12)),
        with(
            "the lowest word wins: a fact's 5 before a later fact's 4",
            &[(15, fact(6)), (16, fact(1) | 1 << 8)],
            refused(5, 15),
        ),
        with(
            "the lowest word wins: a fact's 4 before a later rule's 5",
            &[(15, fact(1) | 1 << 24), (16, rule(6, 0, 0))],
            refused(4, 15),
        ),
        with(
            "the lowest word wins: a rule's 5 before a later fact's 4",
            &[(15, rule(0, 6, 0)), (18, fact(1) | 1 << 23)],
            refused(5, 15),
        ),
        with(
            "the lowest word wins: a root's 6 before a fact's 4",
            &[(14, procedure(10)), (15, fact(1) | 1 << 8)],
            refused(6, 14),
        ),
        case("a damaged fact before a circle", &s_with(&[(5, 0x6000_0801), (8, fact(0) | 1 << 8)]), refused(4, 8)),
        case("a circle beside a fact", &s_with(&[(5, 0x6000_0801), (8, fact(0))]), refused(7, 0)),
    ]
}

/// S with these rules in place of its own.
fn s_with_rules(name: &'static str, rules: &[(usize, u32)], answer: Answer) -> Score {
    let rules = rules.iter().flat_map(|&(times, word)| vec![word; times]);
    case(name, &S[..8].iter().copied().chain(rules).collect::<Vec<_>>(), answer)
}

/// Facts count among the 256 rules.
fn counts_of_facts() -> Vec<Score> {
    vec![
        s_with_rules("a fact alone", &[(1, fact(3))], ACCEPTED),
        s_with_rules("256 facts", &[(256, fact(3))], ACCEPTED),
        s_with_rules("257 facts", &[(257, fact(3))], refused(3, 0)),
        s_with_rules("255 rules and a fact", &[(255, S[8]), (1, fact(3))], ACCEPTED),
        s_with_rules("256 rules and a fact", &[(256, S[8]), (1, fact(3))], refused(3, 0)),
        s_with_rules("256 facts and a rule", &[(256, fact(3)), (1, S[8])], refused(3, 0)),
        s_with_rules("257 facts, one of them damaged", &[(256, fact(3)), (1, fact(3) | 1 << 8)], refused(3, 0)),
    ]
}

/// A score of one token, with these agents and roots and no rules.
fn score(agents: &[u32], roots: &[u32]) -> Vec<u32> {
    let score = generate::Score {
        tokens: 1,
        ports: ports(0, 0),
        agents: agents.to_vec(),
        procedures: roots.iter().map(|&root| procedure(root)).collect(),
        rules: vec![],
    };
    score.words()
}

/// An agent, then parallels of the one before with itself up to the last agent that there can be: 2^1,023 paths.
fn ladder(first: u32) -> Vec<u32> {
    let steps = (0..1023).map(|below| parallel(below, below));
    [first].into_iter().chain(steps).collect()
}

/// Agents of which each calls the procedure of its own number.
fn calls_of_all(procedures: u32) -> Vec<u32> {
    (0..procedures).map(call).collect()
}

fn paths() -> Vec<Score> {
    let case = |name, agents: &[u32], answer| {
        let root = agents.len() as u32 - 1;
        case(name, &score(agents, &[root]), answer)
    };
    vec![
        case("a root that calls its own procedure", &[call(0)], refused(7, 0)),
        case("a circle through a when", &[call(0), when(0, 0)], refused(7, 0)),
        case("a circle through a parallel's first half", &[call(0), skip(), parallel(0, 1)], refused(7, 0)),
        case("a circle through a parallel's second half", &[call(0), skip(), parallel(1, 0)], refused(7, 0)),
        case("a next before the call", &[call(0), next(0)], ACCEPTED),
        case("an unless before the call", &[call(0), unless(0, 0)], ACCEPTED),
        case("a next between two whens", &[call(0), when(0, 0), next(1), when(2, 0)], ACCEPTED),
        case("one call guarded and one not", &[call(0), next(0), parallel(1, 0)], refused(7, 0)),
        case("a call that the root does not lead to", &[call(0), skip()], ACCEPTED),
        case("2^1,023 paths to a call", &ladder(call(0)), refused(7, 0)),
        case("2^1,023 paths to a skip", &ladder(skip()), ACCEPTED),
    ]
}

fn circles() -> Vec<Score> {
    let case = |name, agents: &[u32], roots: &[u32], answer| case(name, &score(agents, roots), answer);
    let onward: Vec<u32> = (0..64).map(|procedure| (procedure + 1) % 64).collect();
    let backward: Vec<u32> = (0..64).map(|procedure| (procedure + 63) % 64).collect();
    let mut all_but_0 = calls_of_all(64);
    all_but_0[0] = skip();
    let lead = [call(1), call(2), call(3)];
    let away = [skip(), call(0), call(2), parallel(1, 2)];
    vec![
        case("a circle of 2", &[call(0), call(1)], &[1, 0], refused(7, 0)),
        case("procedures 0 and 1 lead to a circle of 2 and 3", &lead, &[0, 1, 2, 1], refused(7, 2)),
        case("a circle leads to procedure 0, which is on none", &away, &[0, 0, 3], refused(7, 2)),
        case("nobody calls the procedure on a circle", &[skip(), call(1)], &[0, 1], refused(7, 1)),
        case("two circles", &[skip(), call(3), call(1)], &[0, 2, 0, 1], refused(7, 1)),
        case("a circle of 64, onward", &calls_of_all(64), &onward, refused(7, 0)),
        case("a circle of 64, backward", &calls_of_all(64), &backward, refused(7, 0)),
        case("a chain of 64, onward", &all_but_0, &onward, ACCEPTED),
        case("a chain of 64, backward", &all_but_0, &backward, ACCEPTED),
    ]
}
