//! Translations and journals that are written out by hand, and one case for each limit and each refusal.

use crate::{judge, plays};
use second::answer::{refused, Answer};
use second::calls::TranslateLent;
use second::draft::{scenes, written};
use second::lent::PLAIN_BYTES;
use second::random::Random;
use second::sample::{replaced, S};
use second::tests::{case, ensure, Case, Met, Outcome};
use second::translate;
use second::words::*;
use std::time::{Duration, Instant};

pub fn all() -> Vec<Case> {
    [translations(), journals(), samples(), lengths(), sizes(), times()].into_iter().flatten().collect()
}

const OLD: u8 = 0xA5;

/// Eight times, at random offsets: the answer, and the plain score's bytes before what was there.
fn becomes(met: &mut Met, draft: &[u8], plain_len: usize, wanted: Answer, plain: &[u8]) -> Outcome {
    let mut expected = plain.to_vec();
    expected.resize(plain_len, OLD);
    for index in 0..8 {
        let lent = TranslateLent { draft: draft.to_vec(), plain: vec![OLD; plain_len] };
        let (answer, after) = judge::translate(met, &mut Random::new(0, index), &lent)?;
        judge::known(answer, wanted)?;
        ensure(after.plain == expected, "both translators write another plain score")?;
    }
    Ok(())
}

fn accepted(met: &mut Met, draft: &[u8], plain: &[u8]) -> Outcome {
    becomes(met, draft, PLAIN_BYTES, Answer::Accepted(plain.len() as u64), plain)
}

fn translations() -> Vec<Case> {
    let of = |written: &'static translate::written::Written| {
        case(written.name, |met| accepted(met, &to_bytes(written.draft), &to_bytes(written.plain)))
    };
    translate::written::ALL.iter().map(of).collect()
}

fn journals() -> Vec<Case> {
    let of = |played: written::Played| {
        case(played.name, move |met| {
            let mut random = Random::new(0, 0);
            let plain = plays::translated(met, &mut random, &played.draft)?;
            let plain = plain.ok_or("the plain score does not fit")?;
            plays::run_shows(&mut random, &plain, &played.list, &to_bytes(&played.journal))
        })
    };
    written::all().into_iter().map(of).collect()
}

fn samples() -> Vec<Case> {
    let of = |name, words: Vec<u32>, wanted| {
        case(name, move |met| becomes(met, &to_bytes(&words), PLAIN_BYTES, wanted, &[]))
    };
    vec![
        case("S is its own translation", |met| accepted(met, &to_bytes(&S), &to_bytes(&S))),
        case("S with a fact is its own translation", |met| {
            let score = to_bytes(&replaced(&S, &[(8, fact(3))]));
            accepted(met, &score, &score)
        }),
        of("no bytes", vec![], refused(1, 0)),
        of("S with a watch for its head", replaced(&S, &[(0, watch(0, 0))]), refused(2, 0)),
        of("S without its procedure", S[..7].to_vec(), refused(3, 0)),
        of("S with a watch for its ports", replaced(&S, &[(1, watch(0, 0))]), refused(4, 1)),
        of("S with a watch for its procedure", replaced(&S, &[(7, watch(0, 0))]), refused(4, 7)),
        of("S with a watch for its rule", replaced(&S, &[(8, watch(0, 0))]), refused(4, 8)),
        of("a watch with bit 18", replaced(&S, &[(3, watch(0, 1) | 1 << 18)]), refused(4, 3)),
        of("a watch with bit 27", replaced(&S, &[(3, watch(0, 1) | 1 << 27)]), refused(4, 3)),
        of("a watch of token T", replaced(&S, &[(3, watch(0, 4))]), refused(5, 3)),
        of("a watch of itself", replaced(&S, &[(3, watch(1, 3))]), refused(6, 3)),
        of("a watch: 4 before 5 and 6", replaced(&S, &[(3, watch(1, 4) | 1 << 27)]), refused(4, 3)),
        of("a watch: 5 before 6", replaced(&S, &[(3, watch(1, 4))]), refused(5, 3)),
        of("a call under a watch", replaced(&S, &[(5, watch(2, 1)), (6, parallel(1, 3))]), refused(7, 0)),
    ]
}

fn lengths() -> Vec<Case> {
    let lengths = [0, 1, 4, 132, 2048, PLAIN_BYTES - 4, PLAIN_BYTES - 1, PLAIN_BYTES + 1, PLAIN_BYTES + 4, 65_536];
    let all = move |met: &mut Met, draft: &[u8], wanted| {
        lengths.iter().try_for_each(|&length| becomes(met, draft, length, wanted, &[]))
    };
    vec![
        case("a plain buffer of another length: 8", move |met| all(met, &to_bytes(&S), refused(8, 0))),
        case("8 before 16", move |met| all(met, &diamond(16), refused(8, 0))),
        case("7 before 8", move |met| {
            all(met, &to_bytes(&replaced(&S, &[(5, watch(2, 1)), (6, parallel(1, 3))])), refused(7, 0))
        }),
        case("1 before 8", move |met| all(met, &[], refused(1, 0))),
    ]
}

/// Watches in a diamond over a skip.
fn diamond(watches: u32) -> Vec<u8> {
    scenes::of_agents(256, scenes::diamond(skip(), watches, 0)).bytes()
}

/// Nine of them, which make 1,023 agents, and so many parallels on top.
fn nine_watches(parallels: u32) -> Vec<u8> {
    let mut agents = scenes::diamond(skip(), 9, 0);
    for _ in 0..parallels {
        let last = agents.len() as u32 - 1;
        agents.push(parallel(last, last));
    }
    scenes::of_agents(9, agents).bytes()
}

/// Six calls one below the other, each under a watch and not, make 63 procedures; so many more are called.
fn six_calls(calls: u32) -> Vec<u8> {
    let mut draft = scenes::diamond_of_calls(6, 0);
    for _ in 0..calls {
        let (root, first) = (draft.procedures[0] & 0x3FF, draft.agents.len() as u32);
        draft.agents.extend([call(draft.procedures.len() as u32), parallel(root, first)]);
        draft.procedures.push(procedure(0));
        draft.procedures[0] = procedure(first + 1);
    }
    draft.bytes()
}

/// Two watches over a next: one token and two rules more than the draft has.
fn two_watches(tokens: u32, rules: usize) -> Vec<u8> {
    let mut draft = scenes::of_agents(tokens, vec![skip(), next(0), watch(1, 1), watch(2, 2)]);
    draft.rules = vec![rule(1, 0, 0); rules];
    draft.bytes()
}

fn sizes() -> Vec<Case> {
    let fits = |name, draft: fn() -> Vec<u8>, words: u64| {
        case(name, move |met| {
            let mut random = Random::new(0, 0);
            let lent = judge::lent(&mut random, draft());
            let (answer, _) = judge::translate(met, &mut random, &lent)?;
            judge::known(answer, Answer::Accepted(4 * words))
        })
    };
    let passes =
        |name, draft: fn() -> Vec<u8>| case(name, move |met| becomes(met, &draft(), PLAIN_BYTES, refused(16, 0), &[]));
    vec![
        fits("1,024 agents", || nine_watches(1), 2 + 1024 + 1),
        passes("1,025 agents", || nine_watches(2)),
        fits("64 procedures", || six_calls(1), 2 + 3 * 31 + 32 + 2 + 64),
        passes("65 procedures", || six_calls(2)),
        fits("rounds past 900 watches, each under one token more", || scenes::rounds(4), 2 + 96 + 17 + (15 + 32)),
        fits("256 tokens", || two_watches(255, 0), 2 + 2 + 1 + 2),
        passes("257 tokens", || two_watches(256, 0)),
        fits("256 rules", || two_watches(3, 254), 2 + 2 + 1 + 256),
        passes("257 rules", || two_watches(3, 255)),
    ]
}

/// Longer than any answer takes that does not hang on the number of sets.
const LONGEST: Duration = Duration::from_secs(2);

fn times() -> Vec<Case> {
    let in_time = |name, draft: fn() -> Vec<u8>| {
        case(name, move |met| {
            let start = Instant::now();
            becomes(met, &draft(), PLAIN_BYTES, refused(16, 0), &[])?;
            ensure(start.elapsed() < LONGEST, "the answer took too long")
        })
    };
    vec![
        in_time("16 watches in a diamond: 16, in time", || diamond(16)),
        in_time("256 watches in a diamond: 16, in time", || diamond(256)),
        in_time("40 rounds past 900 watches: 16, in time", || scenes::rounds(40)),
        in_time("64 calls in a diamond: 16, in time", || scenes::diamond_of_calls(64, 1).bytes()),
    ]
}
