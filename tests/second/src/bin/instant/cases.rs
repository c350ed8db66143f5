//! The document's own instants, and one for each reading that would spoil a score.

use crate::library;
use second::answer::{refused, Answer};
use second::calls::{instant_call, InstantLent};
use second::chains::{self, worst_order, Chain, Start, CALL};
use second::decoded::Decoded;
pub use second::generate::one_procedure as score;
use second::generate::Score;
use second::guarded::GUARDS;
use second::lent::*;
use second::oracle;
use second::random::Random;
use second::sample::{replaced, S};
use second::tests::{case, ensure, same_call, Case, Met, Outcome};
use second::weight::Weights;
use second::words::*;

pub fn all() -> Vec<Case> {
    [
        sample(),
        refusals(),
        small(),
        readings(),
        facts(),
        facts_and_agents(),
        facts_and_aborts(),
        sharing(),
        chains::cases(falls),
        other_chains(),
    ]
    .into_iter()
    .flatten()
    .collect()
}

/// What one instant must bring about.
pub struct Wanted {
    status: u32,
    count: u32,
    store: Vec<usize>,
    awake: Vec<usize>,
}

pub fn quiet(count: u32, store: &[usize], awake: &[usize]) -> Wanted {
    Wanted { status: u32::from(store.contains(&0)), count, store: store.to_vec(), awake: awake.to_vec() }
}

pub fn aborted() -> Wanted {
    Wanted { status: 2, count: 0, store: vec![], awake: vec![] }
}

pub fn lent(score: &[u32], state: Vec<u8>, inputs: &[usize]) -> InstantLent {
    InstantLent {
        score: to_bytes(score),
        state,
        input: map_bytes(inputs),
        store: vec![0xA5; MAP_BYTES],
        output: vec![0x5A; MAP_BYTES],
        scratch: vec![0xC3; SCRATCH_BYTES],
    }
}

/// What an instant sends: in a clash nothing, else the store's tokens at the ports.
fn output(score: &[u8], wanted: &Wanted) -> Vec<usize> {
    let ports = Decoded::new(score).ports;
    let is_sent = |token: &usize| wanted.status != 1 && ports.contains(token);
    wanted.store.iter().copied().filter(is_sent).collect()
}

/// The buffers after an instant that brings about what is wanted. The number of the state is one higher.
fn after(lent: &InstantLent, wanted: &Wanted) -> InstantLent {
    let word_0 = if wanted.status == 2 { ABORTED } else { RUNNING };
    let state = state_bytes(word_0, wanted.awake.iter().copied());
    InstantLent {
        score: lent.score.clone(),
        state: numbered(state, number_of(&lent.state) + 1),
        input: lent.input.clone(),
        store: map_bytes(&wanted.store),
        output: map_bytes(&output(&lent.score, wanted)),
        scratch: vec![0; SCRATCH_BYTES],
    }
}

/// Holds both engines to what is expected, at every offset.
pub fn both(met: &mut Met, lent: &InstantLent, expected: (Answer, InstantLent)) -> Outcome {
    let (answer, buffers) = instant_call(lent, &mut Random::new(0, 0));
    same_call(&expected, &(answer.packed(), buffers)).map_err(|difference| format!("second engine: {difference}"))?;
    for offset in 0..8 {
        for guard in GUARDS {
            let got = library::instant(lent, offset, guard)?;
            met.count("instant", &lent.score, got.0);
            same_call(&expected, &got)?;
        }
    }
    Ok(())
}

/// The buffers after an instant that is held to what it must bring about.
pub fn brings_about(met: &mut Met, lent: &InstantLent, wanted: &Wanted) -> Result<InstantLent, String> {
    let after = after(lent, wanted);
    both(met, lent, (Answer::Instant { status: wanted.status, count: wanted.count }, after.clone()))?;
    Ok(after)
}

/// Instants one after the other on one state: the inputs of each, and what it must bring about.
pub fn in_turn(met: &mut Met, score: &[u32], awake: &[usize], instants: &[(&[usize], Wanted)]) -> Outcome {
    in_turn_from(met, score, state_bytes(RUNNING, awake.iter().copied()), instants).map(|_| ())
}

/// The same from a state, and the state after them.
pub fn in_turn_from(
    met: &mut Met,
    score: &[u32],
    mut state: Vec<u8>,
    instants: &[(&[usize], Wanted)],
) -> Result<Vec<u8>, String> {
    for (inputs, wanted) in instants {
        state = brings_about(met, &lent(score, state, inputs), wanted)?.state;
    }
    Ok(state)
}

pub fn turned_down(met: &mut Met, lent: InstantLent, number: u32, value: u64) -> Outcome {
    both(met, &lent, (refused(number, value), lent.clone()))
}

pub fn s_aborting() -> Vec<u32> {
    replaced(&S, &[(2, 0x4000_0001)])
}

fn weights(score: &[u32], wanted: &[u64]) -> Outcome {
    let score = Decoded::new(&to_bytes(score));
    let mut weights = Weights::new(&score);
    let got: Vec<u64> = (0..score.agents.len()).map(|agent| weights.of(agent)).collect();
    ensure(got == wanted, &format!("second engine: {got:?}"))
}

fn sample() -> Vec<Case> {
    vec![
        case("S: counts 3, 2, 4, awake agent 2", |met| {
            let instants: [(&[usize], Wanted); 3] =
                [(&[1], quiet(3, &[1, 2], &[2])), (&[], quiet(2, &[], &[2])), (&[1, 3], quiet(4, &[0, 1, 2, 3], &[2]))];
            in_turn(met, &S, &[4], &instants)
        }),
        case("S: weights", |_| weights(&S, &[1, 2, 4, 0, 3])),
        case("S with an abort, input {1}: aborted, and the next instant too", |met| {
            in_turn(met, &s_aborting(), &[4], &[(&[1], aborted()), (&[], aborted()), (&[1, 3], aborted())])
        }),
        case("S with an abort, input {0}: aborted", |met| in_turn(met, &s_aborting(), &[4], &[(&[0], aborted())])),
        case("S with an abort, input {}: quiet", |met| {
            in_turn(met, &s_aborting(), &[4], &[(&[], quiet(1, &[], &[2]))])
        }),
        case("S, nobody awake: input alone is closed", |met| {
            in_turn(met, &S, &[], &[(&[2, 3], quiet(0, &[0, 1, 2, 3], &[])), (&[], quiet(0, &[], &[]))])
        }),
    ]
}

fn refusals() -> Vec<Case> {
    let running = || state_bytes(RUNNING, [4]);
    let with = |words: &[(usize, u32)]| replaced(&S, words);
    let score = |name, words: Vec<u32>, number, value| {
        case(name, move |met| turned_down(met, lent(&words, running(), &[]), number, value))
    };
    let state = |name, state: Vec<u8>, inputs: &'static [usize], number| {
        case(name, move |met| turned_down(met, lent(&S, state.clone(), inputs), number, 0))
    };
    vec![
        score("no score: 1", vec![], 1, 0),
        score("a wrong head: 2", with(&[(0, 0)]), 2, 0),
        score("S without its procedure: 3", S[..7].to_vec(), 3, 0),
        score("S with a rule for an agent: 4", with(&[(2, S[8])]), 4, 2),
        score("S with rule 0x20040200: 5", with(&[(8, 0x2004_0200)]), 5, 8),
        score("S with a fact that has a premise: 4", with(&[(8, 0x2800_0203)]), 4, 8),
        score("S with a fact of token 4: 5", with(&[(8, 0x2800_0004)]), 5, 8),
        score("S with root 5: 6", with(&[(7, 0x3000_0005)]), 6, 7),
        score("S with agent 3 as 0x60000801: 7", with(&[(5, 0x6000_0801)]), 7, 0),
        state("S, state with agent 5: 9", state_bytes(RUNNING, [5]), &[], 9),
        state("S, state with agent 1,023: 9", state_bytes(RUNNING, [4, 1023]), &[], 9),
        state("S, aborted with an agent: 9", state_bytes(ABORTED, [4]), &[], 9),
        state("S, state word 0xF0000002: 9", state_bytes(0xF000_0002, []), &[], 9),
        state("S, state word 0: 9", state_bytes(0, []), &[], 9),
        state("S, state with agent 5, input token 4: 9", state_bytes(RUNNING, [5]), &[4], 9),
        state("S, input token 4: 10", state_bytes(RUNNING, [4]), &[4], 10),
        state("S, input token 255: 10", state_bytes(RUNNING, [4]), &[255], 10),
        state("S, aborted, input token 4: 10", state_bytes(ABORTED, []), &[4], 10),
        case("S, each buffer one byte short or long: 8", |met| {
            let one_off = |length: usize| [length - 1, length + 1, 0];
            (0..5).try_for_each(|which| (0..3).try_for_each(|off| other_length(met, which, |len| one_off(len)[off])))
        }),
    ]
}

/// One buffer has another length, and what it holds is wrong besides: still 8.
fn other_length(met: &mut Met, which: usize, length: impl Fn(usize) -> usize) -> Outcome {
    let mut lent = lent(&S, state_bytes(RUNNING, [5]), &[4]);
    let buffers = [&mut lent.state, &mut lent.input, &mut lent.store, &mut lent.output, &mut lent.scratch];
    let length = length(buffers[which].len());
    buffers[which].resize(length, 0);
    turned_down(met, lent, 8, 0)
}

fn small() -> Vec<Case> {
    let unless_1 = || score(2, &[tell(1), unless(0, 1)], &[]);
    vec![
        case("unless 1, input {}: count 0, awake {0}", move |met| {
            in_turn(met, &unless_1(), &[1], &[(&[], quiet(0, &[], &[0])), (&[], quiet(1, &[1], &[]))])
        }),
        case("unless 1, input {1}: count 1, none awake", move |met| {
            in_turn(met, &unless_1(), &[1], &[(&[1], quiet(1, &[1], &[])), (&[], quiet(0, &[], &[]))])
        }),
        case("parallel of a tell with itself: weight 3", |_| {
            weights(&score(2, &[tell(1), parallel(0, 0)], &[]), &[1, 3])
        }),
        case("parallel of a tell with itself: count 2", |met| {
            let score = score(2, &[tell(1), parallel(0, 0)], &[]);
            in_turn(met, &score, &[1], &[(&[], quiet(2, &[1], &[]))])
        }),
        case("a next is not reduced and a skip is", |met| {
            let score = score(1, &[skip(), next(0), parallel(0, 1)], &[]);
            in_turn(met, &score, &[2], &[(&[], quiet(2, &[], &[0])), (&[], quiet(1, &[], &[]))])
        }),
        case("a tell counts though the input told the same", |met| {
            in_turn(met, &score(2, &[tell(1)], &[]), &[0], &[(&[1], quiet(1, &[1], &[]))])
        }),
        case("an abort beside a clash is still an abort", |met| {
            let score = score(2, &[tell(0), abort(), when(1, 1), parallel(0, 2)], &[]);
            in_turn(met, &score, &[3], &[(&[], aborted())])
        }),
        case("an abort under a when that is not answered", |met| {
            let score = score(2, &[abort(), when(0, 1)], &[]);
            in_turn(met, &score, &[1], &[(&[], quiet(0, &[], &[]))])
        }),
        case("a clash answers every when and unless", |met| {
            let score = score(4, &[tell(0), next(0), when(1, 3), unless(0, 2), parallel(2, 3)], &[]);
            in_turn(met, &score, &[4], &[(&[0], quiet(3, &[0, 1, 2, 3], &[0]))])
        }),
        case("outputs are cut to the ports and the store is not", |met| {
            let mut words = score(4, &[tell(1)], &[]);
            words[1] = ports(2, 2);
            in_turn(met, &words, &[0], &[(&[2, 3], quiet(1, &[1, 2, 3], &[]))])
        }),
        case("the clash of 256 tokens", |met| {
            let all: Vec<usize> = (0..256).collect();
            in_turn(met, &score(256, &[tell(0)], &[]), &[0], &[(&[], quiet(1, &all, &[]))])
        }),
    ]
}

fn readings() -> Vec<Case> {
    vec![
        case("an unless is judged when all is quiet, whichever half it is", |met| {
            let agents = [tell(1), tell(2), when(1, 1), unless(0, 2), parallel(0, 2)];
            [parallel(3, 4), parallel(4, 3)].into_iter().try_for_each(|root| {
                let score = score(3, &[&agents[..], &[root]].concat(), &[]);
                in_turn(met, &score, &[5], &[(&[], quiet(6, &[1, 2], &[]))])
            })
        }),
        case("an unless waits for what the rules add", |met| {
            let score = score(4, &[tell(1), unless(0, 3), parallel(0, 1)], &[rule(3, 2, 2), rule(2, 1, 1)]);
            in_turn(met, &score, &[2], &[(&[], quiet(3, &[1, 2, 3], &[]))])
        }),
        case("rules are passed over until nothing is added", |met| {
            let score = score(5, &[tell(1)], &[rule(4, 3, 3), rule(3, 2, 1), rule(2, 1, 1)]);
            in_turn(met, &score, &[0], &[(&[], quiet(1, &[1, 2, 3, 4], &[]))])
        }),
        case("a rule needs both premises", |met| {
            let score = score(4, &[tell(1)], &[rule(3, 1, 2), rule(3, 2, 1)]);
            in_turn(met, &score, &[0], &[(&[], quiet(1, &[1], &[])), (&[2], quiet(0, &[2], &[]))])
        }),
        case("neither an unanswered when nor the store is kept", |met| {
            let score = score(3, &[tell(2), when(0, 1)], &[]);
            in_turn(met, &score, &[1], &[(&[], quiet(0, &[], &[])), (&[1], quiet(0, &[1], &[]))])
        }),
        case("a call under a when is unguarded", |met| {
            turned_down(met, lent(&score(2, &[call(0), when(0, 1)], &[]), state_bytes(RUNNING, [1]), &[]), 7, 0)
        }),
        case("a call becomes the root and both count", |met| {
            let score = Score {
                tokens: 2,
                ports: ports(1, 1),
                agents: vec![tell(1), call(1)],
                procedures: vec![procedure(1), procedure(0)],
                rules: vec![],
            };
            in_turn(met, &score.words(), &[1], &[(&[], quiet(2, &[1], &[]))])
        }),
    ]
}

/// Two instants with nobody awake and no input.
fn stands(met: &mut Met, score: &[u32], store: &[usize]) -> Outcome {
    in_turn(met, score, &[], &[(&[], quiet(0, store, &[])), (&[], quiet(0, store, &[]))])
}

fn facts() -> Vec<Case> {
    let all: fn(usize) -> Vec<usize> = |tokens| (0..tokens).collect();
    vec![
        case("a fact stands with nobody awake and no input", |met| stands(met, &score(3, &[skip()], &[fact(2)]), &[2])),
        case("what follows from facts stands, though its rules come first", |met| {
            let rules = [rule(4, 3, 2), rule(3, 2, 2), fact(2), rule(5, 2, 1)];
            stands(met, &score(6, &[skip()], &rules), &[2, 3, 4])
        }),
        case("of facts and what follows from them the ports come out", |met| {
            let mut words = score(6, &[skip()], &[fact(1), rule(2, 1, 1), rule(3, 2, 2), fact(5)]);
            words[1] = ports(2, 4);
            stands(met, &words, &[1, 2, 3, 5])
        }),
        case("a fact twice is a fact", |met| stands(met, &score(3, &[skip()], &[fact(1), fact(2), fact(1)]), &[1, 2])),
        case("a fact of token 0 is a clash at every instant", move |met| {
            stands(met, &score(4, &[skip()], &[fact(0)]), &all(4))
        }),
        case("facts that lead to the clash", move |met| {
            stands(met, &score(5, &[skip()], &[rule(0, 3, 2), rule(3, 1, 1), fact(1), fact(2)]), &all(5))
        }),
        case("a fact of the only token", move |met| stands(met, &score(1, &[skip()], &[fact(0)]), &all(1))),
        case("256 facts of all tokens but the clash", move |met| {
            let facts: Vec<u32> = (0..256).map(|token| fact(token.max(1))).collect();
            stands(met, &score(256, &[skip()], &facts), &all(256)[1..])
        }),
        case("256 facts of all tokens", move |met| {
            let facts: Vec<u32> = (0..256).map(fact).collect();
            stands(met, &score(256, &[skip()], &facts), &all(256))
        }),
        case("a rule with a fact for one premise and an input for the other", |met| {
            [rule(3, 1, 2), rule(3, 2, 1)].into_iter().try_for_each(|rule| {
                let score = score(4, &[skip()], &[rule, fact(1)]);
                in_turn(met, &score, &[], &[(&[], quiet(0, &[1], &[])), (&[2], quiet(0, &[1, 2, 3], &[]))])
            })
        }),
    ]
}

fn facts_and_agents() -> Vec<Case> {
    vec![
        case("a when on a fact is answered", |met| {
            let score = score(3, &[tell(2), when(0, 1)], &[fact(1)]);
            in_turn(met, &score, &[1], &[(&[], quiet(2, &[1, 2], &[])), (&[], quiet(0, &[1], &[]))])
        }),
        case("a when under a next finds the fact at the next instant", |met| {
            let score = score(3, &[tell(2), when(0, 1), next(1)], &[fact(1)]);
            in_turn(met, &score, &[2], &[(&[], quiet(0, &[1], &[1])), (&[], quiet(2, &[1, 2], &[]))])
        }),
        case("an unless on a fact is gone", |met| {
            let score = score(3, &[tell(2), unless(0, 1)], &[fact(1)]);
            in_turn(met, &score, &[1], &[(&[], quiet(1, &[1], &[])), (&[], quiet(0, &[1], &[]))])
        }),
        case("an unless on what follows from a fact is gone", |met| {
            let score = score(4, &[tell(3), unless(0, 2)], &[rule(2, 1, 1), fact(1)]);
            in_turn(met, &score, &[1], &[(&[], quiet(1, &[1, 2], &[]))])
        }),
        case("an unless on another token stays", |met| {
            let score = score(3, &[tell(2), unless(0, 2)], &[fact(1)]);
            in_turn(met, &score, &[1], &[(&[], quiet(0, &[1], &[0])), (&[], quiet(1, &[1, 2], &[]))])
        }),
        case("a tell of a fact counts, and the fact does not", |met| {
            in_turn(met, &score(2, &[tell(1)], &[fact(1)]), &[0], &[(&[1], quiet(1, &[1], &[]))])
        }),
        case("the clash of a fact answers every when and unless", |met| {
            let score = score(4, &[skip(), next(0), when(1, 3), unless(0, 2), parallel(2, 3)], &[fact(0)]);
            in_turn(met, &score, &[4], &[(&[], quiet(3, &[0, 1, 2, 3], &[0]))])
        }),
        case("what is told clashes with a fact", |met| {
            let score = score(3, &[tell(2)], &[fact(1), rule(0, 1, 2)]);
            in_turn(met, &score, &[0], &[(&[], quiet(1, &[0, 1, 2], &[])), (&[], quiet(0, &[1], &[]))])
        }),
    ]
}

/// An aborted instant has an empty store, the first and each later one.
fn facts_and_aborts() -> Vec<Case> {
    let aborts = |met: &mut Met, score: &[u32]| {
        let root = Decoded::new(&to_bytes(score)).roots[0];
        in_turn(met, score, &[root], &[(&[], aborted()), (&[], aborted()), (&[1], aborted())])
    };
    vec![
        case("an abort beside a fact", move |met| aborts(met, &score(3, &[abort()], &[fact(2)]))),
        case("an abort beside the clash of a fact", move |met| aborts(met, &score(3, &[abort()], &[fact(0)]))),
        case("an abort under a when on a fact", move |met| aborts(met, &score(3, &[abort(), when(0, 2)], &[fact(2)]))),
        case("an abort under a when on what follows from a fact", move |met| {
            aborts(met, &score(4, &[abort(), when(0, 3)], &[rule(3, 2, 2), fact(2)]))
        }),
        case("an abort under a when that the clash of a fact answers", move |met| {
            aborts(met, &score(3, &[abort(), when(0, 2)], &[fact(0)]))
        }),
        case("an abort that a fact does not reach", |met| {
            let score = score(4, &[abort(), when(0, 3)], &[fact(2)]);
            in_turn(met, &score, &[1], &[(&[], quiet(0, &[2], &[]))])
        }),
    ]
}

/// Agents 1 to 1,023 are parallels of the one before with itself.
pub fn ladder() -> Vec<u32> {
    ladder_on(tell(1))
}

/// The same, with agent 0.
pub fn ladder_on(lowest: u32) -> Vec<u32> {
    let steps = (0..1023).map(|below| parallel(below, below));
    score(2, &[lowest].into_iter().chain(steps).collect::<Vec<_>>(), &[])
}

fn sharing() -> Vec<Case> {
    vec![
        case("copies of one agent are counted once: 2^1,023 of them", |met| {
            in_turn(met, &ladder(), &[1023], &[(&[], quiet(1024, &[1], &[]))])
        }),
        case("every agent awake at once", |met| {
            let all: Vec<usize> = (0..1024).collect();
            in_turn(met, &ladder(), &all, &[(&[], quiet(1024, &[1], &[]))])
        }),
    ]
}

/// Two instants of a chain from the start state, which both end with its store.
fn falls(met: &mut Met, chain: Chain) -> Outcome {
    let (score, inputs) = (oracle::words(&chain.score()), chain.inputs());
    let instant = |count| (&inputs[..], quiet(count, &chain.store(), &[CALL]));
    let root = Decoded::new(&chain.score()).roots[0];
    in_turn(met, &score, &[root], &[instant(chain.reduced()), instant(chain.reduced() + 1)])
}

fn other_chains() -> Vec<Case> {
    vec![
        case("256 tokens in the worst order, started nowhere, in the middle and at the end", |met| {
            let chain = Chain { tokens: 256, lowest: 1, start: Start::Input };
            let middle: Vec<usize> = (1..=128).collect();
            let instants: [(&[usize], Wanted); 3] = [
                (&[], quiet(2, &[], &[0, CALL])),
                (&[128], quiet(6, &middle, &[CALL])),
                (&[1], quiet(6, &[1], &[CALL])),
            ];
            in_turn(met, &oracle::words(&chain.score()), &[6], &instants)
        }),
        case("256 tokens in the worst order, after 63 calls", |met| {
            let score = Score {
                tokens: 256,
                ports: ports(0, 255),
                agents: (1..64).map(call).chain([tell(255)]).collect(),
                procedures: (0..64).map(procedure).collect(),
                rules: worst_order(0, 255),
            };
            let all: Vec<usize> = (0..256).collect();
            in_turn(met, &score.words(), &[0], &[(&[], quiet(64, &all, &[]))])
        }),
    ]
}
