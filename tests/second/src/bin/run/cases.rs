//! The document's own runs and journals, and one case for each sentence that is easily read wrong.

use crate::judge::{self, known};
use crate::library;
use second::answer::{refused, same, Answer};
use second::calls::{JournalCheckLent, RunLent};
use second::chains::{self, Chain, CALL};
use second::decoded::Decoded;
use second::guarded::GUARDS;
use second::lent::*;
use second::random::Random;
use second::sample::{replaced, S};
use second::tests::{case, ensure, Case, Met, Outcome};
use second::words::*;

pub fn all() -> Vec<Case> {
    [sample(), lists(), aborted(), journals(), facts(), journals_with_facts(), large_values(), chains::cases(falls)]
        .into_iter()
        .flatten()
        .collect()
}

const INPUTS: [&[usize]; 3] = [&[1], &[], &[1, 3]];

/// Of S over these inputs. The third instant is a clash and ends after its inputs.
pub const JOURNAL: [u32; 7] =
    [0xC000_0000, 0xD000_0001, 0xE000_0002, 0xC000_0000, 0xC000_0001, 0xD000_0001, 0xD000_0003];

pub fn inputs() -> Vec<u32> {
    let list: Vec<Vec<usize>> = INPUTS.iter().map(|inputs| inputs.to_vec()).collect();
    second::oracle::words(&list_bytes(&list))
}

pub const OLD: u8 = 0xA5;

pub fn lent(score: &[u32], state: Vec<u8>, inputs: &[u32], room: usize) -> RunLent {
    RunLent {
        score: to_bytes(score),
        state,
        inputs: to_bytes(inputs),
        journal: vec![OLD; room],
        scratch: vec![OLD; SCRATCH_BYTES],
    }
}

pub fn start() -> Vec<u8> {
    state_bytes(RUNNING, [4])
}

/// Eight times, at random offsets; then the answer and the buffers written are held to what is wanted. The state's
/// number is the one lent, and higher by as many instants as were written.
pub fn run(met: &mut Met, lent: &RunLent, wanted: Answer, journal: &[u32], state: &[u8]) -> Outcome {
    let mut expected = to_bytes(journal);
    expected.resize(lent.journal.len(), OLD);
    let state = numbered(state.to_vec(), number_of(&lent.state) + wanted.written() as u32);
    for index in 0..8 {
        let (answer, after) = judge::run(met, &mut Random::new(0, index), lent)?;
        known(answer, answer == wanted)?;
        ensure(after.journal == expected && after.state == state, "both engines leave another journal or state")?;
    }
    Ok(())
}

fn sample_run(met: &mut Met, room: usize, wanted: Answer, words: usize, state: Vec<u8>) -> Outcome {
    run(met, &lent(&S, start(), &inputs(), room), wanted, &JOURNAL[..words], &state)
}

fn sample() -> Vec<Case> {
    let awake_2 = || state_bytes(RUNNING, [2]);
    vec![
        case("S: the whole journal", move |met| sample_run(met, 65_536, Answer::Accepted(3), 7, awake_2())),
        case("S, 36 journal bytes: all three, and the last 8 as they were", move |met| {
            sample_run(met, 36, Answer::Accepted(3), 7, awake_2())
        }),
        case("S, 28 journal bytes: all three", move |met| sample_run(met, 28, Answer::Accepted(3), 7, awake_2())),
        case("S, 27 journal bytes: 15, two", move |met| sample_run(met, 27, refused(15, 2), 4, awake_2())),
        case("S, 16 journal bytes: 15, two", move |met| sample_run(met, 16, refused(15, 2), 4, awake_2())),
        case("S, 15 journal bytes: 15, one", move |met| sample_run(met, 15, refused(15, 1), 3, awake_2())),
        case("S, 12 journal bytes: 15, one", move |met| sample_run(met, 12, refused(15, 1), 3, awake_2())),
        case("S, 11 journal bytes: 15, none", |met| sample_run(met, 11, refused(15, 0), 0, start())),
        case("S, no journal bytes: 15, none", |met| sample_run(met, 0, refused(15, 0), 0, start())),
    ]
}

/// A list that is turned down with 13 at a word.
fn against_form(name: &'static str, list: &'static [u32], word: u64) -> Case {
    case(name, move |met| run(met, &lent(&S, start(), list, 64), refused(13, word), &[], &start()))
}

fn lists() -> Vec<Case> {
    vec![
        case("no bytes: a list of no instants, and the scratch is zero", |met| {
            run(met, &lent(&S, start(), &[], 0), Answer::Accepted(0), &[], &start())
        }),
        case("a list of 5 bytes: 12", |met| {
            let mut lent = lent(&S, start(), &[0xC000_0000], 64);
            lent.inputs.push(0);
            run(met, &lent, refused(12, 0), &[], &start())
        }),
        case("a wrong state before a list of 5 bytes: 9", |met| {
            let mut lent = lent(&S, state_bytes(RUNNING, [5]), &[0xC000_0000], 64);
            lent.inputs.push(0);
            run(met, &lent, refused(9, 0), &[], &lent.state)
        }),
        against_form("an input before the first instant: 13", &[0xD000_0001], 0),
        against_form("a status in a list: 13", &[0xC000_0000, 0xC000_0001], 1),
        against_form("an output in a list: 13", &[0xC000_0000, 0xE000_0001], 1),
        against_form("a token twice: 13 at the later", &[0xC000_0000, 0xD000_0001, 0xD000_0001], 2),
        against_form("tokens that fall: 13 at the later", &[0xC000_0000, 0xD000_0003, 0xD000_0001], 2),
        against_form("token T: 13", &[0xC000_0000, 0xD000_0004], 1),
        against_form("an unnamed bit: 13", &[0xC000_0000, 0xD000_0101], 1),
        against_form("another kind: 13", &[0xC000_0000, 0x1000_0000], 1),
        case("tokens begin anew with each instant", |met| {
            let list = [0xC000_0000, 0xD000_0003, 0xC000_0000, 0xD000_0001];
            let journal = [0xC000_0000, 0xD000_0003, 0xE000_0003, 0xC000_0000, 0xD000_0001, 0xE000_0002];
            run(met, &lent(&S, start(), &list, 64), Answer::Accepted(2), &journal, &state_bytes(RUNNING, [2]))
        }),
    ]
}

fn aborted() -> Vec<Case> {
    let aborted = || state_bytes(ABORTED, []);
    let s_aborting = || replaced(&S, &[(2, 0x4000_0001)]);
    vec![
        case("S with an abort: inputs are written on, outputs are not", move |met| {
            let list = [0xC000_0000, 0xC000_0000, 0xD000_0001, 0xC000_0000, 0xD000_0003];
            let journal = [0xC000_0000, 0xC000_0002, 0xD000_0001, 0xC000_0002, 0xD000_0003];
            run(met, &lent(&s_aborting(), start(), &list, 64), Answer::Accepted(3), &journal, &aborted())
        }),
        case("an aborted state, a wrong list: 13", move |met| {
            run(met, &lent(&S, aborted(), &[0xC000_0000, 0xD000_0004], 64), refused(13, 1), &[], &aborted())
        }),
        case("an aborted state, no room: 15", move |met| {
            run(met, &lent(&S, aborted(), &[0xC000_0000], 3), refused(15, 0), &[], &aborted())
        }),
    ]
}

pub fn check(met: &mut Met, score: &[u32], journal: Vec<u8>, wanted: Answer) -> Outcome {
    check_on(met, score, journal, vec![OLD; SCRATCH_BYTES], wanted)
}

/// With a scratch that holds these bytes.
pub fn check_on(met: &mut Met, score: &[u32], journal: Vec<u8>, scratch: Vec<u8>, wanted: Answer) -> Outcome {
    let lent = JournalCheckLent { score: to_bytes(score), journal, scratch };
    for index in 0..8 {
        let answer = judge::journal_check(met, &mut Random::new(0, index), &lent)?;
        known(answer, answer == wanted)?;
    }
    Ok(())
}

/// S's journal with a word replaced.
fn with(name: &'static str, at: usize, word: u32, wanted: Answer) -> Case {
    case(name, move |met| check(met, &S, to_bytes(&replaced(&JOURNAL, &[(at, word)])), wanted))
}

fn only(name: &'static str, words: &'static [u32], wanted: Answer) -> Case {
    case(name, move |met| check(met, &S, to_bytes(words), wanted))
}

fn journals() -> Vec<Case> {
    vec![
        only("no bytes: a journal of no instants", &[], Answer::Accepted(0)),
        only("S's journal", &JOURNAL, Answer::Accepted(3)),
        case("S's journal but its last byte: 12", |met| {
            check(met, &S, to_bytes(&JOURNAL)[..27].to_vec(), refused(12, 0))
        }),
        case("S's journal but its last word: 14, instant 2", |met| {
            check(met, &S, to_bytes(&JOURNAL[..6]), refused(14, 2))
        }),
        with("S's journal, status 1 for 0: 14, instant 1", 3, 0xC000_0001, refused(14, 1)),
        with("S's journal, status 3: 13", 4, 0xC000_0003, refused(13, 4)),
        with("S's journal, an output outside the ports: 14", 2, 0xE000_0001, refused(14, 0)),
        with("S's journal, an output T: 13", 2, 0xE000_0004, refused(13, 2)),
        with("S's journal, an input after an output: 13", 3, 0xD000_0003, refused(13, 3)),
        with("S's journal, another input with other outputs: 14", 1, 0xD000_0003, refused(14, 0)),
        only("13 in the last instant before 14 in the first", &[0xC000_0002, 0xC000_0003], refused(13, 1)),
        only("an output under status 2: 14", &[0xC000_0002, 0xE000_0002], refused(14, 0)),
        only("an output first: 13", &[0xE000_0002], refused(13, 0)),
    ]
}

/// S with the fact 3 in place of its rule.
fn s_with_fact() -> Vec<u32> {
    replaced(&S, &[(8, fact(3))])
}

/// Its journal over the inputs of S.
const JOURNAL_WITH_FACT: [u32; 11] = [
    0xC000_0000,
    0xD000_0001,
    0xE000_0002,
    0xE000_0003,
    0xC000_0000,
    0xE000_0003,
    0xC000_0000,
    0xD000_0001,
    0xD000_0003,
    0xE000_0002,
    0xE000_0003,
];

/// The same score with an abort for agent 0, which input 1 reaches.
fn s_aborting_with_fact() -> Vec<u32> {
    replaced(&S, &[(2, abort()), (8, fact(3))])
}

/// Its journal over {}, {1} and {}.
const ABORTED_JOURNAL: [u32; 5] = [0xC000_0000, 0xE000_0003, 0xC000_0002, 0xD000_0001, 0xC000_0002];

fn facts() -> Vec<Case> {
    let awake_2 = || state_bytes(RUNNING, [2]);
    let aborted = || state_bytes(ABORTED, []);
    let two = [0xC000_0000, 0xC000_0000];
    let refusal = |name, word, number| {
        case(name, move |met| {
            let lent = lent(&replaced(&S, &[(8, word)]), start(), &inputs(), 64);
            run(met, &lent, refused(number, 8), &[], &start())
        })
    };
    vec![
        refusal("a fact that has a premise: 4", fact(3) | 1 << 16, 4),
        refusal("a fact of token T: 5", fact(4), 5),
        case("a fact is in the output of every instant", move |met| {
            let lent = lent(&s_with_fact(), start(), &inputs(), 64);
            run(met, &lent, Answer::Accepted(3), &JOURNAL_WITH_FACT, &awake_2())
        }),
        case("a fact clashes where the other premise is told", move |met| {
            let score = [&S[..], &[fact(3)]].concat();
            let quiet = [0xC000_0000, 0xE000_0003];
            let journal = [&[0xC000_0001, 0xD000_0001], &quiet[..], &[0xC000_0001, 0xD000_0001, 0xD000_0003]].concat();
            let lent = lent(&score, start(), &inputs(), 64);
            run(met, &lent, Answer::Accepted(3), &journal, &awake_2())
        }),
        case("a fact of token 0 is a clash at every instant", move |met| {
            let lent = lent(&replaced(&S, &[(8, fact(0))]), start(), &two, 64);
            run(met, &lent, Answer::Accepted(2), &[0xC000_0001, 0xC000_0001], &awake_2())
        }),
        case("a fact outside the ports shows in no instant", move |met| {
            let lent = lent(&replaced(&S, &[(1, ports(2, 2)), (8, fact(3))]), start(), &two, 64);
            run(met, &lent, Answer::Accepted(2), &two, &awake_2())
        }),
        case("a fact's word needs room: 15, one", move |met| {
            let lent = lent(&s_with_fact(), start(), &two, 15);
            run(met, &lent, refused(15, 1), &[0xC000_0000, 0xE000_0003], &awake_2())
        }),
        case("no fact once aborted", move |met| {
            let list = [0xC000_0000, 0xC000_0000, 0xD000_0001, 0xC000_0000];
            let lent = lent(&s_aborting_with_fact(), start(), &list, 64);
            run(met, &lent, Answer::Accepted(3), &ABORTED_JOURNAL, &aborted())
        }),
        case("no fact in an aborted state", move |met| {
            let lent = lent(&s_with_fact(), aborted(), &two, 64);
            run(met, &lent, Answer::Accepted(2), &[0xC000_0002, 0xC000_0002], &aborted())
        }),
    ]
}

/// A journal without the word at a place.
pub fn without(journal: &[u32], at: usize) -> Vec<u8> {
    to_bytes(&[&journal[..at], &journal[at + 1..]].concat())
}

/// A journal with the fact's word before a place.
fn with_fact_at(journal: &[u32], at: usize) -> Vec<u8> {
    to_bytes(&[&journal[..at], &[output_word(3)], &journal[at..]].concat())
}

fn journals_with_facts() -> Vec<Case> {
    let lacking = |name, at, instant| {
        case(name, move |met| check(met, &s_with_fact(), without(&JOURNAL_WITH_FACT, at), refused(14, instant)))
    };
    let adding = |name, at, instant| {
        case(name, move |met| {
            check(met, &s_aborting_with_fact(), with_fact_at(&ABORTED_JOURNAL, at), refused(14, instant))
        })
    };
    vec![
        case("a journal with a fact", |met| {
            check(met, &s_with_fact(), to_bytes(&JOURNAL_WITH_FACT), Answer::Accepted(3))
        }),
        lacking("a journal lacks the fact's word: 14, instant 0", 3, 0),
        lacking("a journal lacks the fact's word: 14, instant 1", 5, 1),
        lacking("a journal lacks the fact's word: 14, instant 2", 10, 2),
        case("S's journal is not that of S with a fact: 14", |met| {
            check(met, &s_with_fact(), to_bytes(&JOURNAL), refused(14, 0))
        }),
        case("the journal of S with a fact is not that of S: 14", |met| {
            check(met, &S, to_bytes(&JOURNAL_WITH_FACT), refused(14, 0))
        }),
        case("status 0 where a fact is the clash: 14", |met| {
            check(met, &replaced(&S, &[(8, fact(0))]), to_bytes(&[0xC000_0000]), refused(14, 0))
        }),
        case("the journal of an abort beside a fact", |met| {
            check(met, &s_aborting_with_fact(), to_bytes(&ABORTED_JOURNAL), Answer::Accepted(3))
        }),
        adding("a fact in the instant of the abort: 14, instant 1", 4, 1),
        adding("a fact in an instant after the abort: 14, instant 2", 5, 2),
    ]
}

/// More instants than 16 bits count.
const MANY: usize = 70_000;

/// More words than 24 bits count.
const VERY_MANY: usize = (1 << 24) + 2;

/// A list, and the journal of no outputs, of so many instants without inputs.
fn empty_instants(count: usize) -> Vec<u32> {
    vec![instant_word(0); count]
}

fn large_values() -> Vec<Case> {
    let awake_2 = || state_bytes(RUNNING, [2]);
    let last = |count: usize, word: u32| replaced(&empty_instants(count), &[(count - 1, word)]);
    vec![
        case("70,000 instants", move |met| {
            let list = empty_instants(MANY);
            let lent = lent(&S, start(), &list, 4 * MANY);
            run(met, &lent, Answer::Accepted(MANY as u64), &list, &awake_2())
        }),
        case("room for one less than 70,000 instants: 15", move |met| {
            let list = empty_instants(MANY);
            let lent = lent(&S, start(), &list, 4 * MANY - 1);
            run(met, &lent, refused(15, MANY as u64 - 1), &list[1..], &awake_2())
        }),
        case("a difference in the last of 70,000 instants: 14", move |met| {
            check(met, &S, to_bytes(&last(MANY, instant_word(1))), refused(14, MANY as u64 - 1))
        }),
        case("a list's fault at word 2^24 + 1: 13", move |met| {
            let lent = lent(&S, start(), &last(VERY_MANY, 0), 0);
            let (answer, _) = library::run(&lent, 0, GUARDS[0])?;
            met.count("run", &lent.score, answer);
            same(answer, refused(13, VERY_MANY as u64 - 1))
        }),
        case("2^24 + 1 instants before the last number: 18", |met| {
            let (count, aborted) = (VERY_MANY - 1, state_bytes(ABORTED, []));
            let state = numbered(aborted.clone(), LAST_NUMBER - count as u32);
            let lent = lent(&S, state, &empty_instants(VERY_MANY), 4 * VERY_MANY);
            let (answer, after) = library::run(&lent, 0, GUARDS[0])?;
            met.count("run", &lent.score, answer);
            same(answer, refused(18, count as u64))?;
            let (written, old) = after.journal.split_at(4 * count);
            let is_journal = written.chunks_exact(4).all(|word| word == instant_word(2).to_le_bytes());
            ensure(is_journal && old == [OLD; 4], "another journal")?;
            ensure(after.state == numbered(aborted, LAST_NUMBER), "another state")
        }),
        case("a journal's fault at word 2^24 + 1: 13", move |met| {
            let journal = to_bytes(&last(VERY_MANY, instant_word(3)));
            let lent = JournalCheckLent { score: to_bytes(&S), journal, scratch: vec![OLD; SCRATCH_BYTES] };
            let (answer, _) = library::journal_check(&lent, 0, GUARDS[0])?;
            met.count("journal check", &lent.score, answer);
            same(answer, refused(13, VERY_MANY as u64 - 1))
        }),
    ]
}

/// How many instants a chain is run for.
const FALLS: usize = 2;

/// The words of an instant of a chain that shows these tokens.
fn fall(chain: Chain, outputs: &[usize]) -> Vec<u32> {
    let status = u32::from(chain.lowest == 0);
    second::oracle::words(&instant_bytes(status, &chain.inputs(), outputs))
}

/// A run of a chain from the start state, all of whose tokens are at the ports; its journal, which is accepted; and one
/// that is not, whose last instant lacks the token that comes last, or in a clash shows it.
fn falls(met: &mut Met, chain: Chain) -> Outcome {
    let score = second::oracle::words(&chain.score());
    let list = second::oracle::words(&list_bytes(&vec![chain.inputs(); FALLS]));
    let store = chain.store();
    let (shown, wrong) = if chain.lowest == 0 { (&[][..], &store[..1]) } else { (&store[..], &store[1..]) };
    let journal = fall(chain, shown).repeat(FALLS);
    let start = State::start(&Decoded::new(&chain.score())).bytes();
    let lent = lent(&score, start, &list, 4 * journal.len() + 8);
    run(met, &lent, Answer::Accepted(FALLS as u64), &journal, &state_bytes(RUNNING, [CALL]))?;
    check(met, &score, to_bytes(&journal), Answer::Accepted(FALLS as u64))?;
    let all_but_last = fall(chain, shown).repeat(FALLS - 1);
    check(met, &score, to_bytes(&[all_but_last, fall(chain, wrong)].concat()), refused(14, FALLS as u64 - 1))
}
