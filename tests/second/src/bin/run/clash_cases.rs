//! A clash shows its inputs alone. Journals that show outputs in one, as those of document 01 do, are in their form and
//! meet 14 there.

use crate::cases::{check, inputs, lent, run, without, JOURNAL};
use second::answer::{refused, Answer};
use second::decoded::Decoded;
use second::generate::Score;
use second::lent::*;
use second::sample::{replaced, S};
use second::tests::{case, Case, Met, Outcome};
use second::words::*;

pub fn all() -> Vec<Case> {
    [sample(), causes(), kinds_of_ports(), in_turn(), rooms()].into_iter().flatten().collect()
}

/// S's journal as document 01 has it.
const OLD_JOURNAL: [u32; 9] = [
    0xC000_0000,
    0xD000_0001,
    0xE000_0002,
    0xC000_0000,
    0xC000_0001,
    0xD000_0001,
    0xD000_0003,
    0xE000_0002,
    0xE000_0003,
];

/// S's journal with words put in before a place.
fn with(name: &'static str, at: usize, words: &'static [u32], wanted: Answer) -> Case {
    case(name, move |met| {
        let journal = [&JOURNAL[..at], words, &JOURNAL[at..]].concat();
        check(met, &S, to_bytes(&journal), wanted)
    })
}

fn sample() -> Vec<Case> {
    let old =
        |name, words: usize, wanted| case(name, move |met| check(met, &S, to_bytes(&OLD_JOURNAL[..words]), wanted));
    vec![
        old("S's old journal: 14, instant 2", 9, refused(14, 2)),
        old("S's old journal but its last word: 14, instant 2", 8, refused(14, 2)),
        old("S's old journal but its outputs in the clash: all three", 7, Answer::Accepted(3)),
        old("S's old journal but its clash: two", 4, Answer::Accepted(2)),
        case("S's old journal but its last byte: 12", |met| {
            check(met, &S, to_bytes(&OLD_JOURNAL)[..35].to_vec(), refused(12, 0))
        }),
        case("S's old journal and an instant more: 14, instant 2", |met| {
            check(met, &S, to_bytes(&[&OLD_JOURNAL[..], &[0xC000_0000]].concat()), refused(14, 2))
        }),
        case("S's old journal without its first output: 14, instant 0", |met| {
            check(met, &S, without(&OLD_JOURNAL, 2), refused(14, 0))
        }),
        with("S's clash with a port's word: 14", 7, &[0xE000_0002], refused(14, 2)),
        with("S's clash with the other port's word: 14", 7, &[0xE000_0003], refused(14, 2)),
        with("S's clash with a word outside the ports: 14", 7, &[0xE000_0001], refused(14, 2)),
        with("S's clash with token 0's word: 14", 7, &[0xE000_0000], refused(14, 2)),
        with("S's clash with every token's word: 14", 7, &[0xE000_0000, 0xE000_0001, 0xE000_0002, 0xE000_0003], {
            refused(14, 2)
        }),
        with("S's clash with the word of token T: 13", 7, &[0xE000_0004], refused(13, 7)),
        with("S's clash with the ports' words and token T's: 13", 7, &[0xE000_0002, 0xE000_0004], refused(13, 8)),
        with("S's clash with words that fall: 13", 7, &[0xE000_0003, 0xE000_0002], refused(13, 8)),
        with("S's clash with an output before its inputs: 13", 5, &[0xE000_0002], refused(13, 6)),
        with("S's clash with an unnamed bit in an output: 13", 7, &[0xE000_0102], refused(13, 7)),
        case("S's first instant without its output: 14, instant 0", |met| {
            check(met, &S, without(&JOURNAL, 2), refused(14, 0))
        }),
        case("status 1 and no outputs where S is quiet: 14, instant 0", |met| {
            check(met, &S, to_bytes(&[0xC000_0001, 0xD000_0001]), refused(14, 0))
        }),
        case("status 0 where S clashes: 14, instant 2", |met| {
            check(met, &S, to_bytes(&replaced(&JOURNAL, &[(4, 0xC000_0000)])), refused(14, 2))
        }),
    ]
}

/// Runs a score from its start state and checks the journal, which is accepted, and the same with each clash's ports
/// sent, which meets 14 at the first clash.
fn plays(met: &mut Met, score: &Score, list: &[&[usize]], journal: &[u32], state: Vec<u8>) -> Outcome {
    let words = score.words();
    let decoded = Decoded::new(&score.bytes());
    let list: Vec<Vec<usize>> = list.iter().map(|inputs| inputs.to_vec()).collect();
    let accepted = Answer::Accepted(list.len() as u64);
    let inputs = second::oracle::words(&list_bytes(&list));
    let lent = lent(&words, State::start(&decoded).bytes(), &inputs, 4 * journal.len() + 8);
    run(met, &lent, accepted, journal, &state)?;
    let journal = to_bytes(journal);
    check(met, &words, journal.clone(), accepted)?;
    let clashes = second::clash::clashes(&journal);
    let old = second::clash::sent(&decoded, &journal, &clashes);
    check(met, &words, old, refused(14, clashes[0] as u64))
}

/// A score of so many tokens that does nothing, with these ports and rules.
fn idle(tokens: u32, (lowest, highest): (u32, u32), rules: &[u32]) -> Score {
    Score {
        tokens,
        ports: ports(lowest, highest),
        agents: vec![skip()],
        procedures: vec![procedure(0)],
        rules: rules.to_vec(),
    }
}

fn nobody() -> Vec<u8> {
    state_bytes(RUNNING, [])
}

fn aborted() -> Vec<u8> {
    state_bytes(second::lent::ABORTED, [])
}

const QUIET: u32 = 0xC000_0000;
const CLASH: u32 = 0xC000_0001;
const ABORTED: u32 = 0xC000_0002;

fn causes() -> Vec<Case> {
    vec![
        case("a clash by an input of token 0", |met| {
            let journal = [CLASH, input_word(0), QUIET, input_word(1), output_word(1)];
            plays(met, &idle(3, (0, 2), &[]), &[&[0], &[1]], &journal, nobody())
        }),
        case("a clash by a rule", |met| {
            let score = idle(4, (0, 3), &[rule(0, 2, 3)]);
            let quiet = [QUIET, input_word(2), output_word(2)];
            let journal = [&quiet[..], &[CLASH, input_word(2), input_word(3)], &quiet].concat();
            plays(met, &score, &[&[2], &[2, 3], &[2]], &journal, nobody())
        }),
        case("a clash by a tell of token 0", |met| {
            let score = Score { agents: vec![tell(0)], ..idle(3, (0, 2), &[]) };
            plays(met, &score, &[&[1], &[1]], &[CLASH, input_word(1), QUIET, input_word(1), output_word(1)], nobody())
        }),
        case("a clash by a fact of token 0, at every instant", |met| {
            let score = idle(3, (0, 2), &[fact(0)]);
            plays(
                met,
                &score,
                &[&[], &[1], &[0, 2]],
                &[CLASH, CLASH, input_word(1), CLASH, input_word(0), input_word(2)],
                nobody(),
            )
        }),
        case("a clash by a fact and an input, and the fact is sent before and after", |met| {
            let score = idle(4, (1, 3), &[fact(2), rule(0, 2, 3)]);
            let journal = [QUIET, output_word(2), CLASH, input_word(3), QUIET, output_word(2)];
            plays(met, &score, &[&[], &[3], &[]], &journal, nobody())
        }),
    ]
}

fn kinds_of_ports() -> Vec<Case> {
    let of = |name, at: (u32, u32), sent: &'static [usize]| {
        case(name, move |met| {
            let quiet = second::oracle::words(&instant_bytes(0, &[1, 2, 5, 7], sent));
            let journal = [&quiet[..], &[CLASH, input_word(0), input_word(5)], &quiet].concat();
            plays(met, &idle(8, at, &[]), &[&[1, 2, 5, 7], &[0, 5], &[1, 2, 5, 7]], &journal, nobody())
        })
    };
    vec![
        of("a clash with all tokens at the ports", (0, 7), &[1, 2, 5, 7]),
        of("a clash with token 0 alone at the ports", (0, 0), &[]),
        of("a clash with all tokens but 0 at the ports", (1, 7), &[1, 2, 5, 7]),
        of("a clash with one port", (5, 5), &[5]),
        of("a clash with the last token alone at the ports", (7, 7), &[7]),
        case("all 256 tokens are ports, and all are told", |met| {
            let all: Vec<usize> = (0..256).collect();
            let quiet = second::oracle::words(&instant_bytes(0, &all[1..], &all[1..]));
            let clash = second::oracle::words(&instant_bytes(1, &all, &[]));
            let journal = [&quiet[..], &clash, &quiet, &[CLASH, input_word(0)]].concat();
            plays(met, &idle(256, (0, 255), &[]), &[&all[1..], &all, &all[1..], &[0]], &journal, nobody())
        }),
    ]
}

fn in_turn() -> Vec<Case> {
    let telling = |more: &[u32]| Score {
        agents: [&[tell(1), call(0), next(1), parallel(0, 2)], more].concat(),
        procedures: vec![procedure(3 + more.len() as u32)],
        ..idle(4, (1, 3), &[rule(0, 2, 2)])
    };
    vec![
        case("outputs come back in the instant after a clash", move |met| {
            let (quiet, clash) = ([QUIET, output_word(1)], [CLASH, input_word(2)]);
            let journal = [quiet, clash, quiet, clash, clash, quiet].concat();
            let list: [&[usize]; 6] = [&[], &[2], &[], &[2], &[2], &[]];
            plays(met, &telling(&[]), &list, &journal, state_bytes(RUNNING, [1]))
        }),
        case("a clash and then an abort", move |met| {
            let score = telling(&[abort(), next(4), when(5, 2), parallel(3, 6)]);
            let journal = [QUIET, output_word(1), CLASH, input_word(2), ABORTED, ABORTED, input_word(2)];
            plays(met, &score, &[&[], &[2], &[], &[2]], &journal, aborted())
        }),
        case("an abort in a clash is an abort", move |met| {
            let score = telling(&[abort(), when(4, 3), parallel(3, 5)]).words();
            let start = state_bytes(RUNNING, [6]);
            let list = [QUIET, QUIET, input_word(2), QUIET, input_word(0)];
            let journal = [QUIET, output_word(1), ABORTED, input_word(2), ABORTED, input_word(0)];
            run(met, &lent(&score, start, &list, 64), Answer::Accepted(3), &journal, &aborted())?;
            check(met, &score, to_bytes(&journal), Answer::Accepted(3))?;
            let clash = replaced(&journal, &[(2, CLASH)]);
            check(met, &score, to_bytes(&clash), refused(14, 1))
        }),
        case("of two clashes the second alone is sent: 14 at the second", move |met| {
            let journal = [CLASH, input_word(2), QUIET, output_word(1), CLASH, input_word(2), output_word(1)];
            check(met, &telling(&[]).words(), to_bytes(&journal), refused(14, 2))
        }),
        case("two clashes are sent: 14 at the first", move |met| {
            let journal = [CLASH, input_word(2), output_word(1), CLASH, input_word(2), output_word(1)];
            check(met, &telling(&[]).words(), to_bytes(&journal), refused(14, 0))
        }),
        case("a wrong instant before a clash that is sent: 14 at the wrong one", move |met| {
            let journal = [QUIET, CLASH, input_word(2), output_word(1)];
            check(met, &telling(&[]).words(), to_bytes(&journal), refused(14, 0))
        }),
        case("a clash that is sent, and then token T: 13", move |met| {
            let journal = [CLASH, input_word(2), output_word(1), QUIET, output_word(4)];
            check(met, &telling(&[]).words(), to_bytes(&journal), refused(13, 4))
        }),
    ]
}

fn rooms() -> Vec<Case> {
    let clash = |name, room: usize, wanted, words: usize, state: Vec<u8>| {
        case(name, move |met| {
            let score = idle(256, (0, 255), &[]).words();
            let list = [QUIET, input_word(0), QUIET, input_word(0)];
            let journal = [CLASH, input_word(0), CLASH, input_word(0)];
            let start = state_bytes(RUNNING, [0]);
            run(met, &lent(&score, start, &list, room), wanted, &journal[..words], &state)
        })
    };
    let start = || state_bytes(RUNNING, [0]);
    vec![
        clash("two clashes with 256 ports, 16 journal bytes: both", 16, Answer::Accepted(2), 4, nobody()),
        clash("two clashes with 256 ports, 15 journal bytes: 15, one", 15, refused(15, 1), 2, nobody()),
        clash("two clashes with 256 ports, 8 journal bytes: 15, one", 8, refused(15, 1), 2, nobody()),
        clash("two clashes with 256 ports, 7 journal bytes: 15, none", 7, refused(15, 0), 0, start()),
        clash("two clashes with 256 ports, 2,064 journal bytes: both", 2064, Answer::Accepted(2), 4, nobody()),
        case("S with a fact of token 0, 11 journal bytes: 15, one", |met| {
            let score = replaced(&S, &[(8, fact(0))]);
            let lent = lent(&score, state_bytes(RUNNING, [4]), &inputs(), 11);
            run(met, &lent, refused(15, 1), &[CLASH, input_word(1)], &state_bytes(RUNNING, [2]))
        }),
    ]
}
