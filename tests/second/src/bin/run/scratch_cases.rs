//! The scratch of runs and journal checks: its length, what it holds when it is lent, and instants in which almost all of
//! 1,024 agents are reduced again and again.

use crate::cases::{check_on, inputs, lent, run, start, JOURNAL};
use second::answer::{refused, Answer};
use second::calls::RunLent;
use second::lent::*;
use second::sample::{faulty, S};
use second::scenes::wrong_scratch_lengths;
use second::tests::{case, Case, Met, Outcome};
use second::words::*;

pub fn all() -> Vec<Case> {
    [lengths_of_runs(), lengths_of_journals(), contents(), ladders()].into_iter().flatten().collect()
}

/// A run with a scratch of each length but the right one, and nothing written.
fn run_turned_down(met: &mut Met, lent: RunLent, wanted: Answer) -> Outcome {
    wrong_scratch_lengths().try_for_each(|length| {
        let lent = RunLent { scratch: vec![0xC3; length], ..lent.clone() };
        run(met, &lent, wanted, &[], &lent.state)
    })
}

fn lengths_of_runs() -> Vec<Case> {
    vec![
        case("a run with a scratch of another length: 8", |met| {
            run_turned_down(met, lent(&S, start(), &inputs(), 64), refused(8, 0))
        }),
        case("a run with a scratch of another length and agent 5: 8 before 9", |met| {
            run_turned_down(met, lent(&S, state_bytes(RUNNING, [5]), &inputs(), 64), refused(8, 0))
        }),
        case("a run with a scratch of another length and a wrong list: 8 before 12 and 13", |met| {
            let wrong = lent(&S, start(), &[0xC000_0001], 64);
            let cut = RunLent { inputs: wrong.inputs[..3].to_vec(), ..wrong.clone() };
            [wrong, cut].into_iter().try_for_each(|lent| run_turned_down(met, lent, refused(8, 0)))
        }),
        case("a run of a faulty score with a scratch of another length: 1 to 7 before 8", |met| {
            faulty().into_iter().try_for_each(|(score, number, value)| {
                run_turned_down(met, lent(&score, start(), &inputs(), 64), refused(number, value))
            })
        }),
    ]
}

/// A journal check with a scratch of each length but the right one.
fn check_turned_down(met: &mut Met, score: &[u32], journal: &[u8], wanted: Answer) -> Outcome {
    wrong_scratch_lengths().try_for_each(|length| check_on(met, score, journal.to_vec(), vec![0xC3; length], wanted))
}

fn lengths_of_journals() -> Vec<Case> {
    vec![
        case("a journal check with a scratch of another length: 8", |met| {
            check_turned_down(met, &S, &to_bytes(&JOURNAL), refused(8, 0))
        }),
        case("a journal check with a scratch of another length and a wrong journal: 8 before 12, 13 and 14", |met| {
            let journals = [vec![0; 3], to_bytes(&[0xC000_0003]), to_bytes(&[0xC000_0002])];
            journals.iter().try_for_each(|journal| check_turned_down(met, &S, journal, refused(8, 0)))
        }),
        case("a journal check of a faulty score with a scratch of another length: 1 to 7 before 8", |met| {
            faulty().into_iter().try_for_each(|(score, number, value)| {
                check_turned_down(met, &score, &to_bytes(&JOURNAL), refused(number, value))
            })
        }),
    ]
}

/// All ones, all zeros, and the bits that each of the three instants of S sets: agents 0, 1 and 4, then 2 and 4, then
/// all but 3.
fn scratches() -> [Vec<u8>; 5] {
    let first_byte = |byte: u8| [&[byte][..], &[0; SCRATCH_BYTES - 1]].concat();
    [vec![0xFF; SCRATCH_BYTES], vec![0; SCRATCH_BYTES], first_byte(0x13), first_byte(0x14), first_byte(0x17)]
}

fn contents() -> Vec<Case> {
    let awake_2 = || state_bytes(RUNNING, [2]);
    vec![
        case("a run of S on zeros, ones and the bits of its instants, to its end and to 15", move |met| {
            scratches().into_iter().try_for_each(|scratch| {
                let whole = RunLent { scratch: scratch.clone(), ..lent(&S, start(), &inputs(), 28) };
                run(met, &whole, Answer::Accepted(3), &JOURNAL, &awake_2())?;
                let stopped = RunLent { scratch, ..lent(&S, start(), &inputs(), 27) };
                run(met, &stopped, refused(15, 2), &JOURNAL[..4], &awake_2())
            })
        }),
        case("a journal check of S on zeros, ones and the bits of its instants, to its end and to 14", |met| {
            scratches().into_iter().try_for_each(|scratch| {
                check_on(met, &S, to_bytes(&JOURNAL), scratch.clone(), Answer::Accepted(3))?;
                check_on(met, &S, to_bytes(&JOURNAL[..6]), scratch, refused(14, 2))
            })
        }),
        case("a run and a journal check of no instants clear the scratch", |met| {
            scratches().into_iter().try_for_each(|scratch| {
                let run_of_none = RunLent { scratch: scratch.clone(), ..lent(&S, start(), &[], 8) };
                run(met, &run_of_none, Answer::Accepted(0), &[], &start())?;
                check_on(met, &S, vec![], scratch, Answer::Accepted(0))
            })
        }),
    ]
}

/// Agent 0 beside the next of a call of all this, under parallels, each of the one before it with itself.
fn ladder(lowest: u32) -> Vec<u32> {
    let first = [lowest, call(0), next(1), parallel(0, 2)];
    let steps = (3..1023).map(|below| parallel(below, below));
    let score = second::generate::Score {
        tokens: 2,
        ports: ports(1, 1),
        agents: first.into_iter().chain(steps).collect(),
        procedures: vec![procedure(1023)],
        rules: vec![],
    };
    score.words()
}

/// A run from the start state, on a scratch of ones, and the check of its journal.
fn runs_to(met: &mut Met, score: &[u32], list: &[u32], journal: &[u32], state: Vec<u8>) -> Outcome {
    let instants = Answer::Accepted(list.iter().filter(|&&word| word == instant_word(0)).count() as u64);
    let start = state_bytes(RUNNING, [1023]);
    let scratch = vec![0xFF; SCRATCH_BYTES];
    let lent = RunLent { scratch: scratch.clone(), ..lent(score, start, list, 64) };
    run(met, &lent, instants, journal, &state)?;
    check_on(met, score, to_bytes(journal), scratch, instants)
}

fn ladders() -> Vec<Case> {
    vec![
        case("1,022 agents are reduced at the first instant, and with the call 1,023 at each later one", |met| {
            let list = [instant_word(0); 4];
            let journal = [instant_word(0), output_word(1)].repeat(4);
            runs_to(met, &ladder(tell(1)), &list, &journal, state_bytes(RUNNING, [1]))
        }),
        case("1,021 agents are reduced before an abort, and the run goes on", |met| {
            let list = [instant_word(0); 3];
            runs_to(met, &ladder(abort()), &list, &[instant_word(2); 3], state_bytes(ABORTED, []))
        }),
    ]
}
