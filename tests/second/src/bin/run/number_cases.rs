//! Runs up to the last number: 18 stops them as 15 does, and comes before it.

use crate::cases::{inputs, lent, run, start, JOURNAL, OLD};
use crate::judge;
use second::answer::{refused, Answer};
use second::calls::RunLent;
use second::lent::*;
use second::random::Random;
use second::sample::{faulty, replaced, S};
use second::scenes::STATE_LENGTHS;
use second::tests::{case, ensure, Case, Met, Outcome};
use second::words::*;

pub fn all() -> Vec<Case> {
    [numbers(), rooms(), none(), aborts(), before_18(), lengths(), parts()].into_iter().flatten().collect()
}

fn awake_2() -> Vec<u8> {
    state_bytes(RUNNING, [2])
}

fn aborted() -> Vec<u8> {
    state_bytes(ABORTED, [])
}

/// S over its inputs from a number, with so many journal bytes: the answer. How many words of the journal are written,
/// and what is awake after them, follows from the instants written.
fn sample_at(met: &mut Met, number: u32, room: usize, wanted: Answer) -> Outcome {
    let written = wanted.written() as usize;
    let state = if written == 0 { start() } else { awake_2() };
    run(met, &lent(&S, numbered(start(), number), &inputs(), room), wanted, &JOURNAL[..[0, 3, 4, 7][written]], &state)
}

/// With so many instants left before the last number, and with each of these rooms.
fn with_left<const N: usize>(name: &'static str, left: u32, answers: [(usize, Answer); N]) -> Case {
    case(name, move |met| {
        answers.iter().try_for_each(|&(room, wanted)| sample_at(met, LAST_NUMBER - left, room, wanted))
    })
}

const ALL: Answer = Answer::Accepted(3);

fn numbers() -> Vec<Case> {
    vec![
        case("S: three instants at numbers far from the last", |met| {
            [0, 1, 0xFD, 0xFE, 0xFF, 0xFFFE, 0xFF_FFFD, 0x7FFF_FFFE, 0x8000_0000, LAST_NUMBER - 4]
                .iter()
                .try_for_each(|&number| sample_at(met, number, 64, ALL))
        }),
        case("S: the number's bytes after three instants, a full byte going over to the next", |met| {
            let steps: [([u8; 4], [u8; 4]); 5] = [
                ([0, 0, 0, 0], [3, 0, 0, 0]),
                ([0xFE, 0, 0, 0], [1, 1, 0, 0]),
                ([0xFD, 0xFF, 0, 0], [0, 0, 1, 0]),
                ([0xFF, 0xFF, 0xFF, 0], [2, 0, 0, 1]),
                ([0xFC, 0xFF, 0xFF, 0xFF], [0xFF, 0xFF, 0xFF, 0xFF]),
            ];
            steps.iter().try_for_each(|(before, after)| {
                let lent = lent(&S, numbered(start(), u32::from_le_bytes(*before)), &inputs(), 28);
                let (answer, left) = judge::run(met, &mut Random::new(0, 0), &lent)?;
                ensure(answer == ALL && left.state[132..] == *after, "another number is left")
            })
        }),
        case("S: from 2^32 - 4 all three, and from 2^32 - 3 on 18", |met| {
            sample_at(met, LAST_NUMBER - 3, 64, ALL)?;
            (0..3).try_for_each(|left| sample_at(met, LAST_NUMBER - left, 64, refused(18, left.into())))
        }),
        case("18 by all 64 bits of its answer", |met| {
            let packed = [0xE000_0000_0000_0000, 0xE000_0000_0000_0001, 0xE000_0000_0000_0002];
            (0..3).try_for_each(|left| {
                ensure(refused(18, left).packed() == packed[left as usize], "18 is laid out otherwise")?;
                sample_at(met, LAST_NUMBER - left as u32, 64, refused(18, left))
            })
        }),
    ]
}

/// The instants of S end at bytes 12, 16 and 28.
fn rooms() -> Vec<Case> {
    let (full, last) = (|written| refused(15, written), |written| refused(18, written));
    vec![
        with_left(
            "four instants left: 15 as ever",
            4,
            [(28, ALL), (27, full(2)), (16, full(2)), (15, full(1)), (11, full(0)), (0, full(0))],
        ),
        with_left(
            "three instants left: 15 as ever, and all three",
            3,
            [(36, ALL), (28, ALL), (27, full(2)), (16, full(2)), (12, full(1)), (0, full(0))],
        ),
        with_left(
            "two instants left: 18 at the third, with room or without, and 15 before it",
            2,
            [
                (28, last(2)),
                (27, last(2)),
                (17, last(2)),
                (16, last(2)),
                (15, full(1)),
                (12, full(1)),
                (11, full(0)),
                (0, full(0)),
            ],
        ),
        with_left(
            "one instant left: 18 at the second, with room or without, and 15 before it",
            1,
            [(28, last(1)), (16, last(1)), (15, last(1)), (12, last(1)), (11, full(0)), (0, full(0))],
        ),
        with_left(
            "no instant left: 18 at the first, with room or without",
            0,
            [(28, last(0)), (12, last(0)), (11, last(0)), (3, last(0)), (0, last(0))],
        ),
    ]
}

fn none() -> Vec<Case> {
    vec![
        case("a run over no instants is accepted at every number, also the last, and clears the scratch", |met| {
            [0, 1, LAST_NUMBER - 2, LAST_NUMBER - 1, LAST_NUMBER].iter().try_for_each(|&number| {
                [start(), awake_2(), aborted()].iter().try_for_each(|state| {
                    [0, 8].iter().try_for_each(|&room| {
                        let lent = lent(&S, numbered(state.clone(), number), &[], room);
                        run(met, &lent, Answer::Accepted(0), &[], state)
                    })
                })
            })
        }),
        case("18 clears the scratch of a run, whatever it holds", |met| {
            [0x00, 0x01, 0x80, 0xFF].iter().try_for_each(|&old| {
                (0..2).try_for_each(|left| {
                    let lent = lent(&S, numbered(start(), LAST_NUMBER - left), &inputs(), 28);
                    let lent = RunLent { scratch: vec![old; SCRATCH_BYTES], ..lent };
                    let (answer, after) = judge::run(met, &mut Random::new(0, 0), &lent)?;
                    judge::known(answer, answer == refused(18, left.into()))?;
                    ensure(after.scratch == [0; SCRATCH_BYTES], "the scratch is not zero")
                })
            })
        }),
    ]
}

fn aborts() -> Vec<Case> {
    let aborting = || replaced(&S, &[(2, abort())]);
    let three = [0xC000_0000, 0xC000_0000, 0xD000_0001, 0xC000_0000];
    let journal = [0xC000_0000, 0xC000_0002, 0xD000_0001, 0xC000_0002];
    vec![
        case("aborted instants of a run have numbers", move |met| {
            run(met, &lent(&aborting(), numbered(start(), 7), &three, 64), Answer::Accepted(3), &journal, &aborted())
        }),
        case("an abort in a run, and then 18", move |met| {
            let run_left = |met: &mut Met, left: u32, words: usize, state: Vec<u8>| {
                let lent = lent(&aborting(), numbered(start(), LAST_NUMBER - left), &three, 64);
                run(met, &lent, refused(18, left.into()), &journal[..words], &state)
            };
            run_left(met, 2, 3, aborted())?;
            run_left(met, 1, 1, awake_2())?;
            run_left(met, 0, 0, start())
        }),
        case("an aborted state runs to the last number, and there it is 18", move |met| {
            (0..5).try_for_each(|left| {
                let lent = lent(&S, numbered(aborted(), LAST_NUMBER - left), &[0xC000_0000; 3], 64);
                let wanted = if left < 3 { refused(18, left.into()) } else { ALL };
                run(met, &lent, wanted, &[0xC000_0002; 3][..left.min(3) as usize], &aborted())
            })
        }),
        case("an aborted state at the last number with no room: 18", move |met| {
            run(met, &lent(&S, numbered(aborted(), LAST_NUMBER), &[0xC000_0000], 3), refused(18, 0), &[], &aborted())
        }),
    ]
}

/// A run that leaves every buffer as it was.
fn turned_down(met: &mut Met, lent: &RunLent, wanted: Answer) -> Outcome {
    let (answer, after) = judge::run(met, &mut Random::new(0, 0), lent)?;
    judge::known(answer, answer == wanted)?;
    let is_same = after.state == lent.state && after.journal == lent.journal && after.scratch == lent.scratch;
    ensure(is_same, "both engines change a buffer")
}

/// The run of S at each of the last three numbers.
fn at_last(state: &[u8], inputs: &[u32]) -> Vec<RunLent> {
    (0..3).map(|left| lent(&S, numbered(state.to_vec(), LAST_NUMBER - left), inputs, 28)).collect()
}

/// What else is wrong about the last number comes first.
fn before_18() -> Vec<Case> {
    let each =
        |met: &mut Met, runs: Vec<RunLent>, wanted| runs.iter().try_for_each(|lent| turned_down(met, lent, wanted));
    vec![
        case("about the last number, a list that is cut: 12", move |met| {
            let cut = |lent: RunLent| RunLent { inputs: lent.inputs[..19].to_vec(), ..lent };
            each(met, at_last(&start(), &inputs()).into_iter().map(cut).collect(), refused(12, 0))
        }),
        case("about the last number, a wrong word in the list's last instant: 13", move |met| {
            let list = [&inputs()[..], &[0xC000_0000, 0xD000_0004]].concat();
            each(met, at_last(&start(), &list), refused(13, list.len() as u64 - 1))?;
            each(met, at_last(&aborted(), &list), refused(13, list.len() as u64 - 1))
        }),
        case("about the last number, a wrong first word: 13", move |met| {
            each(met, at_last(&start(), &[0xC000_0001]), refused(13, 0))
        }),
        case("about the last number, an unlawful state: 9, also over no instants", move |met| {
            [state_bytes(RUNNING, [5]), state_bytes(ABORTED, [4]), state_bytes(0xF000_0002, [])].iter().try_for_each(
                |state| {
                    each(met, at_last(state, &inputs()), refused(9, 0))?;
                    each(met, at_last(state, &[]), refused(9, 0))
                },
            )
        }),
        case("about the last number, a scratch of another length: 8", move |met| {
            let short = |lent: RunLent| RunLent { scratch: vec![OLD; 127], ..lent };
            each(met, at_last(&start(), &inputs()).into_iter().map(short).collect(), refused(8, 0))
        }),
        case("about the last number, a faulty score: 1 to 7", move |met| {
            faulty().into_iter().try_for_each(|(score, number, value)| {
                let of_score = |lent: RunLent| RunLent { score: to_bytes(&score), ..lent };
                let runs = at_last(&start(), &inputs()).into_iter().map(of_score).collect();
                each(met, runs, refused(number, value))
            })
        }),
    ]
}

fn lengths() -> Vec<Case> {
    vec![case(
        "a run with a state of another length, also of 132 bytes: 8, with a wrong list and over no instants",
        |met| {
            STATE_LENGTHS.all_wrong().try_for_each(|length| {
                [&inputs()[..], &[0xC000_0001], &[]].iter().try_for_each(|list| {
                    at_last(&start(), list).into_iter().try_for_each(|mut lent| {
                        lent.state.resize(length, 0);
                        turned_down(met, &lent, refused(8, 0))
                    })
                })
            })
        },
    )]
}

/// One run after the other on one state.
fn parts() -> Vec<Case> {
    vec![
        case("S instant by instant from 2^32 - 3: two runs, and then 18", |met| {
            let first = lent(&S, numbered(start(), LAST_NUMBER - 2), &inputs()[..2], 64);
            run(met, &first, Answer::Accepted(1), &JOURNAL[..3], &awake_2())?;
            let second = lent(&S, numbered(awake_2(), LAST_NUMBER - 1), &inputs()[2..3], 64);
            run(met, &second, Answer::Accepted(1), &JOURNAL[3..4], &awake_2())?;
            let third = lent(&S, numbered(awake_2(), LAST_NUMBER), &inputs()[3..], 64);
            run(met, &third, refused(18, 0), &[], &awake_2())
        }),
        case("the rest of a run that was stopped by 15 is stopped by 18", |met| {
            let whole = lent(&S, numbered(start(), LAST_NUMBER - 2), &inputs(), 12);
            run(met, &whole, refused(15, 1), &JOURNAL[..3], &awake_2())?;
            let rest = lent(&S, numbered(awake_2(), LAST_NUMBER - 1), &inputs()[2..], 64);
            run(met, &rest, refused(18, 1), &JOURNAL[3..4], &awake_2())
        }),
    ]
}
