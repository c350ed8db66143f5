//! The instant number of the state: one higher after each instant, aborted ones included, up to the last number, at
//! which an instant that is wanted meets 18.

use crate::cases::{aborted, both, brings_about, in_turn_from, lent, quiet, s_aborting, score, turned_down, Wanted};
use second::answer::refused;
use second::calls::InstantLent;
use second::decoded::Decoded;
use second::lent::*;
use second::sample::{faulty, S};
use second::scenes::STATE_LENGTHS;
use second::tests::{case, ensure, Case, Met, Outcome};
use second::words::*;

pub fn all() -> Vec<Case> {
    [steps(), aborts(), last(), before_18(), lawful(), lengths()].into_iter().flatten().collect()
}

fn awake(agents: &[usize], number: u32) -> Vec<u8> {
    numbered(state_bytes(RUNNING, agents.iter().copied()), number)
}

fn aborted_at(number: u32) -> Vec<u8> {
    numbered(state_bytes(ABORTED, []), number)
}

/// What the sample's instants bring about, from its start on.
fn sample() -> [(&'static [usize], Wanted); 3] {
    [(&[1], quiet(3, &[1, 2], &[2])), (&[], quiet(2, &[], &[2])), (&[1, 3], quiet(4, &[0, 1, 2, 3], &[2]))]
}

/// An instant that is wanted at the last number, twice.
fn meets_18(met: &mut Met, score: &[u32], state: Vec<u8>, inputs: &[usize]) -> Outcome {
    ensure(number_of(&state) == LAST_NUMBER, "another number")?;
    (0..2).try_for_each(|_| turned_down(met, lent(score, state.clone(), inputs), 18, 0))
}

fn steps() -> Vec<Case> {
    vec![
        case("S: the start has number 0, and its three instants lead to 3", |met| {
            let start = State::start(&Decoded::new(&to_bytes(&S))).bytes();
            ensure(start[132..] == [0; 4], "the start has another number")?;
            let state = in_turn_from(met, &S, start, &sample())?;
            ensure(state[132..] == [3, 0, 0, 0], "three instants lead to another number")
        }),
        case("S: the number is stored low byte first, and a full byte goes over to the next", |met| {
            let steps: [([u8; 4], [u8; 4]); 10] = [
                ([0, 0, 0, 0], [1, 0, 0, 0]),
                ([1, 0, 0, 0], [2, 0, 0, 0]),
                ([0x04, 0x03, 0x02, 0x01], [0x05, 0x03, 0x02, 0x01]),
                ([0x7F, 0, 0, 0], [0x80, 0, 0, 0]),
                ([0xFF, 0, 0, 0], [0, 1, 0, 0]),
                ([0xFF, 0xFF, 0, 0], [0, 0, 1, 0]),
                ([0xFF, 0xFF, 0xFF, 0], [0, 0, 0, 1]),
                ([0xFF, 0xFF, 0xFF, 0x7F], [0, 0, 0, 0x80]),
                ([0xFF, 0, 0xFF, 0xFF], [0, 1, 0xFF, 0xFF]),
                ([0xFE, 0xFF, 0xFF, 0xFF], [0xFF, 0xFF, 0xFF, 0xFF]),
            ];
            steps.iter().try_for_each(|(before, next)| {
                let state = awake(&[4], u32::from_le_bytes(*before));
                ensure(state[132..] == *before, "another number is lent")?;
                let after = brings_about(met, &lent(&S, state, &[1]), &quiet(3, &[1, 2], &[2]))?;
                ensure(after.state[132..] == *next, "another number is left")
            })
        }),
        case("the number goes on with nobody awake, and where none is awake next", |met| {
            let instants: [(&[usize], Wanted); 3] =
                [(&[], quiet(1, &[1], &[])), (&[], quiet(0, &[], &[])), (&[1], quiet(0, &[1], &[]))];
            let state = in_turn_from(met, &score(2, &[tell(1)], &[]), awake(&[0], 9), &instants)?;
            ensure(state == awake(&[], 12), "another state is left")
        }),
        case("the number goes on in clashes", |met| {
            let clash = || quiet(0, &[0, 1], &[]);
            let instants: [(&[usize], Wanted); 2] = [(&[0], clash()), (&[0, 1], clash())];
            let state = in_turn_from(met, &score(2, &[skip()], &[]), awake(&[], 0xFFFE), &instants)?;
            ensure(state == awake(&[], 0x1_0000), "another state is left")
        }),
        case("the number goes on where agent 1,023 is awake, and does not touch it", |met| {
            let skips = [&vec![skip(); 1022][..], &[tell(1), next(1022)]].concat();
            let instants: [(&[usize], Wanted); 1] = [(&[], quiet(0, &[], &[1022]))];
            let state = in_turn_from(met, &score(2, &skips, &[]), awake(&[1023], 0x00FF_FFFF), &instants)?;
            ensure(state[131..] == [0x40, 0, 0, 0, 1], "other bytes are left")
        }),
    ]
}

fn aborts() -> Vec<Case> {
    vec![
        case("S with an abort: its instant and each later one have numbers", |met| {
            let instants: [(&[usize], Wanted); 4] =
                [(&[], quiet(1, &[], &[2])), (&[1], aborted()), (&[], aborted()), (&[1, 3], aborted())];
            let state = in_turn_from(met, &s_aborting(), awake(&[4], 0), &instants)?;
            ensure(state == aborted_at(4), "another state is left")
        }),
        case("of an aborted state only its number changes", |met| {
            [0, 1, 0xFF, 0xFFFF, 0xFF_FFFF, 0x7FFF_FFFF, LAST_NUMBER - 2, LAST_NUMBER - 1].iter().try_for_each(|&at| {
                let after = brings_about(met, &lent(&S, aborted_at(at), &[1, 3]), &aborted())?;
                ensure(after.state == aborted_at(at + 1), "another state is left")
            })
        }),
        case("an abort in the last instant that there is, and then 18", |met| {
            let state = awake(&[4], LAST_NUMBER - 1);
            let after = in_turn_from(met, &s_aborting(), state, &[(&[1], aborted())])?;
            ensure(after == aborted_at(LAST_NUMBER), "another state is left")?;
            meets_18(met, &s_aborting(), after, &[])
        }),
        case("an aborted state at the last number: 18", |met| {
            [&[][..], &[0], &[1, 3]].iter().try_for_each(|inputs| meets_18(met, &S, aborted_at(LAST_NUMBER), inputs))
        }),
    ]
}

fn last() -> Vec<Case> {
    vec![
        case("S at 2^32 - 1: 18, whatever is awake and told", |met| {
            [&[][..], &[4], &[2], &[0, 1, 2, 3, 4]].iter().try_for_each(|agents| {
                let state = awake(agents, LAST_NUMBER);
                [&[][..], &[1], &[0], &[1, 3]].iter().try_for_each(|inputs| meets_18(met, &S, state.clone(), inputs))
            })
        }),
        case("S from 2^32 - 4: three instants, and then 18", |met| {
            let state = in_turn_from(met, &S, awake(&[4], LAST_NUMBER - 3), &sample())?;
            ensure(state == awake(&[2], LAST_NUMBER), "another state is left")?;
            meets_18(met, &S, state, &[1])
        }),
        case("S from 2^32 - 3 and 2^32 - 2, up to 18", |met| {
            let two: [(&[usize], Wanted); 2] = [(&[1], quiet(3, &[1, 2], &[2])), (&[], quiet(2, &[], &[2]))];
            (1..=2).try_for_each(|left| {
                let state = in_turn_from(met, &S, awake(&[4], LAST_NUMBER - left), &two[..left as usize])?;
                meets_18(met, &S, state, &[1, 3])
            })
        }),
        case("18 leaves any scratch and any maps", |met| {
            [0x00, 0x01, 0x80, 0xFF].iter().try_for_each(|&old| {
                let lent = lent(&S, awake(&[4], LAST_NUMBER), &[1]);
                let (store, output) = (vec![old; MAP_BYTES], vec![!old; MAP_BYTES]);
                turned_down(met, InstantLent { store, output, scratch: vec![old; SCRATCH_BYTES], ..lent }, 18, 0)
            })
        }),
        case("numbers with any bit at 0 are not the last", |met| {
            (0..32).try_for_each(|bit| {
                let number = LAST_NUMBER ^ 1 << bit;
                let after = brings_about(met, &lent(&S, awake(&[4], number), &[]), &quiet(1, &[], &[2]))?;
                ensure(number_of(&after.state) == number + 1, "another number is left")
            })
        }),
        case("18 by all 64 bits of its answer", |met| {
            let lent = lent(&S, awake(&[4], LAST_NUMBER), &[]);
            ensure(refused(18, 0).packed() == 0xE000_0000_0000_0000, "18 is laid out otherwise")?;
            both(met, &lent, (refused(18, 0), lent.clone()))
        }),
    ]
}

/// What else is wrong at the last number comes first.
fn before_18() -> Vec<Case> {
    let last = |state: Vec<u8>| numbered(state, LAST_NUMBER);
    vec![
        case("at the last number, input token 4 or 255: 10", move |met| {
            [awake(&[4], LAST_NUMBER), aborted_at(LAST_NUMBER)].iter().try_for_each(|state| {
                turned_down(met, lent(&S, state.clone(), &[4]), 10, 0)?;
                turned_down(met, lent(&S, state.clone(), &[1, 255]), 10, 0)
            })
        }),
        case("at the last number, an unlawful state: 9, and with a wrong input too", move |met| {
            let states = [
                state_bytes(RUNNING, [5]),
                state_bytes(RUNNING, [4, 1023]),
                state_bytes(ABORTED, [4]),
                state_bytes(0xF000_0002, []),
                state_bytes(0, []),
                state_bytes(u32::MAX, []),
            ];
            states.into_iter().try_for_each(|state| {
                turned_down(met, lent(&S, last(state.clone()), &[1]), 9, 0)?;
                turned_down(met, lent(&S, last(state), &[4]), 9, 0)
            })
        }),
        case("at the last number, each other buffer one byte short or long: 8", move |met| {
            (0..4).try_for_each(|which| {
                [31, 33, 127, 129].iter().try_for_each(|&length| {
                    let mut lent = lent(&S, awake(&[4], LAST_NUMBER), &[1]);
                    let buffers = [&mut lent.input, &mut lent.store, &mut lent.output, &mut lent.scratch];
                    buffers[which].resize(length, 0);
                    turned_down(met, lent, 8, 0)
                })
            })
        }),
        case("at the last number, a faulty score: 1 to 7", move |met| {
            faulty().into_iter().try_for_each(|(score, number, value)| {
                turned_down(met, lent(&score, awake(&[4], LAST_NUMBER), &[1]), number, value)
            })
        }),
    ]
}

/// Number 9 does not look at the last word.
fn lawful() -> Vec<Case> {
    let numbers = || (0..32).map(|bit| 1 << bit).chain([RUNNING, ABORTED, 0x8000_0001, 0x0102_0304]);
    vec![
        case("any number is lawful in a running state", move |met| {
            numbers().try_for_each(|number| {
                brings_about(met, &lent(&S, awake(&[4], number), &[]), &quiet(1, &[], &[2])).map(|_| ())
            })
        }),
        case("any number is lawful in an aborted state", move |met| {
            numbers()
                .try_for_each(|number| brings_about(met, &lent(&S, aborted_at(number), &[]), &aborted()).map(|_| ()))
        }),
        case("any number is lawful where all 1,024 agents are, and where there is one", move |met| {
            let (all, one) = (score(2, &vec![skip(); 1024], &[]), score(1, &[skip()], &[]));
            numbers().try_for_each(|number| {
                brings_about(met, &lent(&all, awake(&[1023], number), &[]), &quiet(1, &[], &[]))?;
                brings_about(met, &lent(&one, awake(&[0], number), &[]), &quiet(1, &[], &[])).map(|_| ())
            })
        }),
    ]
}

fn lengths() -> Vec<Case> {
    vec![
        case("a state of another length, also of 132 bytes: 8", |met| {
            STATE_LENGTHS.all_wrong().try_for_each(|length| {
                [awake(&[4], 1), awake(&[4], LAST_NUMBER), aborted_at(0)].into_iter().try_for_each(|mut state| {
                    state.resize(length, 0);
                    turned_down(met, lent(&S, state, &[1]), 8, 0)
                })
            })
        }),
        case("a faulty score and a state of 132 bytes: 1 to 7", |met| {
            faulty().into_iter().try_for_each(|(score, number, value)| {
                turned_down(met, lent(&score, awake(&[4], 0)[..132].to_vec(), &[1]), number, value)
            })
        }),
    ]
}
