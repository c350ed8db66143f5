//! The scratch: its length, what it holds when it is lent, and counts whose bits stand at every place in it.

use crate::cases::{aborted, brings_about, in_turn, ladder, ladder_on, lent, quiet, score, turned_down, Wanted};
use second::lent::*;
use second::sample::{faulty, S};
use second::scenes::wrong_scratch_lengths;
use second::tests::{case, Case, Met, Outcome};
use second::words::*;

pub fn all() -> Vec<Case> {
    [lengths(), contents(), places(), left_over(), aborts()].into_iter().flatten().collect()
}

/// With a scratch of each length but the right one.
fn turned_down_at_each_length(
    met: &mut Met,
    score: &[u32],
    awake: usize,
    inputs: &[usize],
    (number, value): (u32, u64),
) -> Outcome {
    wrong_scratch_lengths().try_for_each(|length| {
        let mut lent = lent(score, state_bytes(RUNNING, [awake]), inputs);
        lent.scratch.resize(length, 0xC3);
        turned_down(met, lent, number, value)
    })
}

fn lengths() -> Vec<Case> {
    vec![
        case("S, a scratch of another length: 8", |met| turned_down_at_each_length(met, &S, 4, &[1], (8, 0))),
        case("S, a scratch of another length and agent 5: 8 before 9", |met| {
            turned_down_at_each_length(met, &S, 5, &[1], (8, 0))
        }),
        case("S, a scratch of another length and input token 4: 8 before 10", |met| {
            turned_down_at_each_length(met, &S, 4, &[4], (8, 0))
        }),
        case("a faulty score and a scratch of another length: 1 to 7 before 8", |met| {
            faulty().into_iter().try_for_each(|(score, number, value)| {
                turned_down_at_each_length(met, &score, 4, &[1], (number, value))
            })
        }),
    ]
}

/// A scratch with a first byte, the others 0.
fn first_byte(byte: u8) -> Vec<u8> {
    [&[byte][..], &[0; SCRATCH_BYTES - 1]].concat()
}

/// The instants of S, from the start state and then from agent 2, and the first byte of the bits that each sets.
fn instants_of_s() -> [(usize, &'static [usize], Wanted, u8); 3] {
    [
        (4, &[1], quiet(3, &[1, 2], &[2]), 0x13),
        (2, &[], quiet(2, &[], &[2]), 0x14),
        (2, &[1, 3], quiet(4, &[0, 1, 2, 3], &[2]), 0x17),
    ]
}

/// Each instant of S on a scratch that holds these bytes.
fn s_on(met: &mut Met, scratch: Vec<u8>) -> Outcome {
    instants_of_s().into_iter().try_for_each(|(awake, inputs, wanted, _)| {
        let mut lent = lent(&S, state_bytes(RUNNING, [awake]), inputs);
        lent.scratch = scratch.clone();
        brings_about(met, &lent, &wanted).map(|_| ())
    })
}

fn contents() -> Vec<Case> {
    vec![
        case("S on a scratch of zeros", |met| s_on(met, vec![0x00; SCRATCH_BYTES])),
        case("S on a scratch of ones", |met| s_on(met, vec![0xFF; SCRATCH_BYTES])),
        case("S on a scratch with one bit, at each place", |met| {
            (0..8 * SCRATCH_BYTES).try_for_each(|bit| {
                let mut scratch = vec![0; SCRATCH_BYTES];
                scratch[bit / 8] = 1 << (bit % 8);
                s_on(met, scratch)
            })
        }),
        case("S on the bits of each of its instants", |met| {
            instants_of_s().into_iter().try_for_each(|(_, _, _, bits)| s_on(met, first_byte(bits)))
        }),
        case("S, aborted, on the bits of its instants: count 0", |met| {
            instants_of_s().into_iter().try_for_each(|(_, inputs, _, bits)| {
                let mut lent = lent(&S, state_bytes(ABORTED, []), inputs);
                lent.scratch = first_byte(bits);
                brings_about(met, &lent, &aborted()).map(|_| ())
            })
        }),
    ]
}

/// The sides of bytes and of words of 32 and 64 bits, and other sets of agents that fill bytes or are alone in one.
fn sets() -> Vec<Vec<usize>> {
    let both_sides = [8, 16, 32, 64, 128, 256, 512, 960, 992, 1016].map(|first| vec![first - 1, first]);
    let whole = [0..8, 1016..1024, 0..32, 992..1024, 0..64, 960..1024, 248..264, 4..12].map(Iterator::collect);
    let ends =
        [vec![0, 1023], vec![0, 7, 8, 1016, 1023], (0..1024).step_by(8).collect(), (7..1024).step_by(8).collect()];
    [&both_sides[..], &whole, &ends].concat()
}

fn skips_reduced(met: &mut Met, awake: &[usize]) -> Outcome {
    in_turn(met, &score(1, &[skip(); 1024], &[]), awake, &[(&[], quiet(awake.len() as u32, &[], &[]))])
}

fn places() -> Vec<Case> {
    vec![
        case("each of 1,024 agents is reduced alone", |met| {
            (0..1024).try_for_each(|agent| skips_reduced(met, &[agent]))
        }),
        case("agents at both sides of bytes and words, and in whole ones", |met| {
            sets().iter().try_for_each(|set| skips_reduced(met, set))
        }),
        case("all agents but those", |met| {
            sets().iter().try_for_each(|set| {
                skips_reduced(met, &(0..1024).filter(|agent| !set.contains(agent)).collect::<Vec<_>>())
            })
        }),
        case("1,024 agents are reduced, then one, then all again, on one scratch", |met| {
            let (skips, all) = (score(1, &[skip(); 1024], &[]), (0..1024).collect::<Vec<_>>());
            let reduced = |count| quiet(count, &[], &[]);
            on_one_scratch(
                met,
                &[(&skips, &all, reduced(1024)), (&skips, &[9], reduced(1)), (&skips, &all, reduced(1024))],
            )
        }),
    ]
}

/// From an agent on, every other one is made of the one before it, which like all others is a skip.
fn every_other(first: usize, make: fn(u32) -> u32) -> Vec<u32> {
    let agent = |agent: usize| {
        if agent >= first && agent % 2 == first % 2 {
            make(agent as u32 - 1)
        } else {
            skip()
        }
    };
    score(2, &(0..1024).map(agent).collect::<Vec<_>>(), &[])
}

/// All agents are awake. Without input those made stay, with input {1} they do if they are a next: then they are not
/// counted. Awake next are the bodies of those that are put off.
fn stay(met: &mut Met, make: fn(u32) -> u32, is_put_off: bool, stays_with_input: bool) -> Outcome {
    let all: Vec<usize> = (0..1024).collect();
    [1, 2].into_iter().try_for_each(|first| {
        let made: Vec<usize> = (first..1024).step_by(2).collect();
        let bodies: Vec<usize> = made.iter().map(|agent| agent - 1).collect();
        let staying = |store: &[usize]| quiet(1024 - made.len() as u32, store, if is_put_off { &bodies } else { &[] });
        let answered = || quiet(1024, &[1], &[]);
        let score = every_other(first, make);
        in_turn(met, &score, &all, &[(&[], staying(&[]))])?;
        in_turn(met, &score, &all, &[(&[1], if stays_with_input { staying(&[1]) } else { answered() })])
    })
}

fn left_over() -> Vec<Case> {
    vec![
        case("a when that is not answered is not counted, beside agents that are", |met| {
            stay(met, |body| when(body, 1), false, false)
        }),
        case("an unless that is left over is not counted, beside agents that are", |met| {
            stay(met, |body| unless(body, 1), true, false)
        }),
        case("a next is not counted, beside agents that are", |met| stay(met, next, true, true)),
        case("1,023 agents wait in vain: count 0", |met| {
            let agents: Vec<u32> = [skip()].into_iter().chain((0..1023).map(|body| when(body, 1))).collect();
            let awake: Vec<usize> = (1..1024).collect();
            in_turn(met, &score(2, &agents, &[]), &awake, &[(&[], quiet(0, &[], &[]))])
        }),
    ]
}

/// Instants one after the other on one scratch, each of a score and from agents of its own.
fn on_one_scratch(met: &mut Met, instants: &[(&[u32], &[usize], Wanted)]) -> Outcome {
    let mut scratch = vec![0xFF; SCRATCH_BYTES];
    for (score, awake, wanted) in instants {
        let mut lent = lent(score, state_bytes(RUNNING, awake.iter().copied()), &[]);
        lent.scratch = scratch;
        scratch = brings_about(met, &lent, wanted)?.scratch;
    }
    Ok(())
}

/// After an abort, an instant that reduces a few agents and one that reduces all.
fn followed(met: &mut Met, aborting: &[u32], awake: &[usize]) -> Outcome {
    let skips = score(1, &[skip(); 1024], &[]);
    let few = [0, 9, 1023];
    let instants: [(&[u32], &[usize], Wanted); 5] = [
        (aborting, awake, aborted()),
        (&skips, &few, quiet(3, &[], &[])),
        (aborting, awake, aborted()),
        (&ladder(), &[1023], quiet(1024, &[1], &[])),
        (aborting, awake, aborted()),
    ];
    on_one_scratch(met, &instants)
}

fn aborts() -> Vec<Case> {
    let all: fn() -> Vec<usize> = || (0..1024).collect();
    vec![
        case("an abort after 1,023 agents, which is agent 0, and instants on its scratch", |met| {
            followed(met, &ladder_on(abort()), &[1023])
        }),
        case("an abort, which is agent 0, with all awake", move |met| followed(met, &ladder_on(abort()), &all())),
        case("an abort, which is agent 1,023, with all awake", move |met| {
            let agents: Vec<u32> = [skip(); 1023].into_iter().chain([abort()]).collect();
            followed(met, &score(1, &agents, &[]), &all())
        }),
        case("an abort after 1,022 agents below it, one of which tells what it waits for", |met| {
            let steps = (0..1021).map(|below| parallel(below, below));
            let agents: Vec<u32> = [tell(1)].into_iter().chain(steps).chain([abort(), when(1022, 1)]).collect();
            followed(met, &score(2, &agents, &[]), &[1021, 1023])
        }),
    ]
}
