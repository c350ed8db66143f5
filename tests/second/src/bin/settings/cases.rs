//! The document's own sentences about settings, and one for each reading that would spoil a count of them.

use crate::library;
use second::answer::{refused, Answer};
use second::calls::{settings_call, SettingsLent};
use second::generate::one_procedure as score;
use second::guarded::GUARDS;
use second::lent::*;
use second::random::Random;
use second::sample::{faulty, replaced, S};
use second::scenes::STATE_LENGTHS;
use second::settings::{binomial, MOST_SWITCHES};
use second::tests::{case, same_call, Case, Met, Outcome};
use second::words::*;

pub fn all() -> Vec<Case> {
    [sample(), one_after_another(), sixteen(), formulas(), switches(), sizes(), order(), numbers()]
        .into_iter()
        .flatten()
        .collect()
}

fn lent(score: &[u32], awake: &[usize], switches: &[u8], k: u32) -> SettingsLent {
    let state = state_bytes(RUNNING, awake.iter().copied());
    SettingsLent { score: to_bytes(score), state, switches: switches.to_vec(), k }
}

/// Holds both engines to what is expected, at two offsets.
fn both(met: &mut Met, lent: &SettingsLent, expected: Answer) -> Outcome {
    let (answer, buffers) = settings_call(lent, &mut Random::new(0, 0));
    let expected = (expected, lent.clone());
    let told = |engine: &str, difference: String| format!("{engine}, k {}: {difference}", lent.k);
    same_call(&expected, &(answer.packed(), buffers)).map_err(|difference| told("second engine", difference))?;
    for (offset, guard) in [(0, GUARDS[0]), (0, GUARDS[1]), (3, GUARDS[0]), (3, GUARDS[1])] {
        let got = library::settings(lent, offset, guard)?;
        met.count("settings", &lent.score, got.0);
        same_call(&expected, &got).map_err(|difference| told("library", difference))?;
    }
    Ok(())
}

fn counts(met: &mut Met, lent: &SettingsLent, counts: [u32; 3]) -> Outcome {
    both(met, lent, Answer::Settings(counts))
}

fn is_17(met: &mut Met, lent: &SettingsLent) -> Outcome {
    both(met, lent, refused(17, 0))
}

/// Each k from 0 on, with its counts.
fn each_k(met: &mut Met, lent: &SettingsLent, wanted: &[[u32; 3]]) -> Outcome {
    (0..).zip(wanted).try_for_each(|(k, &wanted)| counts(met, &SettingsLent { k, ..lent.clone() }, wanted))
}

/// Each k up to the number of switches, with its counts.
fn by_k(met: &mut Met, lent: &SettingsLent, wanted: impl Fn(usize) -> [u32; 3]) -> Outcome {
    let wanted: Vec<_> = (0..=lent.switches.len()).map(wanted).collect();
    each_k(met, lent, &wanted)
}

fn sample() -> Vec<Case> {
    let aborting = || replaced(&S, &[(2, 0x4000_0001)]);
    let aborted = |switches: &[u8]| SettingsLent { state: state_bytes(ABORTED, []), ..lent(&S, &[], switches, 0) };
    vec![
        case("S from its start, switches 1, 2 and 3", |met| {
            each_k(met, &lent(&S, &[4], &[1, 2, 3], 0), &[[1, 0, 0], [3, 0, 0], [1, 2, 0], [0, 1, 0]])
        }),
        case("S with nobody awake", |met| {
            each_k(met, &lent(&S, &[], &[3, 1, 2], 0), &[[1, 0, 0], [3, 0, 0], [2, 1, 0], [0, 1, 0]])
        }),
        case("S with agent 0 awake, which tells 2", |met| {
            each_k(met, &lent(&S, &[0], &[1, 2, 3], 0), &[[1, 0, 0], [2, 1, 0], [1, 2, 0], [0, 1, 0]])
        }),
        case("S, the clash for a switch", |met| {
            each_k(met, &lent(&S, &[4], &[1, 0], 0), &[[1, 0, 0], [1, 1, 0], [0, 1, 0]])
        }),
        case("S with an abort, switches 1, 2 and 3: a clash aborts too", move |met| {
            each_k(met, &lent(&aborting(), &[4], &[1, 2, 3], 0), &[[1, 0, 0], [2, 0, 1], [0, 0, 3], [0, 0, 1]])
        }),
        case("S aborted: all end with 2", move |met| {
            each_k(met, &aborted(&[1, 2, 3]), &[[0, 0, 1], [0, 0, 3], [0, 0, 3], [0, 0, 1]])
        }),
        case("S aborted, no switches", move |met| counts(met, &aborted(&[]), [0, 0, 1])),
        case("S aborted, what is wrong with the switches is still 17", move |met| {
            let wrong: [(&[u8], u32); 5] = [(&[1], 2), (&[4], 0), (&[1, 1], 1), (&[0; 17], 0), (&[], 1)];
            wrong.iter().try_for_each(|&(switches, k)| is_17(met, &SettingsLent { k, ..aborted(switches) }))
        }),
        case("S, no switches: one setting", |met| counts(met, &lent(&S, &[4], &[], 0), [1, 0, 0])),
        case("S, none pressed: one setting", |met| counts(met, &lent(&S, &[4], &[0, 3, 1, 2], 0), [1, 0, 0])),
        case("S, all pressed: one setting", |met| counts(met, &lent(&S, &[4], &[0, 3, 1, 2], 4), [0, 1, 0])),
        case("a fact of the clash, none pressed", |met| {
            each_k(met, &lent(&score(3, &[skip()], &[fact(0)]), &[0], &[1, 2], 0), &[[0, 1, 0], [0, 2, 0], [0, 1, 0]])
        }),
        case("a fact beside a switch", |met| {
            let score = score(4, &[skip()], &[rule(0, 1, 2), fact(1)]);
            each_k(met, &lent(&score, &[0], &[1, 2, 3], 0), &[[1, 0, 0], [2, 1, 0], [1, 2, 0], [0, 1, 0]])
        }),
    ]
}

/// Both orders of two switches, one pressed.
fn one_of_two(met: &mut Met, score: &[u32], awake: &[usize], wanted: [u32; 3]) -> Outcome {
    [[1, 2], [2, 1]].iter().try_for_each(|switches| counts(met, &lent(score, awake, switches, 1), wanted))
}

/// No setting leaves anything to the next.
fn one_after_another() -> Vec<Case> {
    vec![
        case("the next agents of a setting are not awake in another", |met| {
            let score = score(3, &[abort(), next(0), when(1, 1), when(1, 2), parallel(2, 3)], &[]);
            one_of_two(met, &score, &[4], [2, 0, 0])
        }),
        case("the agents of the state are awake in each setting", |met| {
            let score = score(3, &[tell(0), when(0, 1), when(0, 2), parallel(1, 2)], &[]);
            one_of_two(met, &score, &[3], [0, 2, 0])
        }),
        case("the body of an unless is not awake in another setting", |met| {
            let score = score(3, &[abort(), unless(0, 1), unless(0, 2), parallel(1, 2)], &[]);
            one_of_two(met, &score, &[3], [2, 0, 0])
        }),
        case("a switch is not left pressed for another setting", |met| {
            one_of_two(met, &score(3, &[skip()], &[rule(0, 1, 2)]), &[0], [2, 0, 0])
        }),
        case("the store of a setting is not kept for another", |met| {
            one_of_two(met, &score(4, &[tell(3), when(0, 1)], &[rule(0, 2, 3)]), &[1], [2, 0, 0])
        }),
        case("an abort in one setting aborts no other", |met| {
            one_of_two(met, &score(3, &[abort(), when(0, 1)], &[]), &[1], [1, 0, 1])
        }),
        case("a clash in one setting is none in another", |met| {
            one_of_two(met, &score(3, &[skip()], &[rule(0, 1, 1)]), &[0], [1, 1, 0])
        }),
    ]
}

const ONE_TO_SIXTEEN: [u8; MOST_SWITCHES] = [1, 2, 3, 4, 5, 6, 7, 8, 9, 10, 11, 12, 13, 14, 15, 16];

/// All settings of sixteen switches end alike, up to 12,870 of them.
fn sixteen() -> Vec<Case> {
    let all = |k| binomial(MOST_SWITCHES, k);
    let awake = |agent: u32| lent(&score(17, &[agent], &[]), &[0], &ONE_TO_SIXTEEN, 0);
    vec![
        case("16 switches, all settings quiet", move |met| by_k(met, &awake(skip()), |k| [all(k), 0, 0])),
        case("16 switches, all settings a clash", move |met| by_k(met, &awake(tell(0)), |k| [0, all(k), 0])),
        case("16 switches, all settings aborted", move |met| by_k(met, &awake(abort()), |k| [0, 0, all(k)])),
        case("16 switches, from an aborted state", move |met| {
            let lent = SettingsLent { state: state_bytes(ABORTED, []), ..awake(skip()) };
            by_k(met, &lent, |k| [0, 0, all(k)])
        }),
    ]
}

/// How many sets of k have a given one of n.
fn with_one(n: usize, k: usize) -> u32 {
    k.checked_sub(1).map_or(0, |k| binomial(n - 1, k))
}

/// Counts that are known from how the score is made.
fn formulas() -> Vec<Case> {
    let n = MOST_SWITCHES;
    vec![
        case("the first switch is the clash", move |met| {
            let switches: Vec<u8> = (0..16).collect();
            let lent = lent(&score(16, &[skip()], &[]), &[0], &switches, 0);
            by_k(met, &lent, |k| [binomial(n - 1, k), with_one(n, k), 0])
        }),
        case("the last switch is the clash", move |met| {
            let switches: Vec<u8> = (0..16).rev().collect();
            let lent = lent(&score(16, &[skip()], &[]), &[0], &switches, 0);
            by_k(met, &lent, |k| [binomial(n - 1, k), with_one(n, k), 0])
        }),
        case("one switch aborts, wherever it is listed", move |met| {
            ONE_TO_SIXTEEN.into_iter().step_by(5).try_for_each(|token| {
                let score = score(17, &[abort(), when(0, token.into())], &[]);
                let lent = lent(&score, &[1], &ONE_TO_SIXTEEN, 0);
                by_k(met, &lent, |k| [binomial(n - 1, k), 0, with_one(n, k)])
            })
        }),
        case("eight pairs of switches clash", |met| {
            let rules: Vec<u32> = (0..8).map(|pair| rule(0, 2 * pair + 1, 2 * pair + 2)).collect();
            let quiet = |k: usize| if k > 8 { 0 } else { binomial(8, k) << k };
            let lent = lent(&score(17, &[skip()], &rules), &[0], &ONE_TO_SIXTEEN, 0);
            by_k(met, &lent, |k| [quiet(k), binomial(16, k) - quiet(k), 0])
        }),
        case("two switches together abort", |met| {
            let score = score(17, &[abort(), when(0, 5), when(1, 12)], &[]);
            let lent = lent(&score, &[2], &ONE_TO_SIXTEEN, 0);
            let aborted = |k: usize| k.checked_sub(2).map_or(0, |k| binomial(14, k));
            by_k(met, &lent, |k| [binomial(16, k) - aborted(k), 0, aborted(k)])
        }),
    ]
}

/// A score of so many tokens in which nothing happens.
fn idle(tokens: u32) -> Vec<u32> {
    score(tokens, &[skip()], &[])
}

/// Number 17 by each of its causes, and what is just not 17.
fn switches() -> Vec<Case> {
    let seventeen: Vec<u8> = (1..18).collect();
    let pairs = || (0..MOST_SWITCHES).flat_map(|one| (0..one).map(move |other| (one, other)));
    vec![
        case("16 switches are taken, and 17 are not", move |met| {
            counts(met, &lent(&idle(256), &[0], &seventeen[..16], 1), [16, 0, 0])?;
            [0, 1, 8, 17].iter().try_for_each(|&k| is_17(met, &lent(&idle(256), &[0], &seventeen, k)))
        }),
        case("lists whose length is small in 8 or 16 bits: 17", |met| {
            [256, 257, 272, 512, 1 << 16, (1 << 16) + 3].iter().try_for_each(|&len| {
                let distinct: Vec<u8> = (0..len).map(|place| place as u8).collect();
                is_17(met, &lent(&idle(256), &[0], &distinct, 0))
            })
        }),
        case("a switch repeated, at any two places: 17", move |met| {
            pairs().try_for_each(|(one, other)| {
                let mut switches = ONE_TO_SIXTEEN;
                switches[one] = switches[other];
                is_17(met, &lent(&idle(17), &[0], &switches, 1))
            })
        }),
        case("a switch repeated: 17 for each k", |met| {
            (0..4).try_for_each(|k| is_17(met, &lent(&idle(4), &[0], &[2, 3, 2], k)))
        }),
        case("one switch sixteen times: 17", |met| is_17(met, &lent(&idle(4), &[0], &[1; 16], 0))),
        case("token T - 1 is taken at any place, and T is not", |met| {
            (0..MOST_SWITCHES).try_for_each(|at| {
                let mut switches = ONE_TO_SIXTEEN;
                switches[at] = 29;
                counts(met, &lent(&idle(30), &[0], &switches, 1), [16, 0, 0])?;
                [30, 31, 255].iter().try_for_each(|&unknown| {
                    switches[at] = unknown;
                    is_17(met, &lent(&idle(30), &[0], &switches, 1))?;
                    is_17(met, &lent(&idle(30), &[0], &switches, 0))
                })
            })
        }),
        case("of 256 tokens 255 is a switch, and of 255 it is not", |met| {
            counts(met, &lent(&idle(256), &[0], &[255], 1), [1, 0, 0])?;
            counts(met, &lent(&idle(255), &[0], &[254], 1), [1, 0, 0])?;
            is_17(met, &lent(&idle(255), &[0], &[255], 1))
        }),
        case("of the only token the clash is a switch, and 1 is not", |met| {
            counts(met, &lent(&idle(1), &[0], &[0], 1), [0, 1, 0])?;
            is_17(met, &lent(&idle(1), &[0], &[1], 1))
        }),
    ]
}

fn sizes() -> Vec<Case> {
    vec![
        case("k at the number of switches, and one past it", |met| {
            (0..=MOST_SWITCHES).try_for_each(|n| {
                let all = lent(&idle(17), &[0], &ONE_TO_SIXTEEN[..n], n as u32);
                counts(met, &all, [1, 0, 0])?;
                is_17(met, &SettingsLent { k: n as u32 + 1, ..all })
            })
        }),
        case("k far past the number of switches", |met| {
            let far = [4, 5, 16, 17, 31, 32, 33, 64, 0xFF, 0x100, 0x102, 0xFFFF, 0x1_0000, 0x1_0001, 1 << 31, u32::MAX];
            far.iter().try_for_each(|&k| is_17(met, &lent(&S, &[4], &[1, 2, 3], k)))
        }),
        case("k past no switches", |met| {
            [1, 0x100, u32::MAX].iter().try_for_each(|&k| is_17(met, &lent(&S, &[4], &[], k)))
        }),
    ]
}

/// Everything is wrong with the switches, and with the state where it is asked for.
fn wrong(state: Vec<u8>) -> SettingsLent {
    SettingsLent { state, ..lent(&S, &[], &[9; 17], 18) }
}

fn order() -> Vec<Case> {
    vec![
        case("1 to 7 come before 8, 9 and 17", |met| {
            faulty().into_iter().try_for_each(|(words, number, value)| {
                let lent = lent(&words, &[4], &[1], 1);
                both(met, &lent, refused(number, value))?;
                let state = state_bytes(0, [5])[1..].to_vec();
                both(met, &SettingsLent { score: lent.score, ..wrong(state) }, refused(number, value))
            })
        }),
        case("a state of another length, also of 132 bytes: 8, before 9 and 17", |met| {
            STATE_LENGTHS.all_wrong().try_for_each(|len| {
                let mut right = lent(&S, &[4], &[1], 1);
                right.state.resize(len, 0);
                both(met, &right, refused(8, 0))?;
                let mut state = state_bytes(0, [5]);
                state.resize(len, 0);
                both(met, &wrong(state), refused(8, 0))
            })
        }),
        case("an unlawful state: 9, before 17", |met| {
            let states = [
                state_bytes(RUNNING, [5]),
                state_bytes(RUNNING, [4, 1023]),
                state_bytes(ABORTED, [4]),
                state_bytes(0xF000_0002, []),
                state_bytes(0, []),
            ];
            states.into_iter().try_for_each(|state| {
                let right = |k| SettingsLent { state: state.clone(), ..lent(&S, &[], &[1], k) };
                both(met, &right(0), refused(9, 0))?;
                both(met, &right(1), refused(9, 0))?;
                both(met, &wrong(state), refused(9, 0))
            })
        }),
        case("the last agent of a score is lawful", |met| counts(met, &lent(&S, &[0, 1, 2, 3, 4], &[1], 1), [1, 0, 0])),
    ]
}

/// Instant numbers at which nothing may change.
const NUMBERS: [u32; 8] = [0, 1, 0xFF, 0x0102_0304, RUNNING, LAST_NUMBER - 2, LAST_NUMBER - 1, LAST_NUMBER];

/// The same call at each of these numbers.
fn at_each_number(met: &mut Met, lent: &SettingsLent, judge: impl Fn(&mut Met, &SettingsLent) -> Outcome) -> Outcome {
    NUMBERS.iter().try_for_each(|&number| {
        judge(met, &SettingsLent { state: numbered(lent.state.clone(), number), ..lent.clone() })
    })
}

/// The number is ignored, also where it is the last, and stays as it is.
fn numbers() -> Vec<Case> {
    let aborted = || SettingsLent { state: state_bytes(ABORTED, []), ..lent(&S, &[], &[1, 2, 3], 2) };
    vec![
        case("S from its start at any number", |met| {
            at_each_number(met, &lent(&S, &[4], &[1, 2, 3], 0), |met, lent| {
                each_k(met, lent, &[[1, 0, 0], [3, 0, 0], [1, 2, 0], [0, 1, 0]])
            })
        }),
        case("S aborted at any number", move |met| {
            at_each_number(met, &aborted(), |met, lent| counts(met, lent, [0, 0, 3]))
        }),
        case("S with an abort at any number", |met| {
            let aborting = replaced(&S, &[(2, 0x4000_0001)]);
            at_each_number(met, &lent(&aborting, &[4], &[1, 2, 3], 1), |met, lent| counts(met, lent, [2, 0, 1]))
        }),
        case("no switches at any number", |met| {
            at_each_number(met, &lent(&S, &[4], &[], 0), |met, lent| counts(met, lent, [1, 0, 0]))
        }),
        case("more settings at the last number than there are numbers left", |met| {
            let lent = lent(&idle(17), &[0], &ONE_TO_SIXTEEN, 8);
            let state = numbered(lent.state.clone(), LAST_NUMBER - 100);
            counts(met, &SettingsLent { state, ..lent }, [12_870, 0, 0])
        }),
        case("wrong switches at any number: 17", move |met| {
            at_each_number(met, &lent(&S, &[4], &[1, 4], 1), is_17)?;
            at_each_number(met, &SettingsLent { k: 4, ..aborted() }, is_17)
        }),
        case("an unlawful state at any number: 9", |met| {
            let unlawful = |state| SettingsLent { state, ..lent(&S, &[], &[1], 1) };
            [state_bytes(RUNNING, [5]), state_bytes(ABORTED, [4]), state_bytes(0, [])]
                .into_iter()
                .try_for_each(|state| at_each_number(met, &unlawful(state), |met, lent| both(met, lent, refused(9, 0))))
        }),
    ]
}
