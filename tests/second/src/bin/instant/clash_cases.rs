//! A clash sends nothing, and its store map shows every token of the score; quiet instants before and after it send
//! what is at the ports.

use crate::cases::{aborted, brings_about, lent, quiet, score, Wanted};
use second::calls::InstantLent;
use second::lent::*;
use second::sample::{replaced, S};
use second::tests::{case, ensure, Case, Met, Outcome};
use second::words::*;

pub fn all() -> Vec<Case> {
    [sample(), causes(), kinds_of_ports(), sizes(), in_turn(), aborts(), facts()].into_iter().flatten().collect()
}

/// An instant's inputs, what it brings about, and what it sends.
type Instant<'a> = (&'a [usize], Wanted, &'a [usize]);

/// Instants one after the other on one state, each on output maps that hold nothing, something and everything.
fn send(met: &mut Met, score: &[u32], awake: &[usize], instants: &[Instant]) -> Outcome {
    let mut state = state_bytes(RUNNING, awake.iter().copied());
    for (inputs, wanted, sent) in instants {
        let lent = lent(score, state, inputs);
        for old in [0x00, 0xFF] {
            let lent = InstantLent { output: vec![old; MAP_BYTES], ..lent.clone() };
            brings_about(met, &lent, wanted)?;
        }
        let after = brings_about(met, &lent, wanted)?;
        ensure(after.output == map_bytes(sent), "both engines send something else")?;
        state = after.state;
    }
    Ok(())
}

/// The tokens of a score that has so many.
fn tokens(count: usize) -> Vec<usize> {
    (0..count).collect()
}

/// A clash of a score of so many tokens, which reduces so many agents and leaves these awake.
fn clash(count: u32, all: usize, awake: &[usize]) -> Wanted {
    quiet(count, &tokens(all), awake)
}

fn sample() -> Vec<Case> {
    vec![
        case("S: its third instant sends nothing, and its store is whole", |met| {
            let instants: [Instant; 3] = [
                (&[1], quiet(3, &[1, 2], &[2]), &[2]),
                (&[], quiet(2, &[], &[2]), &[]),
                (&[1, 3], clash(4, 4, &[2]), &[]),
            ];
            send(met, &S, &[4], &instants)
        }),
        case("S: its third instant, by the bytes of its maps", |met| {
            let lent = lent(&S, state_bytes(RUNNING, [2]), &[1, 3]);
            let after = brings_about(met, &lent, &clash(4, 4, &[2]))?;
            ensure(after.store[0] == 0x0F && after.store[1..] == [0; 31], "another store map")?;
            ensure(after.output == [0; 32], "another output map")
        }),
    ]
}

/// A score of four tokens, all at the ports, that tells 1 once; by its rules 2 and 3 clash.
fn tells_1(rules: &[u32]) -> Vec<u32> {
    score(4, &[tell(1)], rules)
}

fn causes() -> Vec<Case> {
    let by = |name, rules: &'static [u32], inputs: &'static [usize]| {
        case(name, move |met| send(met, &tells_1(rules), &[0], &[(inputs, clash(1, 4, &[]), &[])]))
    };
    const TWO_AND_THREE: u32 = 0x2003_0200;
    const FACT: u32 = 0x2800_0000;
    vec![
        by("a clash by an input of token 0 sends nothing", &[], &[0]),
        by("a clash by an input of all tokens sends nothing", &[], &[0, 1, 2, 3]),
        by("a clash by a rule over two inputs sends nothing", &[TWO_AND_THREE], &[2, 3]),
        by("a clash by a rule over what is told sends nothing", &[0x2001_0100], &[]),
        by("a clash by rules one after the other sends nothing", &[TWO_AND_THREE, 0x2001_0102, 0x2001_0103], &[]),
        by("a clash by a fact of token 0 sends nothing", &[FACT], &[]),
        by("a clash by facts and a rule sends nothing", &[TWO_AND_THREE, FACT | 2, FACT | 3], &[]),
        by("a clash by a fact and an input sends nothing", &[TWO_AND_THREE, FACT | 2], &[3]),
        case("a clash by a tell of token 0 sends nothing", |met| {
            send(met, &score(4, &[tell(0)], &[]), &[0], &[(&[2], clash(1, 4, &[]), &[])])
        }),
        case("all tokens but the clash are sent", |met| {
            send(met, &tells_1(&[]), &[0], &[(&[2, 3], quiet(1, &[1, 2, 3], &[]), &[1, 2, 3])])
        }),
    ]
}

/// A score of eight tokens that does nothing, with these ports.
fn with_ports(lowest: u32, highest: u32) -> Vec<u32> {
    replaced(&score(8, &[skip()], &[]), &[(1, ports(lowest, highest))])
}

fn kinds_of_ports() -> Vec<Case> {
    let of = |name, lowest: u32, highest: u32, sent: &'static [usize]| {
        case(name, move |met| {
            let instants: [Instant; 3] = [
                (&[1, 2, 5, 7], quiet(0, &[1, 2, 5, 7], &[]), sent),
                (&[0], clash(0, 8, &[]), &[]),
                (&[1, 2, 5, 7], quiet(0, &[1, 2, 5, 7], &[]), sent),
            ];
            send(met, &with_ports(lowest, highest), &[], &instants)
        })
    };
    vec![
        of("a clash with all tokens at the ports", 0, 7, &[1, 2, 5, 7]),
        of("a clash with token 0 alone at the ports", 0, 0, &[]),
        of("a clash with token 0 and another at the ports", 0, 1, &[1]),
        of("a clash with all tokens but 0 at the ports", 1, 7, &[1, 2, 5, 7]),
        of("a clash with one port", 5, 5, &[5]),
        of("a clash with one port that nothing tells", 4, 4, &[]),
        of("a clash with the last token alone at the ports", 7, 7, &[7]),
        of("a clash with ports in the middle", 2, 5, &[2, 5]),
    ]
}

fn sizes() -> Vec<Case> {
    let whole_store = |met: &mut Met, count: usize| {
        let score = score(count as u32, &[skip()], &[]);
        send(met, &score, &[], &[(&[0], clash(0, count, &[]), &[])])
    };
    vec![
        case("the store of a clash has each token of the score and no other", move |met| {
            [1, 2, 7, 8, 9, 63, 64, 65, 127, 128, 129, 255, 256]
                .into_iter()
                .try_for_each(|count| whole_store(met, count))
        }),
        case("all 256 tokens are ports: 255 are sent, and in a clash none", |met| {
            let all = tokens(256);
            let score = score(256, &[skip()], &[]);
            let others = &all[1..];
            let quiet = || quiet(0, &all[1..], &[]);
            send(
                met,
                &score,
                &[],
                &[(others, quiet(), others), (&all, clash(0, 256, &[]), &[]), (others, quiet(), others)],
            )
        }),
        case("a token that is told alone is sent, wherever it stands in the map", |met| {
            let score = score(256, &[skip()], &[]);
            (1..256)
                .step_by(17)
                .try_for_each(|token| send(met, &score, &[], &[(&[token], quiet(0, &[token], &[]), &[token])]))
        }),
    ]
}

/// Tells 1 at every instant: agent 3 from the start, agent 1 from then on. Tokens 2 and 3 clash.
fn telling_on() -> Vec<u32> {
    score(4, &[tell(1), call(0), next(1), parallel(0, 2)], &[rule(0, 2, 3)])
}

fn in_turn() -> Vec<Case> {
    vec![
        case("outputs come back in the instant after a clash", |met| {
            let instants: [Instant; 6] = [
                (&[], quiet(2, &[1], &[1]), &[1]),
                (&[2, 3], clash(3, 4, &[1]), &[]),
                (&[], quiet(3, &[1], &[1]), &[1]),
                (&[0], clash(3, 4, &[1]), &[]),
                (&[0], clash(3, 4, &[1]), &[]),
                (&[2], quiet(3, &[1, 2], &[1]), &[1, 2]),
            ];
            send(met, &telling_on(), &[3], &instants)
        }),
        case("a clash in the first instant, and outputs from the second on", |met| {
            let instants: [Instant; 2] = [(&[0], clash(2, 4, &[1]), &[]), (&[3], quiet(3, &[1, 3], &[1]), &[1, 3])];
            send(met, &telling_on(), &[3], &instants)
        }),
        case("what a clash answers is awake next, and sends", |met| {
            let score = score(4, &[tell(2), next(0), when(1, 3)], &[]);
            send(met, &score, &[2], &[(&[0], clash(1, 4, &[0]), &[]), (&[], quiet(1, &[2], &[]), &[2])])
        }),
    ]
}

fn aborts() -> Vec<Case> {
    let later = || score(3, &[abort(), next(0)], &[]);
    vec![
        case("a clash and then an abort: nothing in both maps from then on", move |met| {
            let instants: [Instant; 4] = [
                (&[0], clash(0, 3, &[0]), &[]),
                (&[1], aborted(), &[]),
                (&[0], aborted(), &[]),
                (&[1, 2], aborted(), &[]),
            ];
            send(met, &later(), &[1], &instants)
        }),
        case("an abort in the clash of an input: status 2, and nothing in both maps", |met| {
            send(met, &score(3, &[abort()], &[]), &[0], &[(&[0], aborted(), &[]), (&[0], aborted(), &[])])
        }),
        case("an abort that a clash reaches: status 2, and nothing in both maps", |met| {
            let score = score(3, &[abort(), when(0, 2)], &[rule(0, 1, 1)]);
            send(met, &score, &[1], &[(&[1], aborted(), &[]), (&[], aborted(), &[])])
        }),
        case("an abort in the clash of a fact: status 2, and nothing in both maps", |met| {
            send(met, &score(3, &[abort()], &[fact(0)]), &[0], &[(&[], aborted(), &[]), (&[1], aborted(), &[])])
        }),
    ]
}

fn facts() -> Vec<Case> {
    vec![
        case("facts at the ports are sent in quiet instants alone", |met| {
            let score = replaced(&score(5, &[skip()], &[fact(2), fact(4), rule(0, 2, 3)]), &[(1, ports(1, 3))]);
            let instants: [Instant; 4] = [
                (&[], quiet(0, &[2, 4], &[]), &[2]),
                (&[3], clash(0, 5, &[]), &[]),
                (&[1], quiet(0, &[1, 2, 4], &[]), &[1, 2]),
                (&[0], clash(0, 5, &[]), &[]),
            ];
            send(met, &score, &[], &instants)
        }),
        case("with a fact of token 0 nothing is sent at any instant", |met| {
            let instants: [Instant; 3] =
                [(&[], clash(0, 3, &[]), &[]), (&[1, 2], clash(0, 3, &[]), &[]), (&[0], clash(0, 3, &[]), &[])];
            send(met, &score(3, &[skip()], &[fact(0)]), &[], &instants)
        }),
    ]
}
