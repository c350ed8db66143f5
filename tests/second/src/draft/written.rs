//! Drafts whose journals are written out by hand.

use crate::decoded::Token;
use crate::generate::Score;
use crate::words::*;

pub struct Played {
    pub name: &'static str,
    pub draft: Vec<u8>,
    pub list: Vec<Vec<Token>>,
    pub journal: Vec<u32>,
}

fn played(name: &'static str, draft: &Score, list: &[&[Token]], journal: &[u32]) -> Played {
    let list = list.iter().map(|inputs| inputs.to_vec()).collect();
    Played { name, draft: draft.bytes(), list, journal: journal.to_vec() }
}

/// A draft of five tokens, of which 1 to 3 are at the ports, whose procedure 0 has the last agent for its root.
fn draft(agents: &[u32], rules: &[u32]) -> Score {
    Score {
        tokens: 5,
        ports: ports(1, 3),
        procedures: vec![procedure(agents.len() as u32 - 1)],
        agents: agents.to_vec(),
        rules: rules.to_vec(),
    }
}

/// The agents of "tell 1 at every instant", which is agent 3, with these agents on top.
fn telling(agents: &[u32], rules: &[u32]) -> Score {
    let mut draft = draft(&[&[tell(1), call(1), next(1), parallel(0, 2)], agents].concat(), rules);
    draft.procedures.push(procedure(3));
    draft
}

const QUIET: u32 = 0xC000_0000;
const CLASH: u32 = 0xC000_0001;
const ABORTED: u32 = 0xC000_0002;
const IN_0: u32 = 0xD000_0000;
const IN_2: u32 = 0xD000_0002;
const IN_3: u32 = 0xD000_0003;
const OUT_1: u32 = 0xE000_0001;
const OUT_2: u32 = 0xE000_0002;
const OUT_3: u32 = 0xE000_0003;

pub fn all() -> Vec<Played> {
    [stopping(), asking(), endings()].into_iter().flatten().collect()
}

fn stopping() -> Vec<Played> {
    let one = telling(&[watch(3, 2)], &[]);
    let two = telling(&[watch(3, 2), watch(4, 3)], &[]);
    let later = telling(&[watch(3, 2), next(4)], &[]);
    let own = telling(&[watch(3, 1)], &[]);
    let beside = telling(&[watch(3, 2), parallel(3, 4)], &[]);
    vec![
        played(
            "the body still runs in the instant in which the token is in the store",
            &one,
            &[&[], &[2], &[]],
            &[QUIET, OUT_1, QUIET, IN_2, OUT_1, OUT_2, QUIET],
        ),
        played(
            "the first of two tokens stops what stands under both",
            &two,
            &[&[], &[2], &[]],
            &[QUIET, OUT_1, QUIET, IN_2, OUT_1, OUT_2, QUIET],
        ),
        played(
            "the second of two tokens stops what stands under both",
            &two,
            &[&[], &[3], &[]],
            &[QUIET, OUT_1, QUIET, IN_3, OUT_1, OUT_3, QUIET],
        ),
        played(
            "a watch that begins later is not stopped by what was in the store before",
            &later,
            &[&[2], &[], &[2], &[]],
            &[QUIET, IN_2, OUT_2, QUIET, OUT_1, QUIET, IN_2, OUT_1, OUT_2, QUIET],
        ),
        played("an act that tells its own watch's token runs once", &own, &[&[], &[]], &[QUIET, OUT_1, QUIET]),
        played(
            "what is shared goes on where it stands under no watch",
            &beside,
            &[&[], &[2], &[]],
            &[QUIET, OUT_1, QUIET, IN_2, OUT_1, OUT_2, QUIET, OUT_1],
        ),
    ]
}

fn asking() -> Vec<Played> {
    let unless = draft(&[tell(1), unless(0, 3), watch(1, 2)], &[]);
    let when = draft(&[tell(1), when(0, 2), watch(1, 2)], &[]);
    vec![
        played("an unless under a watch: neither token", &unless, &[&[], &[]], &[QUIET, QUIET, OUT_1]),
        played("an unless under a watch: the watch's token", &unless, &[&[2], &[]], &[QUIET, IN_2, OUT_2, QUIET]),
        played("an unless under a watch: its own token", &unless, &[&[3], &[]], &[QUIET, IN_3, OUT_3, QUIET]),
        played(
            "a when asks for its own token, which is its watch's",
            &when,
            &[&[2], &[2]],
            &[QUIET, IN_2, OUT_1, OUT_2, QUIET, IN_2, OUT_2],
        ),
        played("a when that was not answered is gone", &when, &[&[], &[2]], &[QUIET, QUIET, IN_2, OUT_2]),
    ]
}

fn endings() -> Vec<Played> {
    let clash = telling(&[watch(3, 4)], &[rule(0, 2, 2)]);
    let beside = telling(&[watch(3, 4), parallel(3, 4)], &[rule(0, 2, 2)]);
    let clash_of_fact = telling(&[watch(3, 4)], &[fact(3), rule(0, 3, 2)]);
    let fact = telling(&[watch(3, 4)], &[fact(3), rule(4, 3, 3)]);
    let abort = telling(&[abort(), next(4), watch(5, 2), parallel(3, 6)], &[]);
    vec![
        played(
            "a clash stops all that stands under a watch",
            &clash,
            &[&[], &[2], &[]],
            &[QUIET, OUT_1, CLASH, IN_2, QUIET],
        ),
        played(
            "a clash stops nothing that stands under none",
            &beside,
            &[&[], &[2], &[]],
            &[QUIET, OUT_1, CLASH, IN_2, QUIET, OUT_1],
        ),
        played(
            "a fact that leads to the token stops after one instant",
            &fact,
            &[&[], &[]],
            &[QUIET, OUT_1, OUT_3, QUIET, OUT_3],
        ),
        played(
            "a fact is sent before a clash and after it, and what the clash stopped is not",
            &clash_of_fact,
            &[&[], &[2], &[]],
            &[QUIET, OUT_1, OUT_3, CLASH, IN_2, QUIET, OUT_3],
        ),
        played("a draft that clashes in its first instant sends nothing", &clash, &[&[0], &[]], &[CLASH, IN_0, QUIET]),
        played(
            "an abort under a watch ends the score",
            &abort,
            &[&[], &[3], &[2]],
            &[QUIET, OUT_1, ABORTED, IN_3, ABORTED, IN_2],
        ),
        played(
            "an abort that was stopped does not",
            &abort,
            &[&[2], &[], &[]],
            &[QUIET, IN_2, OUT_1, OUT_2, QUIET, OUT_1, QUIET, OUT_1],
        ),
    ]
}
