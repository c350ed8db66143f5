//! What becomes of the agents in an instant, and which of them wait. The library does not say it: the score is walked
//! from the agents awake, with the store that the library found, and what comes out is checked against its answer.

use crate::library::{self, Instant, Map, Refusal, State, Status};
use crate::score::{Agent, Score};
use std::collections::BTreeSet;

/// The agents that an instant comes to, by what becomes of them.
#[derive(Default, PartialEq, Eq, Debug)]
pub struct Walk {
    pub reduced: BTreeSet<usize>,
    /// Every when that waits, every unless whose token did not come, every next.
    pub left: BTreeSet<usize>,
}

/// An instant that was played, with its walk and the state after it.
pub struct Step {
    pub instant: Instant,
    pub walk: Walk,
    pub after: State,
}

/// Why there is no step.
#[derive(Debug)]
pub enum Wrong {
    Refused(Refusal),
    /// What this program reads is not what the library answers.
    Differs,
}

/// Plays an instant of a score and walks it.
pub fn step(bytes: &[u8], score: &Score, before: &State, pressed: &Map) -> Result<Step, Wrong> {
    let mut after = *before;
    let instant = library::instant(bytes, &mut after, pressed).map_err(Wrong::Refused)?;
    let walk = walk(score, before, &instant, &after).ok_or(Wrong::Differs)?;
    Ok(Step { instant, walk, after })
}

/// Walks a score in an instant that was played, from the state before to the state after it: none where this reading is
/// not the library's, which is a fault of this program.
fn walk(score: &Score, before: &State, instant: &Instant, after: &State) -> Option<Walk> {
    let walk = match instant.status {
        Status::Aborted => Walk::default(),
        Status::Quiet | Status::Clash => reduce(score, before.awake(), &instant.store),
    };
    let told = walk.reduced.len() == instant.count as usize;
    let next = walk.next(score).into_iter().eq(after.awake());
    let aborts = walk.reduced.iter().any(|&agent| score.agents[agent] == Agent::Abort);
    (told && next && !aborts && after.aborted() == (instant.status == Status::Aborted)).then_some(walk)
}

/// Reduces agents, each once, with a store that all tokens have entered already.
fn reduce(score: &Score, awake: impl Iterator<Item = usize>, store: &Map) -> Walk {
    let mut walk = Walk::default();
    let mut tasks: Vec<usize> = awake.collect();
    while let Some(agent) = tasks.pop() {
        let inner: Option<Vec<usize>> = match score.agents[agent] {
            Agent::Skip | Agent::Abort | Agent::Tell(_) => Some(vec![]),
            Agent::Parallel(half, other) => Some(vec![half, other]),
            Agent::Call(procedure) => Some(vec![score.procedures[procedure].root()]),
            Agent::When(token, body) => store.has(token).then(|| vec![body]),
            Agent::Unless(token, _) => store.has(token).then(Vec::new),
            Agent::Next(_) | Agent::Watch(..) | Agent::Formless(_) => None,
        };
        match inner {
            Some(inner) if walk.reduced.insert(agent) => tasks.extend(inner),
            Some(_) => (),
            None => {
                walk.left.insert(agent);
            }
        }
    }
    walk
}

impl Walk {
    /// The agents that are awake in the next instant.
    fn next(&self, score: &Score) -> BTreeSet<usize> {
        let body = |&agent: &usize| match score.agents[agent] {
            Agent::Next(body) | Agent::Unless(_, body) => Some(body),
            _ => None,
        };
        self.left.iter().filter_map(body).collect()
    }

    /// The whens and unlesses that are left over, rising, each with its token.
    pub fn waiting<'a>(&'a self, score: &'a Score) -> impl Iterator<Item = (usize, u8)> + 'a {
        self.left.iter().filter_map(|&agent| match score.agents[agent] {
            Agent::When(token, _) | Agent::Unless(token, _) => Some((agent, token)),
            _ => None,
        })
    }
}

#[cfg(test)]
mod tests {
    use super::*;
    use crate::library;
    use crate::score::bytes;

    const SAMPLE: [u32; 9] =
        [0x10000403, 0xB0000302, 0x50000002, 0x70000400, 0xA0000000, 0x80000002, 0x60000C01, 0x30000004, 0x20030200];

    /// Plays instants of a score from its start: the walk of each.
    fn played(words: &[u32], inputs: &[&[u8]]) -> Vec<Walk> {
        let bytes = bytes(words.iter().copied());
        let score = Score::read(&bytes).unwrap();
        let mut state = State::start(&score);
        let mut one = |input: &[u8]| {
            let step = step(&bytes, &score, &state, &input.iter().copied().collect()).expect("the library's reading");
            state = step.after;
            step.walk
        };
        inputs.iter().map(|input| one(input)).collect()
    }

    #[test]
    fn the_sample_is_reduced_as_the_library_counts() {
        let walks = played(&SAMPLE, &[&[1], &[], &[1, 3]]);
        assert_eq!(walks.iter().map(|walk| walk.reduced.len()).collect::<Vec<_>>(), [3, 2, 4]);
        let score = Score::read(&bytes(SAMPLE)).unwrap();
        let waiting: Vec<Vec<_>> = walks.iter().map(|walk| walk.waiting(&score).collect()).collect();
        assert_eq!(waiting, [vec![], vec![(1, 1)], vec![]]);
    }

    #[test]
    fn an_unless_is_left_over_or_gone() {
        let words = [0x10000101, 0xB0000000, 0x50000001, 0x90000400, 0x30000001];
        assert_eq!(played(&words, &[&[]])[0].left, [1].into());
        assert_eq!(played(&words, &[&[1]])[0].reduced, [1].into());
    }

    #[test]
    fn an_abort_leaves_nothing() {
        let mut words = SAMPLE;
        words[2] = 0x40000001;
        assert_eq!(played(&words, &[&[1], &[]]), [Walk::default(), Walk::default()]);
    }

    #[test]
    fn another_answer_than_the_walk_is_seen() {
        let bytes = bytes(SAMPLE);
        let score = Score::read(&bytes).unwrap();
        let before = State::start(&score);
        let mut after = before;
        let mut instant = library::instant(&bytes, &mut after, &[1].into_iter().collect()).unwrap();
        assert!(walk(&score, &before, &instant, &before).is_none());
        instant.count += 1;
        assert!(walk(&score, &before, &instant, &after).is_none());
        instant.count -= 1;
        instant.store = Map::default();
        assert!(walk(&score, &before, &instant, &after).is_none());
        instant.status = Status::Aborted;
        assert!(walk(&score, &before, &instant, &after).is_none());
    }
}
