//! A list of calls on one state, as the document's third demand tells it: each order starts with the copies that a
//! finished order of the instant before left awake.

use crate::decoded::{Agent, Decoded, Token};
use crate::engine::{self, End};
use crate::lent::{Awake, State};
use crate::random::Random;

/// More copies than these are cut down to one of each agent, which the demand allows at the first instant only; so
/// that is where a new list begins.
const MOST_COPIES: usize = 200;

pub struct Sequence<'a> {
    score: &'a Decoded,
    /// The copies awake, or nothing once aborted.
    awake: Option<Vec<Agent>>,
    /// How many instants were run since the start.
    number: u32,
}

impl Sequence<'_> {
    /// Starts with one or more copies of each agent awake.
    pub fn start<'a>(score: &'a Decoded, awake: &[Agent], number: u32, random: &mut Random) -> Sequence<'a> {
        let copies = awake.iter().flat_map(|&agent| vec![agent; random.pick(&[1, 1, 2, 3])]).collect();
        Sequence { score, awake: Some(copies), number }
    }

    /// What the end of an instant at a number leaves awake.
    pub fn after<'a>(score: &'a Decoded, end: &End, number: u32) -> Sequence<'a> {
        Sequence { score, awake: left_awake(end), number: number + 1 }
    }

    /// The end of the next instant, by a random order. There is none at the last number.
    pub fn instant(&mut self, inputs: &[Token], random: &mut Random) -> End {
        self.number = self.number.checked_add(1).expect("no instant is run at the last number");
        let Some(copies) = &mut self.awake else { return End::Abort };
        if copies.len() > MOST_COPIES {
            copies.dedup();
        }
        let end = engine::instant(self.score, copies, inputs, random);
        self.awake = left_awake(&end);
        end
    }

    /// The state that the copies awake stand for.
    pub fn state(&self) -> State {
        let awake = match &self.awake {
            None => Awake::Aborted,
            Some(copies) => Awake::Running(copies.iter().copied().collect()),
        };
        State { awake, number: self.number }
    }
}

fn left_awake(end: &End) -> Option<Vec<Agent>> {
    match end {
        End::Abort => None,
        End::Quiet { awake, .. } => Some(awake.clone()),
    }
}
