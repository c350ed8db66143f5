//! What acts are made of: moves of winches, lamps and the like, one line of an act at a time.

use crate::builder::{Agent, Builder, Class, Token};
use crate::rig::{Moves, Rig, Winch};
use second::random::Random;

const EFFECTS: [&str; 16] = [
    "house-lights",
    "ring-lights",
    "spot-left",
    "spot-right",
    "fog",
    "bell",
    "mirror-ball",
    "blue-wash",
    "red-wash",
    "drum-roll",
    "band-lamp",
    "wind",
    "star-cloth",
    "exit-lamps",
    "strobe",
    "confetti",
];

const FACTS: [&str; 5] = ["king-pole", "season-2026", "net-up", "quarter-poles", "big-tent"];

pub struct Stage<'a> {
    pub score: &'a mut Builder,
    pub random: &'a mut Random,
    pub rig: &'a Rig,
    pub moves: Vec<Moves>,
    /// Lamps and the like.
    effects: Vec<Token>,
    /// Tokens that hold for the season.
    pub facts: Vec<Token>,
    /// Both of the first two winches are at the top.
    lifted: Option<Token>,
    /// Where the moves of an act go: up in one, down in the next.
    raises: bool,
}

/// Declares what the acts use beside the winches.
pub fn stage<'a>(score: &'a mut Builder, random: &'a mut Random, rig: &'a Rig, effects: u32) -> Stage<'a> {
    let moves = rig.winches.iter().map(|winch| crate::rig::moves(score, winch)).collect();
    let effects = self::effects(score, random, effects);
    let facts = facts(score, random);
    let lifted = lifted(score, &rig.winches);
    Stage { score, random, rig, moves, effects, facts, lifted, raises: false }
}

/// So many, with numbers in place of names where they are too many.
fn effects(score: &mut Builder, random: &mut Random, count: u32) -> Vec<Token> {
    if count as usize > EFFECTS.len() {
        return (1..=count).map(|number| score.token(Class::Output, &format!("lamp{number}"))).collect();
    }
    let first = random.below(EFFECTS.len() as u32);
    let name = |at: u32| EFFECTS[(first + at) as usize % EFFECTS.len()];
    (0..count).map(|at| score.token(Class::Output, name(at))).collect()
}

fn facts(score: &mut Builder, random: &mut Random) -> Vec<Token> {
    let count = random.below(3) as usize;
    let names = random.order(FACTS.len() as u32).into_iter().take(count).map(|at| FACTS[at as usize]);
    let facts: Vec<Token> = names.map(|name| score.token(Class::Mark, name)).collect();
    for &fact in &facts {
        score.fact(fact);
    }
    facts
}

fn lifted(score: &mut Builder, winches: &[Winch]) -> Option<Token> {
    let [one, other, ..] = winches else { return None };
    let lifted = score.token(Class::Mark, "lifted");
    score.both_give(one.top, other.top, lifted);
    Some(lifted)
}

impl Stage<'_> {
    pub fn effect(&mut self) -> Token {
        self.random.pick(&self.effects)
    }

    fn tell_effect(&mut self) -> Agent {
        let effect = self.effect();
        self.score.tell(effect)
    }

    fn winch(&mut self) -> usize {
        self.random.below(self.rig.winches.len() as u32) as usize
    }

    /// Raises or lowers a winch to its limit.
    fn moved(&mut self) -> Agent {
        let winch = self.winch();
        let Moves { raise, lower } = self.moves[winch];
        self.score.call(if self.raises { raise } else { lower })
    }

    /// Something that comes some instants later.
    fn later(&mut self) -> Agent {
        let mut agent = if self.random.one_in(3) { self.moved() } else { self.tell_effect() };
        for _ in 0..self.random.between(1, 4) {
            agent = self.score.next(agent);
        }
        agent
    }

    /// One line of what is done when an act begins.
    fn entering_line(&mut self) -> Agent {
        match self.random.below(5) {
            0 | 1 => self.moved(),
            2 => self.tell_effect(),
            _ => self.later(),
        }
    }

    /// One line of what is done in each instant of an act.
    pub fn holding_line(&mut self) -> Agent {
        let winch = &self.rig.winches[self.winch()];
        match self.random.below(9) {
            0 | 1 => self.tell_effect(),
            2 => self.lamp_for(winch.top),
            3 => self.lamp_for(winch.bottom),
            4 => self.lamp_for(winch.busy),
            5 => self.blinking(),
            6 => self.one_up_one_down(),
            7 => self.there_and_back(),
            _ => self.lamp_for(self.lifted.unwrap_or(winch.up)),
        }
    }

    fn lamp_for(&mut self, token: Token) -> Agent {
        let effect = self.effect();
        self.score.when_tell(token, effect)
    }

    /// On in every second instant.
    fn blinking(&mut self) -> Agent {
        let effect = self.effect();
        self.score.unless_tell(effect, effect)
    }

    /// A lamp for one winch that goes up while another goes down.
    fn one_up_one_down(&mut self) -> Agent {
        let (one, other) = (self.winch(), self.winch());
        let lamp = self.lamp_for(self.rig.winches[other].down);
        self.score.when(self.rig.winches[one].up, lamp)
    }

    /// Down again from the top, or up again from the bottom.
    fn there_and_back(&mut self) -> Agent {
        let winch = self.winch();
        let Moves { raise, lower } = self.moves[winch];
        let Winch { top, bottom, .. } = self.rig.winches[winch];
        match self.random.below(3) {
            0 => self.score.when_next_call(top, lower),
            1 => self.score.when_next_call(bottom, raise),
            _ => {
                let halves = [self.score.when_next_call(top, lower), self.score.when_next_call(bottom, raise)];
                self.score.all(&halves)
            }
        }
    }

    /// The lines of what is done when the next act begins.
    pub fn entering_lines(&mut self, most: u32) -> Vec<Agent> {
        self.raises = !self.raises;
        (0..self.random.between(1, most)).map(|_| self.entering_line()).collect()
    }

    pub fn holding_lines(&mut self, most: u32) -> Vec<Agent> {
        (0..self.random.between(1, most)).map(|_| self.holding_line()).collect()
    }

    /// An act that was taken out of the show and is still in its score.
    pub fn cut_act(&mut self, cue: Token) {
        let skip = self.score.skip();
        let mut agents = vec![self.score.when(cue, skip)];
        agents.extend(self.holding_lines(4));
        let act = self.score.all(&agents);
        if self.random.one_in(2) {
            let procedure = self.score.declare("old-bow");
            self.score.define(procedure, act);
        } else {
            self.score.leave_unused(act);
            self.score.name(act, "old-bow");
        }
    }
}
