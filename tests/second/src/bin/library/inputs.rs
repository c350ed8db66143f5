//! Input lists: switches pressed as in a show.

use crate::builder::Token;
use crate::rig::{Rig, Winch};
use second::random::Random;
use std::collections::BTreeSet;

/// What can be pressed, and what can be reached.
#[derive(Default)]
pub struct Panel {
    /// In the order in which a show calls them.
    pub cues: Vec<Token>,
    /// The switch and the limit of each move of a winch.
    pub moves: Vec<(Token, Token)>,
    /// Pairs of switches that are not to be pressed at once.
    pub against: Vec<(Token, Token)>,
    pub estop: Option<Token>,
    pub reset: Option<Token>,
    pub fault: Option<Token>,
    /// Switches that are pressed now and then.
    pub others: Vec<Token>,
}

impl Panel {
    pub fn new(rig: &Rig) -> Panel {
        let moves = |winch: &Winch| [(winch.up_switch, winch.top), (winch.down_switch, winch.bottom)];
        Panel {
            moves: rig.winches.iter().flat_map(moves).collect(),
            against: rig.winches.iter().map(|winch| (winch.up_switch, winch.down_switch)).collect(),
            estop: rig.estop,
            reset: rig.reset,
            fault: rig.fault,
            ..Panel::default()
        }
    }
}

struct List<'a> {
    random: &'a mut Random,
    instants: Vec<BTreeSet<Token>>,
}

impl List<'_> {
    /// A press beyond the end is none.
    fn press(&mut self, at: u32, token: Token) {
        if let Some(instant) = self.instants.get_mut(at as usize) {
            instant.insert(token);
        }
    }

    fn place(&mut self) -> u32 {
        self.random.below(self.instants.len() as u32)
    }

    /// One after the other, some instants apart, and again from the first.
    fn cues(&mut self, cues: &[Token]) {
        let mut at = self.random.below(4);
        for &cue in cues.iter().cycle().take(self.instants.len()) {
            self.press(at, cue);
            at += self.random.between(1, 7);
        }
    }

    /// A switch is held for so many instants; at times the limit is reached at the end.
    fn hand(&mut self, at: u32, length: u32, (switch, limit): (Token, Token)) {
        for held in 0..length {
            self.press(at + held, switch);
        }
        if self.random.one_in(2) {
            self.press(at + length - 1, limit);
        }
    }

    /// One move after the other, with a pause after each in which a limit may be met.
    fn hands(&mut self, moves: &[(Token, Token)], longest_pause: u32) {
        let mut at = self.random.below(longest_pause);
        while (at as usize) < self.instants.len() {
            let (length, pause) = (self.random.between(1, 6), self.random.between(2, longest_pause));
            let hand = self.random.pick(moves);
            self.hand(at, length, hand);
            if self.random.one_in(2) {
                let (_, limit) = self.random.pick(moves);
                self.press(at + length + 1, limit);
            }
            at += length + pause;
        }
    }

    fn others(&mut self, others: &[Token]) {
        for at in 0..self.instants.len() as u32 {
            let token = self.random.pick(others);
            if self.random.one_in(3) {
                self.press(at, token);
            }
        }
    }

    fn emergency(&mut self, estop: Token, reset: Option<Token>) {
        let (at, length) = (self.place(), self.random.between(1, 3));
        for held in 0..length {
            self.press(at + held, estop);
        }
        if let Some(reset) = reset {
            let later = self.random.between(1, 5);
            self.press(at + length + later, reset);
        }
    }
}

/// The tokens of each instant; at times a show in which nothing is pressed.
pub fn list(random: &mut Random, panel: &Panel) -> Vec<BTreeSet<Token>> {
    let length = random.between(10, 60) as usize;
    let nothing = random.one_in(24);
    let mut list = List { random, instants: vec![BTreeSet::new(); length] };
    if nothing {
        return list.instants;
    }
    list.cues(&panel.cues);
    if !panel.moves.is_empty() {
        let longest_pause = if panel.cues.is_empty() { 6 } else { 24 };
        list.hands(&panel.moves, longest_pause);
    }
    if !panel.others.is_empty() {
        list.others(&panel.others);
    }
    troubles(&mut list, panel);
    list.instants
}

/// An emergency stop, two switches against each other, or a fault in the wiring: each in some lists.
fn troubles(list: &mut List, panel: &Panel) {
    if let Some(estop) = panel.estop.filter(|_| list.random.one_in(3)) {
        list.emergency(estop, panel.reset);
    }
    if !panel.against.is_empty() && list.random.one_in(6) {
        let (at, (one, other)) = (list.place(), list.random.pick(&panel.against));
        list.press(at, one);
        list.press(at, other);
    }
    if let Some(fault) = panel.fault.filter(|_| list.random.one_in(4)) {
        let at = list.instants.len() as u32 - list.random.between(1, 8);
        list.press(at, fault);
    }
}
