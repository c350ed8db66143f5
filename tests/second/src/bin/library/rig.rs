//! The winches of a show: their switches, limits and drive commands, what is done with them by hand, and their rules.

use crate::builder::{Agent, Builder, Class, Procedure, Token, CLASH};
use second::random::Random;

pub struct Winch {
    pub name: String,
    pub up_switch: Token,
    pub down_switch: Token,
    pub top: Token,
    pub bottom: Token,
    pub up: Token,
    pub down: Token,
    pub brake: Token,
    /// Follows from up and from down; where they come an instant after the switches, from these too.
    pub busy: Token,
    /// Follow from the limits, from the emergency stop and from every cue; or they are the limits.
    stop_up: Token,
    stop_down: Token,
}

/// How a winch answers its switches.
#[derive(Clone, Copy, PartialEq, Eq)]
pub enum Manner {
    /// In the same instant.
    Direct,
    /// In the next instant, unless at a limit.
    Limited,
    /// With a procedure for each of standing, going up and going down.
    Latched,
}

pub struct Rig {
    pub winches: Vec<Winch>,
    pub estop: Option<Token>,
    pub reset: Option<Token>,
    /// Ends the score for good.
    pub fault: Option<Token>,
    /// Follows from every cue.
    pub go: Option<Token>,
    manner: Manner,
    /// The emergency stop brakes by rules, and needs no agents for it.
    pub brakes_by_rule: bool,
}

const WINCH_NAMES: [&str; 8] = ["winch", "winch", "winch", "winch", "hoist", "motor", "drum", "lift"];

/// Declares the tokens of a rig, with one for the cues where it plays a show.
pub fn rig(score: &mut Builder, random: &mut Random, winches: u32, manner: Manner, plays_show: bool) -> Rig {
    let estop = (!random.one_in(5)).then(|| score.token(Class::Switch, "estop"));
    let reset = estop.map(|_| score.token(Class::Switch, "reset"));
    let fault = random.one_in(3).then(|| score.token(Class::Limit, "wiring-fault"));
    let go = plays_show.then(|| score.token(Class::Mark, "go"));
    let has_stops = go.is_some() || (estop.is_some() && manner != Manner::Direct);
    let name = random.pick(&WINCH_NAMES);
    let winches = (1..=winches).map(|number| winch(score, &format!("{name}{number}"), has_stops)).collect();
    let rig = Rig { winches, estop, reset, fault, go, manner, brakes_by_rule: random.one_in(2) };
    for winch in &rig.winches {
        drive_rules(score, manner, winch);
        stop_rules(score, &rig, winch);
    }
    if random.one_in(3) {
        cut_drives(score, &rig);
    }
    rig
}

fn winch(score: &mut Builder, name: &str, has_stops: bool) -> Winch {
    let mut token = |class, what: &str| score.token(class, &format!("{name}.{what}"));
    let (top, bottom) = (token(Class::Limit, "top"), token(Class::Limit, "bottom"));
    let mut stop = |what, limit| if has_stops { token(Class::Mark, what) } else { limit };
    let (stop_up, stop_down) = (stop("stop-up", top), stop("stop-down", bottom));
    Winch {
        name: name.to_string(),
        up_switch: token(Class::Switch, "up-switch"),
        down_switch: token(Class::Switch, "down-switch"),
        top,
        bottom,
        up: token(Class::Output, "up"),
        down: token(Class::Output, "down"),
        brake: token(Class::Output, "brake"),
        busy: token(Class::Mark, "busy"),
        stop_up,
        stop_down,
    }
}

fn drive_rules(score: &mut Builder, manner: Manner, winch: &Winch) {
    score.both_give(winch.up, winch.down, CLASH);
    for (switch, drive, limit) in
        [(winch.up_switch, winch.up, winch.top), (winch.down_switch, winch.down, winch.bottom)]
    {
        score.gives(drive, winch.busy);
        score.both_give(drive, limit, winch.brake);
        if manner == Manner::Limited {
            score.gives(switch, winch.busy);
            score.both_give(switch, limit, winch.brake);
        }
    }
}

fn stop_rules(score: &mut Builder, rig: &Rig, winch: &Winch) {
    if winch.stop_up != winch.top {
        let causes = rig.estop.into_iter().chain(rig.go);
        stops(score, causes.clone().chain([winch.top]), winch.stop_up);
        stops(score, causes.chain([winch.bottom]), winch.stop_down);
    }
    if let Some(estop) = rig.estop.filter(|_| rig.brakes_by_rule) {
        score.gives(estop, winch.brake);
    }
    if let Some(fault) = rig.fault {
        score.both_give(winch.top, winch.bottom, fault);
    }
}

/// At an emergency stop a moving drive is told nothing. Not where a fault aborts: a clash has every token, also that.
fn cut_drives(score: &mut Builder, rig: &Rig) {
    if let (Some(estop), None) = (rig.estop, rig.fault) {
        for winch in &rig.winches {
            score.both_give(estop, winch.busy, CLASH);
        }
    }
}

fn stops(score: &mut Builder, causes: impl Iterator<Item = Token>, stop: Token) {
    for cause in causes {
        score.gives(cause, stop);
    }
}

/// What a winch does by hand in each instant.
pub fn by_hand(score: &mut Builder, rig: &Rig, winch: &Winch) -> Vec<Agent> {
    let moves = [(winch.up_switch, winch.stop_up, winch.up), (winch.down_switch, winch.stop_down, winch.down)];
    let mut agents: Vec<Agent> =
        moves.map(|(switch, stop, drive)| answer(score, rig.manner, switch, stop, drive)).to_vec();
    agents.push(score.unless_tell(winch.busy, winch.brake));
    agents
}

fn answer(score: &mut Builder, manner: Manner, switch: Token, stop: Token, drive: Token) -> Agent {
    if manner == Manner::Direct {
        return score.when_tell(switch, drive);
    }
    let later = score.unless_tell(stop, drive);
    score.when(switch, later)
}

/// A procedure that works a winch by hand, with more to do in each of its instants.
pub fn hand_procedure(score: &mut Builder, rig: &Rig, winch: &Winch, more: &[Agent]) -> Procedure {
    let stands = score.declare(&winch.name);
    if rig.manner == Manner::Latched {
        latched(score, winch, stands, more);
    } else {
        let mut agents = by_hand(score, rig, winch);
        agents.extend(more);
        agents.push(score.next_call(stands));
        let root = score.all(&agents);
        score.define(stands, root);
    }
    stands
}

fn latched(score: &mut Builder, winch: &Winch, stands: Procedure, more: &[Agent]) {
    let pressed = score.token(Class::Mark, &format!("{}.pressed", winch.name));
    let mut agents = vec![score.tell(winch.brake)];
    let moves = [
        ("raising", winch.up_switch, winch.stop_up, winch.up),
        ("lowering", winch.down_switch, winch.stop_down, winch.down),
    ];
    for (what, switch, stop, drive) in moves {
        score.gives(switch, pressed);
        let moves = score.declare(&format!("{}-{what}", winch.name));
        while_pressed(score, moves, stands, switch, stop, drive);
        agents.push(score.when_next_call(switch, moves));
    }
    agents.extend(more);
    agents.push(score.unless_call(pressed, stands));
    let root = score.all(&agents);
    score.define(stands, root);
}

/// Goes on while the switch is pressed, and stands again when it is let go or at a stop.
fn while_pressed(score: &mut Builder, moves: Procedure, stands: Procedure, switch: Token, stop: Token, drive: Token) {
    let told = score.tell(drive);
    let again = score.unless_call(stop, moves);
    let agents =
        [told, score.when(switch, again), score.unless_call(switch, stands), score.when_next_call(stop, stands)];
    let root = score.all(&agents);
    score.define(moves, root);
}

/// The procedures that raise and lower a winch to its limits.
pub struct Moves {
    pub raise: Procedure,
    pub lower: Procedure,
}

pub fn moves(score: &mut Builder, winch: &Winch) -> Moves {
    let mut to_stop = |what, drive, stop| {
        let procedure = score.declare(&format!("{}-{what}", winch.name));
        let agents = [score.tell(drive), score.unless_call(stop, procedure)];
        let root = score.all(&agents);
        score.define(procedure, root);
        procedure
    };
    Moves { raise: to_stop("raise", winch.up, winch.stop_up), lower: to_stop("lower", winch.down, winch.stop_down) }
}

/// The brakes of all winches, one agent for all places that want it.
pub fn all_brakes(score: &mut Builder, rig: &Rig) -> Agent {
    let brakes: Vec<Agent> = rig.winches.iter().map(|winch| score.tell(winch.brake)).collect();
    let agent = score.all(&brakes);
    score.name(agent, "all-brakes");
    agent
}

/// Watches the wiring in each instant, where there is a token for it.
pub fn guard(score: &mut Builder, rig: &Rig) -> Option<Agent> {
    let fault = rig.fault?;
    let guard = score.declare("guard");
    let abort = score.abort();
    let agents = [score.when(fault, abort), score.next_call(guard)];
    let root = score.all(&agents);
    score.define(guard, root);
    Some(score.call(guard))
}

/// Winches that carry one truss do not go against each other.
pub fn truss(winches: &[Winch]) -> Vec<(Token, Token)> {
    let against = |one: &Winch, other: &Winch| [(one.up, other.down), (one.down, other.up)];
    (1..winches.len()).flat_map(|at| (0..at).flat_map(move |other| against(&winches[other], &winches[at]))).collect()
}
