//! Shows of acts that hold until their cue: each act is entered once, and then calls itself until it is left.

use crate::builder::{Agent, Builder, Class, Procedure, Token};
use crate::rig::{self, Rig};
use crate::stage::Stage;

struct Act {
    mark: Token,
    /// Follows from the cue that ends it and from the emergency stop; without that it is the cue.
    leave: Token,
    holds: Procedure,
    /// Where acts are entered by procedures.
    enters: Option<Procedure>,
}

struct Acts {
    acts: Vec<Act>,
    cues: Vec<Token>,
    /// Before the first act and after the last.
    house: Procedure,
    /// What each act does at an emergency stop, shared by them.
    stops: Vec<Agent>,
    /// What is done when each act begins.
    entries: Vec<Agent>,
}

/// A show that is written: the agent that begins it, its cues in their order, and the marks of its acts.
pub struct Show {
    pub begins: Agent,
    pub cues: Vec<Token>,
    pub marks: Vec<Token>,
}

/// How large the acts are to be: lines beside what every act has, or agents of the whole score.
#[derive(Clone, Copy)]
pub enum Filling {
    Lines(u32),
    Agents(usize),
}

/// Cues for so many acts and one to end them. Each of them ends the moves that are under way.
pub fn cues(stage: &mut Stage, acts: u32) -> Vec<Token> {
    let cues: Vec<Token> =
        (1..=acts + 1).map(|number| stage.score.token(Class::Switch, &format!("cue{number}"))).collect();
    if let Some(go) = stage.rig.go {
        for &cue in &cues {
            stage.score.gives(cue, go);
        }
    }
    cues
}

/// Writes a show of so many acts.
pub fn show(stage: &mut Stage, count: u32, filling: Filling) -> Show {
    let cues = cues(stage, count);
    let house = stage.score.declare("house");
    let by_procedures = stage.random.one_in(2) || matches!(filling, Filling::Agents(_));
    let acts = (0..count as usize).map(|at| act(stage, at, cues[at + 1], by_procedures)).collect();
    let stops = stops(stage, house, count);
    let mut acts = Acts { acts, cues, house, stops, entries: vec![] };
    for at in 0..count as usize {
        let entry = entry(stage, &acts.acts[at]);
        acts.entries.push(entry);
    }
    define_house(stage, &acts);
    let before = stage.score.agent_count();
    for at in 0..acts.acts.len() {
        define_act(stage, &acts, at, goal(filling, before, at + 1, acts.acts.len()));
    }
    let marks = acts.acts.iter().map(|act| act.mark).collect();
    Show { begins: stage.score.call(house), cues: acts.cues, marks }
}

/// The agents that there are to be after so many of the acts.
fn goal(filling: Filling, before: usize, acts: usize, all: usize) -> Filling {
    match filling {
        Filling::Agents(agents) => Filling::Agents(before + agents.saturating_sub(before) * acts / all),
        lines => lines,
    }
}

fn act(stage: &mut Stage, at: usize, next_cue: Token, by_procedure: bool) -> Act {
    let number = at + 1;
    let mark = stage.score.token(Class::Mark, &format!("act{number}"));
    let leave = match stage.rig.estop {
        None => next_cue,
        Some(estop) => {
            let leave = stage.score.token(Class::Mark, &format!("leave{number}"));
            stage.score.gives(next_cue, leave);
            stage.score.gives(estop, leave);
            leave
        }
    };
    if !by_procedure {
        return Act { mark, leave, holds: stage.score.declare(&format!("act{number}")), enters: None };
    }
    let enters = stage.score.declare(&format!("act{number}"));
    Act { mark, leave, holds: stage.score.declare(&format!("act{number}-hold")), enters: Some(enters) }
}

/// Procedures of an emergency stop, and the agents that call them.
const STOPS: [(&str, &str); 3] =
    [("stopped", "stop-all"), ("stopped-ring", "stop-ring"), ("stopped-dome", "stop-dome")];

/// What is done at an emergency stop: at times by several procedures that have one root.
fn stops(stage: &mut Stage, house: Procedure, acts: u32) -> Vec<Agent> {
    let (Some(estop), Some(reset)) = (stage.rig.estop, stage.rig.reset) else { return vec![] };
    let count = stage.random.pick(&[1, 1, 2, 3]).min(acts as usize);
    let stopped: Vec<Procedure> = STOPS[..count].iter().map(|(name, _)| stage.score.declare(name)).collect();
    let alarm = stage.score.token(Class::Output, "alarm");
    let root = stopped_root(stage.score, stage.rig, stopped[0], house, (alarm, reset));
    let mut stops = Vec::new();
    for (procedure, (_, name)) in stopped.into_iter().zip(STOPS) {
        stage.score.define(procedure, root);
        let stop = stage.score.when_next_call(estop, procedure);
        stage.score.name(stop, name);
        stops.push(stop);
    }
    stops
}

/// Brakes and an alarm until the reset.
pub fn stopped_root(
    score: &mut Builder,
    rig: &Rig,
    again: Procedure,
    after: Procedure,
    (alarm, reset): (Token, Token),
) -> Agent {
    let brakes = rig::all_brakes(score, rig);
    let agents = [brakes, score.tell(alarm), score.when_next_call(reset, after), score.unless_call(reset, again)];
    score.all(&agents)
}

/// Begins an act: calls the procedure that enters it, or has what that would have.
fn entry(stage: &mut Stage, act: &Act) -> Agent {
    if let Some(enters) = act.enters {
        return stage.score.call(enters);
    }
    entering(stage, act, 2)
}

fn entering(stage: &mut Stage, act: &Act, most_lines: u32) -> Agent {
    let mut agents = stage.entering_lines(most_lines);
    agents.push(stage.score.call(act.holds));
    stage.score.all(&agents)
}

fn define_house(stage: &mut Stage, acts: &Acts) {
    let lights = stage.effect();
    let first = stage.score.next(acts.entries[0]);
    let cue = acts.cues[0];
    let agents = [stage.score.tell(lights), stage.score.when(cue, first), stage.score.unless_call(cue, acts.house)];
    let root = stage.score.all(&agents);
    stage.score.define(acts.house, root);
}

fn define_act(stage: &mut Stage, acts: &Acts, at: usize, goal: Filling) {
    let act = &acts.acts[at];
    if let Some(enters) = act.enters {
        let root = entering(stage, act, 3);
        stage.score.define(enters, root);
    }
    let cue = acts.cues[at + 1];
    let following = match acts.entries.get(at + 1) {
        Some(&entry) => stage.score.next(entry),
        None => stage.score.next_call(acts.house),
    };
    let mut agents = vec![stage.score.tell(act.mark)];
    let mut last = vec![stage.score.when(cue, following), stage.score.unless_call(act.leave, act.holds)];
    if !acts.stops.is_empty() {
        last.insert(0, acts.stops[at % acts.stops.len()]);
    }
    fill(stage, &mut agents, last.len(), goal);
    agents.extend(last);
    let root = stage.score.all(&agents);
    stage.score.define(act.holds, root);
}

/// Adds lines. A parallel is still to come for each of the act's agents but one.
fn fill(stage: &mut Stage, agents: &mut Vec<Agent>, to_come: usize, goal: Filling) {
    match goal {
        Filling::Lines(most) => agents.extend(stage.holding_lines(most)),
        Filling::Agents(wanted) => {
            while stage.score.agent_count() + agents.len() + to_come < wanted {
                agents.push(stage.holding_line());
            }
        }
    }
}

/// Pairs of acts, which do not play at once.
pub fn pairs(marks: &[Token]) -> Vec<(Token, Token)> {
    (1..marks.len()).flat_map(|at| (0..at).map(move |other| (marks[other], marks[at]))).collect()
}
