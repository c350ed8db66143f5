//! Shows of watched acts, as drafts: an act plays until the cue that ends it, and the whole show until the emergency
//! stop.

use crate::acts::{cues, stopped_root, Show};
use crate::builder::{Agent, Class, Procedure, Token};
use crate::stage::Stage;

/// Writes a show of so many acts, with the house before them.
pub fn show(stage: &mut Stage, count: u32) -> Show {
    let cues = cues(stage, count);
    let show = stage.score.declare("show");
    let names: Vec<String> = (0..=count).map(act_name).collect();
    let acts: Vec<Procedure> = names.iter().map(|name| stage.score.declare(name)).collect();
    let mut marks = Vec::new();
    for (at, &act) in acts.iter().enumerate() {
        let following = acts[(at + 1) % acts.len()];
        marks.push(define_act(stage, act, &names[at], cues[at], following));
    }
    let mut agents = vec![stage.score.call(acts[0])];
    if let (Some(estop), Some(reset)) = (stage.rig.estop, stage.rig.reset) {
        agents = vec![stage.score.watch(estop, agents[0]), stop_wait(stage, show, estop, reset)];
    }
    let root = stage.score.all(&agents);
    stage.score.define(show, root);
    Show { begins: stage.score.call(show), cues, marks }
}

fn act_name(number: u32) -> String {
    match number {
        0 => "house".to_string(),
        _ => format!("act{number}"),
    }
}

/// Waits for the emergency stop, and plays the show again after the reset.
fn stop_wait(stage: &mut Stage, show: Procedure, estop: Token, reset: Token) -> Agent {
    let (waits, stopped) = (stage.score.declare("stop-wait"), stage.score.declare("stopped"));
    let agents = [stage.score.when_next_call(estop, stopped), stage.score.unless_call(estop, waits)];
    let root = stage.score.all(&agents);
    stage.score.define(waits, root);
    let alarm = stage.score.token(Class::Output, "alarm");
    let root = stopped_root(stage.score, stage.rig, stopped, show, (alarm, reset));
    stage.score.define(stopped, root);
    stage.score.call(waits)
}

/// What plays is watched; what waits for the cue is not. The mark of the act.
fn define_act(stage: &mut Stage, act: Procedure, name: &str, cue: Token, following: Procedure) -> Token {
    let mark = stage.score.token(Class::Mark, name);
    let plays = plays(stage, name, mark);
    let mut agents = stage.entering_lines(2);
    agents.push(stage.score.call(plays));
    let watched = stage.score.all(&agents);
    let halves = [stage.score.watch(cue, watched), waits(stage, name, cue, following)];
    let root = stage.score.all(&halves);
    stage.score.define(act, root);
    mark
}

fn plays(stage: &mut Stage, name: &str, mark: Token) -> Procedure {
    let plays = stage.score.declare(&format!("{name}-play"));
    let mut agents = vec![stage.score.tell(mark)];
    agents.extend(stage.holding_lines(3));
    agents.push(stage.score.next_call(plays));
    let root = stage.score.all(&agents);
    stage.score.define(plays, root);
    plays
}

fn waits(stage: &mut Stage, name: &str, cue: Token, following: Procedure) -> Agent {
    let waits = stage.score.declare(&format!("{name}-wait"));
    let halves = [stage.score.when_next_call(cue, following), stage.score.unless_call(cue, waits)];
    let root = stage.score.all(&halves);
    stage.score.define(waits, root);
    stage.score.call(waits)
}
