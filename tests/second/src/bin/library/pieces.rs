//! The oldest scores: test pieces of a few agents, from the first days with a winch.

use crate::builder::{Builder, Class, Token, CLASH};
use crate::inputs::Panel;
use second::random::Random;

type Piece = fn(&mut Builder) -> Panel;

const PIECES: [(&str, Piece); 8] = [
    ("lamp-and-bell", lamp_and_bell),
    ("lamp-test", lamp_test),
    ("blink-test", blink_test),
    ("first-winch", first_winch),
    ("brake-test", brake_test),
    ("limit-test", limit_test),
    ("wiring-test", wiring_test),
    ("cue-test", cue_test),
];

/// A piece, and what it is called.
pub fn piece(score: &mut Builder, random: &mut Random) -> (&'static str, Panel) {
    let (title, write) = random.pick(&PIECES);
    (title, write(score))
}

fn panel(others: &[Token]) -> Panel {
    Panel { others: others.to_vec(), ..Panel::default() }
}

/// Both at once, and then nothing.
fn lamp_and_bell(score: &mut Builder) -> Panel {
    let (lamp, bell) = (score.token(Class::Output, "lamp"), score.token(Class::Output, "bell"));
    let main = score.declare("main");
    let halves = [score.tell(lamp), score.tell(bell)];
    let root = score.all(&halves);
    score.define(main, root);
    panel(&[])
}

fn lamp_test(score: &mut Builder) -> Panel {
    let (key, lamp) = (score.token(Class::Switch, "key"), score.token(Class::Output, "lamp"));
    let main = score.declare("main");
    let halves = [score.when_tell(key, lamp), score.next_call(main)];
    let root = score.all(&halves);
    score.define(main, root);
    panel(&[key])
}

fn blink_test(score: &mut Builder) -> Panel {
    let lamp = score.token(Class::Output, "lamp");
    let (on, off) = (score.declare("on"), score.declare("off"));
    let halves = [score.tell(lamp), score.next_call(off)];
    let root = score.all(&halves);
    score.define(on, root);
    let root = score.next_call(on);
    score.define(off, root);
    panel(&[])
}

fn first_winch(score: &mut Builder) -> Panel {
    let (up_switch, down_switch) = (score.token(Class::Switch, "up-switch"), score.token(Class::Switch, "down-switch"));
    let (up, down) = (score.token(Class::Output, "up"), score.token(Class::Output, "down"));
    let main = score.declare("main");
    let agents = [score.when_tell(up_switch, up), score.when_tell(down_switch, down), score.next_call(main)];
    let root = score.all(&agents);
    score.define(main, root);
    score.both_give(up, down, CLASH);
    panel(&[up_switch, down_switch])
}

fn brake_test(score: &mut Builder) -> Panel {
    let (estop, brake) = (score.token(Class::Switch, "estop"), score.token(Class::Output, "brake"));
    let king_pole = score.token(Class::Mark, "king-pole");
    let main = score.declare("main");
    let braking = score.when_tell(estop, brake);
    let halves = [score.when(king_pole, braking), score.next_call(main)];
    let root = score.all(&halves);
    score.define(main, root);
    score.fact(king_pole);
    panel(&[estop])
}

/// Up to the top, once.
fn limit_test(score: &mut Builder) -> Panel {
    let (top, up) = (score.token(Class::Limit, "top"), score.token(Class::Output, "up"));
    let main = score.declare("main");
    let halves = [score.tell(up), score.unless_call(top, main)];
    let root = score.all(&halves);
    score.define(main, root);
    panel(&[top])
}

fn wiring_test(score: &mut Builder) -> Panel {
    let (fault, lamp) = (score.token(Class::Limit, "wiring-fault"), score.token(Class::Output, "lamp"));
    let main = score.declare("main");
    let abort = score.abort();
    let agents = [score.when(fault, abort), score.tell(lamp), score.next_call(main)];
    let root = score.all(&agents);
    score.define(main, root);
    Panel { fault: Some(fault), ..Panel::default() }
}

fn cue_test(score: &mut Builder) -> Panel {
    let (cue, bell) = (score.token(Class::Switch, "cue1"), score.token(Class::Output, "bell"));
    let (main, rings) = (score.declare("main"), score.declare("ring"));
    let halves = [score.when_next_call(cue, rings), score.unless_call(cue, main)];
    let root = score.all(&halves);
    score.define(main, root);
    let root = score.tell(bell);
    score.define(rings, root);
    Panel { cues: vec![cue], ..Panel::default() }
}
