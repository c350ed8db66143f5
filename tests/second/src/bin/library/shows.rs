//! The scores of the library, by their numbers: the older the score, the lower its number.

use crate::acts::{self, Filling, Show};
use crate::builder::{Agent, Builder, Class, Nesting, Procedure, Style, Written, CLASH};
use crate::inputs::Panel;
use crate::order::Numbering;
use crate::rig::{self, Manner, Rig};
use crate::stage::{self, Stage};
use crate::{pieces, plain, titles, watched};
use second::random::Random;

/// A score with what it is called, and what can be pressed while it plays.
pub struct Entry {
    pub title: String,
    pub written: Written,
    pub panel: Panel,
}

/// The last number of the old scores, and of the test pieces among them.
pub const LAST_OLD: u32 = 100;
const LAST_PIECE: u32 = 30;

/// Each score of so many is a tour, which comes near the limits.
const TOUR_EVERY: u32 = 39;

pub fn entry(random: &mut Random, number: u32) -> Entry {
    let style = style(random, number);
    if number.is_multiple_of(TOUR_EVERY) {
        return tour(random, style);
    }
    if number <= LAST_PIECE && random.one_in(2) {
        return piece(random, style);
    }
    match random.below(10) {
        0..=2 => by_hand(random, style),
        3..=7 => show(random, style),
        _ => watched_show(random, style),
    }
}

/// How the compiler of that time wrote scores down.
fn style(random: &mut Random, number: u32) -> Style {
    use Class::*;
    let odd = random.one_in(if number <= LAST_OLD { 2 } else { 6 });
    let numberings = [Numbering::SecondHalfFirst, Numbering::LastProcedureFirst, Numbering::LeavesFirst];
    let layouts = [[Switch, Limit, Output, Mark], [Output, Switch, Limit, Mark], [Mark, Limit, Output, Switch]];
    Style {
        numbering: if odd { random.pick(&numberings) } else { Numbering::Natural },
        nesting: random.pick(&[Nesting::Left, Nesting::Right, Nesting::Right, Nesting::Even]),
        swaps_halves: odd && random.one_in(2),
        shares_equal: random.one_in(6),
        unused_first: random.one_in(2),
        layout: if odd { random.pick(&layouts) } else { layouts[0] },
    }
}

fn piece(random: &mut Random, style: Style) -> Entry {
    let mut score = Builder::new(style);
    let (title, panel) = pieces::piece(&mut score, random);
    Entry { title: title.to_string(), written: score.written(), panel }
}

fn some_winches(random: &mut Random) -> u32 {
    random.pick(&[1, 1, 2, 2, 2, 3, 3, 4, 5, 6, 8])
}

/// Winches that are worked by hand alone.
fn by_hand(random: &mut Random, style: Style) -> Entry {
    let mut score = Builder::new(style);
    let main = score.declare("main");
    let (winches, manner) = (some_winches(random), random.pick(&[Manner::Direct, Manner::Limited, Manner::Latched]));
    let rig = rig::rig(&mut score, random, winches, manner, false);
    let mut agents = if manner != Manner::Latched && random.one_in(2) {
        all_in_main(&mut score, random, &rig, main)
    } else {
        winch_by_winch(&mut score, random, &rig)
    };
    agents.extend(rig::guard(&mut score, &rig));
    let root = score.all(&agents);
    score.define(main, root);
    Entry { title: titles::of_show(random, winches), written: score.written(), panel: Panel::new(&rig) }
}

/// What every winch does at an emergency stop where no rule does it: one agent for all of them.
fn stop_all(score: &mut Builder, rig: &Rig) -> Option<Agent> {
    let estop = rig.estop.filter(|_| !rig.brakes_by_rule)?;
    let brakes = rig::all_brakes(score, rig);
    let stop = score.when(estop, brakes);
    score.name(stop, "stop-all");
    Some(stop)
}

fn lamp_for(score: &mut Builder, random: &mut Random, rig: &Rig, winch: usize) -> Option<Agent> {
    let winch = &rig.winches[winch];
    random.one_in(2).then(|| {
        let lamp = score.token(Class::Output, &format!("{}.lamp", winch.name));
        score.when_tell(winch.busy, lamp)
    })
}

/// One procedure, which calls itself for the next instant.
fn all_in_main(score: &mut Builder, random: &mut Random, rig: &Rig, main: Procedure) -> Vec<Agent> {
    let mut agents = Vec::new();
    for (at, winch) in rig.winches.iter().enumerate() {
        agents.extend(rig::by_hand(score, rig, winch));
        agents.extend(lamp_for(score, random, rig, at));
    }
    agents.extend(stop_all(score, rig));
    agents.push(score.next_call(main));
    agents
}

/// A procedure for each winch; they share what is done at an emergency stop.
fn winch_by_winch(score: &mut Builder, random: &mut Random, rig: &Rig) -> Vec<Agent> {
    let stop = stop_all(score, rig);
    let mut agents = Vec::new();
    for (at, winch) in rig.winches.iter().enumerate() {
        let more: Vec<Agent> = lamp_for(score, random, rig, at).into_iter().chain(stop).collect();
        let procedure = rig::hand_procedure(score, rig, winch, &more);
        agents.push(score.call(procedure));
    }
    agents
}

/// Writes a show with winches that are worked by hand beside it.
fn staged(
    score: &mut Builder,
    random: &mut Random,
    winches: u32,
    effects: u32,
    write: impl FnOnce(&mut Stage) -> Show,
) -> (Panel, Show, Rig) {
    let main = score.declare("main");
    let manner = random.pick(&[Manner::Direct, Manner::Limited]);
    let rig = rig::rig(score, random, winches, manner, true);
    let mut agents: Vec<Agent> = Vec::new();
    for winch in &rig.winches {
        let procedure = rig::hand_procedure(score, &rig, winch, &[]);
        agents.push(score.call(procedure));
    }
    agents.extend(rig::guard(score, &rig));
    let mut stage = stage::stage(score, random, &rig, effects);
    let show = write(&mut stage);
    agents.push(begins(&mut stage, &show));
    let root = score.all(&agents);
    score.define(main, root);
    (Panel { cues: show.cues.clone(), ..Panel::new(&rig) }, show, rig)
}

/// At times a show begins only where a fact of the season holds, and that fact adds to an act.
fn begins(stage: &mut Stage, show: &Show) -> Agent {
    let Some(&fact) = stage.facts.first() else { return show.begins };
    let (mark, effect) = (stage.random.pick(&show.marks), stage.effect());
    stage.score.both_give(fact, mark, effect);
    stage.score.when(fact, show.begins)
}

fn show(random: &mut Random, style: Style) -> Entry {
    let mut score = Builder::new(style);
    let (winches, effects) = (some_winches(random), random.between(2, 6));
    let (count, lines) = (random.between(2, 6), random.between(1, 4));
    let (panel, ..) = staged(&mut score, random, winches, effects, |stage| {
        let show = acts::show(stage, count, Filling::Lines(lines));
        if stage.random.one_in(5) {
            stage.cut_act(show.cues[0]);
        }
        show
    });
    Entry { title: titles::of_show(random, winches), written: score.written(), panel }
}

/// Written as a draft, and translated.
fn watched_show(random: &mut Random, style: Style) -> Entry {
    let mut score = Builder::new(style);
    let (winches, effects, count) = (random.between(1, 3), random.between(2, 6), random.between(1, 5));
    let (panel, ..) = staged(&mut score, random, winches, effects, |stage| watched::show(stage, count));
    Entry { title: titles::of_show(random, winches), written: plain::plain(score.written()), panel }
}

/// A whole evening with all winches, which takes nearly all that a score can have.
fn tour(random: &mut Random, style: Style) -> Entry {
    let mut score = Builder::new(Style { shares_equal: false, ..style });
    let (count, effects) = (random.between(14, 15), random.between(95, 115));
    let (agents, rules) = (random.between(995, 1_005) as usize, random.between(205, 250) as usize);
    let (panel, show, rig) =
        staged(&mut score, random, 8, effects, |stage| acts::show(stage, count, Filling::Agents(agents)));
    let against = [rig::truss(&rig.winches), acts::pairs(&show.marks)].concat();
    for (one, other) in against.into_iter().take(rules.saturating_sub(score.rule_count())) {
        score.both_give(one, other, CLASH);
    }
    Entry { title: titles::of_tour(random), written: score.written(), panel }
}
