//! Prints a score as text. The same score, with the same names, always prints alike.

use super::comments::{Anchor, Comments};
use super::layout::Layout;
use super::Places;
use crate::names::{Names, CLASH};
use crate::score::{Agent, Part, Ports, Procedure, Rule, Score};
use std::ops::Range;

const INDENT: usize = 4;

/// An agent's body begins a line of its own past this many characters.
const WIDTH: usize = 72;

/// A score as text, and where each of its words stands there.
pub struct Listing {
    pub text: String,
    pub places: Places,
}

pub fn print(score: &Score, names: &Names, comments: &Comments) -> Listing {
    let mut printer = Printer::new(score, names, comments);
    printer.tokens();
    printer.ports();
    for procedure in 0..score.procedures.len() {
        printer.procedure(procedure);
    }
    printer.unused();
    printer.rules();
    printer.before(Anchor::End, 0);
    Listing { text: printer.text, places: printer.places }
}

/// An agent in part of a line: what it says up to where it runs several agents at once, or the line gets long.
pub fn brief(score: &Score, names: &Names, agent: usize) -> String {
    let (mut said, mut at) = (head(score.agents[agent], names), agent);
    loop {
        let mut inner = score.agents[at].inner();
        match (inner.next(), inner.next()) {
            (Some(body), None) if said.len() <= WIDTH => {
                said = format!("{said} {}", head(score.agents[body], names));
                at = body;
            }
            (None, _) => return said,
            _ => return said + " ...",
        }
    }
}

/// An agent without its body or halves.
fn head(agent: Agent, names: &Names) -> String {
    match agent {
        Agent::Skip => "skip".into(),
        Agent::Abort => "abort".into(),
        Agent::Tell(token) => format!("tell {}", names.token(token)),
        Agent::Parallel(..) => "parallel".into(),
        Agent::When(token, _) => format!("when {}", names.token(token)),
        Agent::Next(_) => "next".into(),
        Agent::Unless(token, _) => format!("unless {}", names.token(token)),
        Agent::Call(procedure) => format!("call {}", names.procedure(procedure)),
        Agent::Watch(token, _) => format!("watch {}", names.token(token)),
        Agent::Formless(word) => formless(word),
    }
}

fn formless(word: u32) -> String {
    format!("word {word:08X}")
}

/// What follows the agents of a line.
enum Rest {
    Nothing,
    Body(usize),
    Halves(Vec<Half>),
}

/// One of several agents that run at once, with the parallel that has it as a half, and which half it is.
struct Half {
    agent: usize,
    above: usize,
    anchor: Anchor,
}

impl Half {
    fn new(agent: usize, above: usize, anchor: fn(usize) -> Anchor) -> Half {
        Half { agent, above, anchor: anchor(above) }
    }
}

struct Printer<'a> {
    score: &'a Score,
    names: &'a Names,
    comments: &'a Comments,
    layout: Layout,
    written: Vec<bool>,
    text: String,
    places: Places,
}

impl<'a> Printer<'a> {
    fn new(score: &'a Score, names: &'a Names, comments: &'a Comments) -> Printer<'a> {
        let agents = score.agents.len();
        let places = Places { agents: vec![0..0; agents], ..Places::default() };
        let layout = Layout::of(score);
        Printer { score, names, comments, layout, written: vec![false; agents], text: String::new(), places }
    }

    /// Writes a line, with what stands before it and beside it, and gives the place of each piece.
    fn line(&mut self, depth: usize, pieces: &[(Anchor, String)]) -> Vec<Range<usize>> {
        let beside: Vec<&String> = pieces.iter().filter_map(|(anchor, _)| self.comments.beside.get(anchor)).collect();
        for (anchor, _) in pieces {
            self.before(*anchor, depth);
            // Of several comments none can stand beside the line.
            let comment = self.comments.beside.get(anchor).filter(|_| beside.len() > 1);
            comment.into_iter().for_each(|comment| self.comment(depth, comment));
        }
        self.text.extend(std::iter::repeat(' ').take(INDENT * depth));
        let mut places = Vec::new();
        for (k, (_, piece)) in pieces.iter().enumerate() {
            if k > 0 {
                self.text.push(' ');
            }
            places.push(self.text.len()..self.text.len() + piece.len());
            self.text.push_str(piece);
        }
        if let [comment] = beside[..] {
            self.text.push_str("  ");
            self.text.push_str(comment);
        }
        self.text.push('\n');
        places
    }

    fn before(&mut self, anchor: Anchor, depth: usize) {
        for comment in self.comments.before.get(&anchor).into_iter().flatten() {
            self.comment(depth, comment);
        }
    }

    fn after(&mut self, anchor: Anchor, depth: usize) {
        for comment in self.comments.after.get(&anchor).into_iter().flatten() {
            self.comment(depth, comment);
        }
    }

    fn comment(&mut self, depth: usize, comment: &str) {
        if !comment.is_empty() {
            self.text.extend(std::iter::repeat(' ').take(INDENT * depth));
            self.text.push_str(comment);
        }
        self.text.push('\n');
    }

    /// Writes a line that is one part of the score.
    fn part(&mut self, part: Part, piece: String) -> Range<usize> {
        self.line(0, &[(Anchor::Part(part), piece)]).remove(0)
    }

    fn tokens(&mut self) {
        self.places.head = self.part(Part::Head, format!("tokens {}", self.score.tokens));
        let names = self.names;
        if self.comments.has(Anchor::Token(0)) {
            self.line(1, &[(Anchor::Token(0), format!("0 {CLASH}"))]);
        }
        for (token, name) in names.tokens.range(..self.score.tokens) {
            self.line(1, &[(Anchor::Token(*token), format!("{token} {name}"))]);
        }
        self.after(Anchor::Part(Part::Head), 1);
    }

    fn ports(&mut self) {
        let ports = match self.score.ports {
            Ports::Range(lowest, highest) => {
                format!("ports {} to {}", self.names.token(lowest), self.names.token(highest))
            }
            Ports::Formless(word) => format!("ports {}", formless(word)),
        };
        self.places.ports = self.part(Part::Ports, ports);
    }

    fn procedure(&mut self, procedure: usize) {
        let mut heading = format!("procedure {}", self.names.procedure(procedure));
        if let Some(first) = self.layout.from[procedure] {
            heading += &format!(" from {first}");
        }
        self.text.push('\n');
        match self.score.procedures[procedure] {
            Procedure::Root(root) => {
                let place = self.part(Part::Procedure(procedure), heading);
                self.places.procedures.push(place);
                self.agent_or_reference(root, self.score.agents.len(), Anchor::Root(procedure), 1);
                self.after(Anchor::Part(Part::Procedure(procedure)), 1);
            }
            Procedure::Formless(word) => {
                let place = self.part(Part::Procedure(procedure), format!("{heading} {}", formless(word)));
                self.places.procedures.push(place);
            }
        }
    }

    fn unused(&mut self) {
        let unused = std::mem::take(&mut self.layout.unused);
        if unused.is_empty() && !self.comments.has(Anchor::Unused) {
            return;
        }
        self.text.push('\n');
        self.line(0, &[(Anchor::Unused, "unused".into())]);
        for agent in unused {
            self.agent(agent, 1);
        }
        self.after(Anchor::Unused, 1);
    }

    fn rules(&mut self) {
        if !self.score.rules.is_empty() {
            self.text.push('\n');
        }
        for (number, rule) in self.score.rules.iter().enumerate() {
            let token = |token| self.names.token(token);
            let rule = match *rule {
                Rule::Rule(premise, other, conclusion) if premise == other => {
                    format!("rule {} gives {}", token(premise), token(conclusion))
                }
                Rule::Rule(premise, other, conclusion) => {
                    format!("rule {} and {} gives {}", token(premise), token(other), token(conclusion))
                }
                Rule::Fact(conclusion) => format!("fact {}", token(conclusion)),
                Rule::Formless(word) => format!("rule {}", formless(word)),
            };
            let place = self.part(Part::Rule(number), rule);
            self.places.rules.push(place);
        }
    }

    /// Whether an agent is written where another one, or a procedure, has it; it is referred to otherwise.
    fn writes(&self, agent: usize, above: usize) -> bool {
        agent < above && !self.written[agent]
    }

    /// The label of an agent that is named, referred to, or numbered out of turn.
    fn label(&self, agent: usize) -> Option<String> {
        let (name, numbered) = (self.names.agents.get(&agent), self.layout.numbered[agent]);
        match name {
            Some(name) if numbered => Some(format!("@{name} {agent}:")),
            Some(name) => Some(format!("@{name}:")),
            None => (numbered || self.layout.referred[agent]).then(|| format!("@{agent}:")),
        }
    }

    fn agent_or_reference(&mut self, agent: usize, above: usize, anchor: Anchor, depth: usize) {
        if self.writes(agent, above) {
            // Comments of a reference that the agent is written in place of.
            self.before(anchor, depth);
            self.comments.beside.get(&anchor).into_iter().for_each(|comment| self.comment(depth, comment));
            self.agent(agent, depth);
        } else {
            self.line(depth, &[(anchor, self.names.agent(agent))]);
        }
    }

    /// Writes an agent from a new line on: bodies follow on the line as long as they have no label and it is short.
    fn agent(&mut self, agent: usize, depth: usize) {
        let (mut agents, mut pieces, mut width, mut at) = (Vec::new(), Vec::new(), 0, agent);
        let rest = loop {
            self.written[at] = true;
            let mut piece = head(self.score.agents[at], self.names);
            if let Some(label) = self.label(at) {
                piece = format!("{label} {piece}");
            }
            agents.push(at);
            let rest = match self.score.agents[at] {
                Agent::Parallel(..) => {
                    let (right, halves) = self.halves(at);
                    piece += if right { " right" } else { "" };
                    Rest::Halves(halves)
                }
                word => word.inner().next().map_or(Rest::Nothing, Rest::Body),
            };
            width += piece.len() + 1;
            match rest {
                Rest::Body(body) if !self.writes(body, at) => {
                    pieces.push((Anchor::Part(Part::Agent(at)), format!("{piece} {}", self.names.agent(body))));
                    break Rest::Nothing;
                }
                Rest::Body(body) if self.label(body).is_none() && width <= WIDTH => {
                    pieces.push((Anchor::Part(Part::Agent(at)), piece));
                    at = body;
                }
                rest => {
                    pieces.push((Anchor::Part(Part::Agent(at)), piece));
                    break rest;
                }
            }
        };
        let places = self.line(depth, &pieces);
        for (&agent, place) in agents.iter().zip(places) {
            self.places.agents[agent] = place;
        }
        let under = !matches!(rest, Rest::Nothing);
        self.rest(rest, at, depth);
        // Of several agents on a line only the last one has lines of its own under it.
        for agent in agents.into_iter().rev() {
            let inner = usize::from(agent == at && under);
            self.after(Anchor::Part(Part::Agent(agent)), depth + inner);
        }
    }

    /// Writes what stands under the last agent of a line.
    fn rest(&mut self, rest: Rest, at: usize, depth: usize) {
        match rest {
            Rest::Nothing => (),
            Rest::Body(body) => self.agent(body, depth + 1),
            Rest::Halves(halves) => {
                for half in halves {
                    self.places.agents[half.above] = self.places.agents[at].clone();
                    self.agent_or_reference(half.agent, half.above, half.anchor, depth + 1);
                }
            }
        }
    }

    /// The agents that a parallel runs at once, and whether they are joined from the right. A parallel that is its first
    /// half, or failing that its second, is written as part of it where nothing is to be said of it.
    fn halves(&mut self, parallel: usize) -> (bool, Vec<Half>) {
        let mut halves = self.joined(parallel, false);
        if halves.len() > 2 {
            halves.reverse();
            return (false, halves);
        }
        let halves = self.joined(parallel, true);
        (halves.len() > 2, halves)
    }

    /// The agents that a parallel and the parallels on one side of it run at once, from the other side on.
    fn joined(&mut self, parallel: usize, right: bool) -> Vec<Half> {
        let (mut halves, mut above) = (Vec::new(), parallel);
        while let Agent::Parallel(first, second) = self.score.agents[above] {
            let (first, second) = (Half::new(first, above, Anchor::First), Half::new(second, above, Anchor::Second));
            let (outer, inner) = if right { (first, second) } else { (second, first) };
            halves.push(outer);
            if !self.joins(&inner) {
                halves.push(inner);
                break;
            }
            above = inner.agent;
            self.written[above] = true;
        }
        halves
    }

    fn joins(&self, half: &Half) -> bool {
        let noted = [half.anchor, Anchor::Part(Part::Agent(half.agent))];
        self.writes(half.agent, half.above)
            && matches!(self.score.agents[half.agent], Agent::Parallel(..))
            && self.label(half.agent).is_none()
            && !noted.into_iter().any(|anchor| self.comments.has(anchor))
    }
}
