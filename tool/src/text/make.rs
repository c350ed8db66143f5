//! Makes a score of a text: numbers its agents and looks up its names.

use super::comments::{Anchor, Comments};
use super::lines::Word;
use super::parse::{self, number, parse, told, Join, Kind, Node, Section, Tree};
use super::Places;
use crate::library::{MAX_AGENTS, MAX_PROCEDURES, MAX_TOKENS};
use crate::names::{closest, is_name, Names, CLASH, NAME, NOT_CLASH};
use crate::problem::{shown, Problem, MOST_PROBLEMS};
use crate::score::{Agent, Part, Ports, Procedure, Rule, Score};
use std::collections::{BTreeMap, HashMap};
use std::ops::Range;

/// A score that was made of a text; the library has not judged it yet.
pub struct Made {
    pub score: Score,
    pub names: Names,
    pub places: Places,
    pub comments: Comments,
}

/// Makes a score of a text. Names that the text does not give are taken from others.
pub fn make(text: &str, others: &Names) -> Result<Made, Vec<Problem>> {
    let tree = parse(text)?;
    let mut maker = Maker::new(&tree);
    maker.tokens(others);
    maker.procedures(others);
    maker.number();
    let score = maker.score(text.trim_end().len());
    match score {
        Some(score) if maker.problems.is_empty() => {
            maker.agent_names(others);
            maker.names.keep(score.tokens, score.procedures.len(), score.agents.len());
            maker.comment_headings();
            Ok(Made { score, names: maker.names, places: maker.places, comments: maker.comments })
        }
        _ => Err(told(maker.problems)),
    }
}

/// An agent whose number is known, with its parts still as nodes or numbers.
struct Numbered {
    agent: usize,
    node: usize,
    parts: Vec<Link>,
}

#[derive(Clone, Copy)]
enum Link {
    Node(usize),
    Agent(usize),
}

/// What is left to be numbered: a node and what is in it, or, its parts done, an agent of it. A parallel of several parts
/// has an agent for each but one: it joins a part to those that are joined already.
#[derive(Clone, Copy)]
enum Task {
    Enter(usize),
    Leave(usize),
    Join { node: usize, part: usize, last: bool },
}

struct Maker<'a> {
    tree: &'a Tree<'a>,
    names: Names,
    token_numbers: HashMap<String, usize>,
    /// The highest token that the text itself names.
    highest_token: usize,
    procedure_numbers: HashMap<String, usize>,
    labels: HashMap<&'a str, (usize, Range<usize>)>,
    next: usize,
    /// The agent that a node is; for a parallel, the last one that joins its parts.
    agent_of: Vec<Option<usize>>,
    numbered: BTreeMap<usize, Numbered>,
    places: Places,
    comments: Comments,
    problems: Vec<Problem>,
}

impl<'a> Maker<'a> {
    fn new(tree: &'a Tree<'a>) -> Maker<'a> {
        Maker {
            tree,
            names: Names::default(),
            token_numbers: HashMap::new(),
            highest_token: 0,
            procedure_numbers: HashMap::new(),
            labels: HashMap::new(),
            next: 0,
            agent_of: vec![None; tree.nodes.len()],
            numbered: BTreeMap::new(),
            places: Places::default(),
            comments: Comments::default(),
            problems: Vec::new(),
        }
    }

    /// Notes a problem, and goes on where one can.
    fn noted<T>(&mut self, result: Result<T, Problem>) -> Option<T> {
        result.map_err(|problem| self.problems.push(problem)).ok()
    }

    /// Looks something up. Names that may have been meant take long to find, and of more problems nobody is told.
    fn looked_up<T>(&mut self, find: impl FnOnce(&Self) -> Result<T, Problem>) -> Option<T> {
        if self.problems.len() >= MOST_PROBLEMS {
            return None;
        }
        let found = find(self);
        self.noted(found)
    }

    fn tokens(&mut self, others: &Names) {
        let tokens = self.tree.tokens.as_ref().expect("a tree has tokens");
        let (mut next, mut given) = (1, HashMap::new());
        for line in &tokens.names {
            let clash = line.name.text == CLASH && line.number.is_none();
            let token = if clash { 0 } else { line.number.unwrap_or(next) };
            next = token + 1;
            let checked = self.token_name(&line.name, token, tokens.count.unwrap_or(MAX_TOKENS), &given);
            if self.noted(checked).is_some() {
                given.insert(token, &line.name);
                self.highest_token = self.highest_token.max(token);
                self.token_numbers.insert(line.name.text.to_string(), token);
                if token != 0 {
                    self.names.tokens.insert(token, line.name.text.to_string());
                }
                self.comments.add(Anchor::Token(token), &line.noted);
            }
        }
        self.token_numbers.insert(CLASH.to_string(), 0);
        add(&mut self.names.tokens, &mut self.token_numbers, &others.tokens);
    }

    /// Whether a token can have a name, beside those that are given.
    fn token_name(
        &self,
        name: &Word,
        token: usize,
        count: usize,
        given: &HashMap<usize, &Word>,
    ) -> Result<(), Problem> {
        check_name(name)?;
        check_free(name, self.token_numbers.get(name.text).map(|other| given[other].place.clone()))?;
        if (name.text == CLASH) != (token == 0) {
            return Err(Problem::new(name.place.clone(), NOT_CLASH, "expected another name or number"));
        }
        if let Some(other) = given.get(&token) {
            let problem =
                Problem::new(name.place.clone(), format!("token {token} a second time"), "expected another number");
            return Err(problem.beside(other.place.clone(), "the first time"));
        }
        if token >= count {
            let label = format!("expected tokens 0 to {}, or a higher count; it counts the clash too", count - 1);
            return Err(Problem::new(name.place.clone(), format!("this would be token {token}"), label));
        }
        Ok(())
    }

    fn procedures(&mut self, others: &Names) {
        for (procedure, heading) in self.tree.procedures.iter().enumerate() {
            let name = &heading.name;
            if name.is_numeral() {
                let stated = number(name, 0, MAX_PROCEDURES - 1).and_then(|stated| {
                    if stated == procedure {
                        return Ok(());
                    }
                    let label = format!("expected {procedure}, as procedures stand in their order");
                    Err(Problem::new(name.place.clone(), format!("procedure {stated} is out of its place"), label))
                });
                self.noted(stated);
                continue;
            }
            let known = self.procedure_numbers.get(name.text).map(|&other| self.tree.procedures[other].place.clone());
            let checked = check_name(name).and_then(|()| check_free(name, known));
            if self.noted(checked).is_some() {
                self.names.procedures.insert(procedure, name.text.to_string());
                self.procedure_numbers.insert(name.text.to_string(), procedure);
            }
        }
        add(&mut self.names.procedures, &mut self.procedure_numbers, &others.procedures);
    }

    /// Numbers all agents, in the order of the text.
    fn number(&mut self) {
        for &section in &self.tree.order {
            match section {
                Section::Procedure(procedure) => {
                    let heading = &self.tree.procedures[procedure];
                    if let Some(from) = heading.from {
                        self.next = from;
                    }
                    let root = heading.root.expect("a tree's procedures have roots");
                    self.number_under(root);
                    self.comment_reference(root, Anchor::Root(procedure));
                }
                Section::Unused(node) => self.number_under(node),
            }
        }
    }

    fn number_under(&mut self, node: usize) {
        let mut tasks = vec![Task::Enter(node)];
        while let Some(task) = tasks.pop() {
            match task {
                Task::Enter(node) => self.enter(node, &mut tasks),
                Task::Leave(node) => {
                    let parts = self.node(node).parts.iter().map(|&part| Link::Node(part)).collect();
                    self.take(node, parts, true);
                }
                Task::Join { node, part, last } => {
                    let parts = &self.node(node).parts;
                    let (right, added) = (self.joins_right(node), Link::Node(parts[part]));
                    let end = if right { parts.len() - 1 } else { 0 };
                    let joined = self.agent_of[node].map_or(Link::Node(parts[end]), Link::Agent);
                    self.take(node, if right { vec![added, joined] } else { vec![joined, added] }, last);
                }
            }
        }
    }

    fn node(&self, node: usize) -> &'a Node<'a> {
        &self.tree.nodes[node]
    }

    fn joins_right(&self, node: usize) -> bool {
        matches!(self.node(node).kind, Kind::Parallel(Join::Right))
    }

    /// Notes what is to be done for a node, the last thing first.
    fn enter(&mut self, node: usize, tasks: &mut Vec<Task>) {
        let parts = &self.node(node).parts;
        match self.node(node).kind {
            Kind::Reference(_) => (),
            Kind::Parallel(Join::Left) => {
                for part in (1..parts.len()).rev() {
                    tasks.push(Task::Join { node, part, last: part + 1 == parts.len() });
                    tasks.push(Task::Enter(parts[part]));
                }
                tasks.push(Task::Enter(parts[0]));
            }
            Kind::Parallel(Join::Right) => {
                tasks.extend((0..parts.len() - 1).map(|part| Task::Join { node, part, last: part == 0 }));
                tasks.extend(parts.iter().rev().map(|&part| Task::Enter(part)));
            }
            _ => {
                tasks.push(Task::Leave(node));
                tasks.extend(parts.iter().map(|&part| Task::Enter(part)));
            }
        }
    }

    /// Gives the next number, or the one that a label states, to an agent of a node. The label is that of the last.
    fn take(&mut self, node: usize, parts: Vec<Link>, last: bool) {
        let label = self.node(node).label.as_ref().filter(|_| last);
        if let Some(number) = label.and_then(|label| label.number) {
            self.next = number;
        }
        let (agent, place) = (self.next, self.node(node).place.clone());
        self.next += 1;
        if let Some(label) = label {
            let known = self.labels.get(label.name.text).map(|(_, place)| place.clone());
            let numeral = label.name.is_numeral();
            let checked =
                if numeral { Ok(()) } else { check_name(&label.name).and_then(|()| check_free(&label.name, known)) };
            self.noted(checked);
            self.labels.insert(label.name.text, (agent, label.name.place.clone()));
        }
        if agent >= MAX_AGENTS {
            let label = format!("expected agents 0 to {}", MAX_AGENTS - 1);
            self.problems.push(Problem::new(place, format!("this would be agent {agent}"), label));
        } else if let Some(other) = self.numbered.get(&agent) {
            let problem = Problem::new(place, format!("agent {agent} a second time"), "expected another number");
            self.problems.push(problem.beside(self.node(other.node).place.clone(), "the first time"));
        } else {
            self.comment_parts(agent, node, &parts);
            if last {
                self.comments.add(Anchor::Part(Part::Agent(agent)), &self.node(node).noted);
            }
            self.numbered.insert(agent, Numbered { agent, node, parts });
        }
        self.agent_of[node] = Some(agent);
    }

    /// Keeps the comments of the references that an agent has as parts.
    fn comment_parts(&mut self, agent: usize, node: usize, parts: &[Link]) {
        let parallel = matches!(self.node(node).kind, Kind::Parallel(_));
        for (k, part) in parts.iter().enumerate() {
            let Link::Node(part) = *part else { continue };
            let anchor = match (parallel, k) {
                (true, 0) => Anchor::First(agent),
                (true, _) => Anchor::Second(agent),
                (false, _) => Anchor::Part(Part::Agent(agent)),
            };
            self.comment_reference(part, anchor);
        }
    }

    fn comment_reference(&mut self, node: usize, anchor: Anchor) {
        if let Kind::Reference(_) = self.node(node).kind {
            self.comments.add(anchor, &self.node(node).noted);
        }
    }

    fn comment_headings(&mut self) {
        let tree = self.tree;
        let parts = [
            (Part::Head, tree.tokens.as_ref().map(|tokens| &tokens.noted)),
            (Part::Ports, tree.ports.as_ref().map(|ports| &ports.noted)),
        ];
        let procedures =
            tree.procedures.iter().enumerate().map(|(k, heading)| (Part::Procedure(k), Some(&heading.noted)));
        let rules = tree.rules.iter().enumerate().map(|(k, rule)| (Part::Rule(k), Some(&rule.noted)));
        for (part, noted) in parts.into_iter().chain(procedures).chain(rules) {
            noted.into_iter().for_each(|noted| self.comments.add(Anchor::Part(part), noted));
        }
        self.comments.add(Anchor::Unused, &tree.unused);
        self.comments.add(Anchor::End, &tree.last);
    }

    /// The score, with its places, where everything could be looked up.
    fn score(&mut self, end: usize) -> Option<Score> {
        let tree = self.tree;
        let (tokens, ports) = (tree.tokens.as_ref()?, tree.ports.as_ref()?);
        let count = tokens.count.unwrap_or(self.highest_token + 1);
        self.places.head = tokens.place.clone();
        self.places.ports = ports.place.clone();
        let (lowest, highest) = (self.token(&ports.lowest), self.token(&ports.highest));
        let agents = self.agents(end);
        let procedures: Vec<Option<Procedure>> = (0..tree.procedures.len()).map(|k| self.procedure(k)).collect();
        let rules: Vec<Option<Rule>> = tree.rules.iter().map(|rule| self.rule(rule)).collect();
        Some(Score {
            tokens: count,
            ports: Ports::Range(lowest?, highest?),
            agents: agents?,
            procedures: procedures.into_iter().collect::<Option<_>>()?,
            rules: rules.into_iter().collect::<Option<_>>()?,
        })
    }

    fn agents(&mut self, end: usize) -> Option<Vec<Agent>> {
        let numbered: Vec<Numbered> = std::mem::take(&mut self.numbered).into_values().collect();
        let mut agents = Vec::new();
        for (k, numbered) in numbered.iter().enumerate() {
            let place = self.node(numbered.node).place.clone();
            if numbered.agent != k {
                let message = format!("there is no agent {k}, but there is agent {}", numbered.agent);
                self.problems.push(Problem::new(place, message, format!("expected agent {k} somewhere")));
                return None;
            }
            self.places.agents.push(place);
            agents.push(self.agent(numbered));
        }
        if agents.is_empty() {
            self.problems.push(Problem::new(end..end, "no agents", "expected at least one"));
        }
        agents.into_iter().collect()
    }

    fn agent(&mut self, numbered: &Numbered) -> Option<Agent> {
        let parts: Vec<Option<usize>> = numbered.parts.iter().map(|&part| self.link(part)).collect();
        let body = || parts.first().copied().flatten();
        match &self.node(numbered.node).kind {
            Kind::Skip => Some(Agent::Skip),
            Kind::Abort => Some(Agent::Abort),
            Kind::Tell(token) => Some(Agent::Tell(self.token(token)?)),
            Kind::Parallel(_) => Some(Agent::Parallel(parts[0]?, parts[1]?)),
            Kind::When(token) => self.token(token).zip(body()).map(|(token, body)| Agent::When(token, body)),
            Kind::Next => body().map(Agent::Next),
            Kind::Unless(token) => self.token(token).zip(body()).map(|(token, body)| Agent::Unless(token, body)),
            Kind::Call(name) => self.called(name).map(Agent::Call),
            Kind::Watch(token) => self.token(token).zip(body()).map(|(token, body)| Agent::Watch(token, body)),
            Kind::Reference(_) => None,
        }
    }

    /// The number of an agent that another one has as a part.
    fn link(&mut self, link: Link) -> Option<usize> {
        match link {
            Link::Agent(agent) => Some(agent),
            Link::Node(node) => match &self.node(node).kind {
                Kind::Reference(label) => self.labelled(label),
                _ => self.agent_of[node],
            },
        }
    }

    fn labelled(&mut self, label: &Word) -> Option<usize> {
        if label.is_numeral() {
            return label.text.parse().ok();
        }
        self.looked_up(|maker| {
            let found = maker.labels.get(label.text).map(|(agent, _)| *agent);
            found.ok_or_else(|| unknown("agent", label, maker.labels.keys().copied()))
        })
    }

    fn procedure(&mut self, procedure: usize) -> Option<Procedure> {
        let heading = &self.tree.procedures[procedure];
        self.places.procedures.push(heading.place.clone());
        self.link(Link::Node(heading.root?)).map(Procedure::Root)
    }

    fn rule(&mut self, rule: &parse::Rule) -> Option<Rule> {
        self.places.rules.push(rule.place.clone());
        let premises: Vec<Option<u8>> = rule.premises.iter().map(|premise| self.token(premise)).collect();
        let conclusion = self.token(&rule.conclusion)?;
        match premises[..] {
            [] => Some(Rule::Fact(conclusion)),
            [premise] => Some(Rule::Rule(premise?, premise?, conclusion)),
            [premise, other, ..] => Some(Rule::Rule(premise?, other?, conclusion)),
        }
    }

    /// The token that a word names. Whether the score has it is for the library to say.
    fn token(&mut self, word: &Word) -> Option<u8> {
        let found = self.looked_up(|maker| find("token", word, &maker.token_numbers, MAX_TOKENS - 1));
        found.map(|token| token as u8)
    }

    fn called(&mut self, word: &Word) -> Option<usize> {
        self.looked_up(|maker| find("procedure", word, &maker.procedure_numbers, MAX_PROCEDURES - 1))
    }

    /// The names that labels give to agents; of the others, those for agents without one.
    fn agent_names(&mut self, others: &Names) {
        let mut numbers = HashMap::new();
        for (name, (agent, _)) in &self.labels {
            if is_name(name) {
                self.names.agents.insert(*agent, name.to_string());
                numbers.insert(name.to_string(), *agent);
            }
        }
        add(&mut self.names.agents, &mut numbers, &others.agents);
    }
}

/// Adds the names of other that neither a number nor a name is taken of.
fn add(names: &mut BTreeMap<usize, String>, numbers: &mut HashMap<String, usize>, others: &BTreeMap<usize, String>) {
    for (&number, name) in others {
        if !names.contains_key(&number) && !numbers.contains_key(name) {
            names.insert(number, name.clone());
            numbers.insert(name.clone(), number);
        }
    }
}

fn check_name(name: &Word) -> Result<(), Problem> {
    if is_name(name.text) {
        Ok(())
    } else {
        Err(Problem::new(name.place.clone(), format!("`{}` is not a name", shown(name.text)), NAME))
    }
}

fn check_free(name: &Word, taken: Option<Range<usize>>) -> Result<(), Problem> {
    match taken {
        Some(place) => {
            let problem =
                Problem::new(name.place.clone(), format!("`{}` is taken", shown(name.text)), "expected another name");
            Err(problem.beside(place, "here"))
        }
        None => Ok(()),
    }
}

/// What a word stands for, by name or by number.
fn find(what: &str, word: &Word, numbers: &HashMap<String, usize>, most: usize) -> Result<usize, Problem> {
    if word.is_numeral() {
        return number(word, 0, most);
    }
    numbers.get(word.text).copied().ok_or_else(|| unknown(what, word, numbers.keys().map(String::as_str)))
}

fn unknown<'a>(what: &str, word: &Word, known: impl Iterator<Item = &'a str>) -> Problem {
    let meant = closest(word.text, known).map_or(String::new(), |name| format!("; did you mean `{name}`?"));
    let article = if what == "agent" { "an" } else { "a" };
    let label = format!("expected the name or number of {article} {what}{meant}");
    Problem::new(word.place.clone(), format!("no {what} has the name `{}`", shown(word.text)), label)
}
