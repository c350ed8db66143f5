//! A score while it is written: agents that may be shared, and names for what has one. It is numbered at the end.

use crate::names::Names;
use crate::order::{self, Numbering};
use second::generate::Score;
use second::words;

#[derive(Clone, Copy, PartialEq, Eq, PartialOrd, Ord)]
pub struct Token(pub usize);

/// An agent by the place where it was written, which is not its number.
#[derive(Clone, Copy, PartialEq, Eq)]
pub struct Agent(pub usize);

#[derive(Clone, Copy, PartialEq, Eq)]
pub struct Procedure(usize);

#[derive(Clone, Copy, PartialEq, Eq)]
pub enum Form {
    Skip,
    Abort,
    Tell(Token),
    Parallel(Agent, Agent),
    When(Token, Agent),
    Next(Agent),
    Unless(Token, Agent),
    Watch(Token, Agent),
    Call(Procedure),
}

impl Form {
    /// Its body or halves.
    pub fn parts(self) -> Vec<Agent> {
        match self {
            Form::Skip | Form::Abort | Form::Tell(_) | Form::Call(_) => vec![],
            Form::Parallel(half, other) => vec![half, other],
            Form::When(_, body) | Form::Next(body) | Form::Unless(_, body) | Form::Watch(_, body) => vec![body],
        }
    }
}

/// What a token is for. The tokens of a class have numbers side by side.
#[derive(Clone, Copy, PartialEq, Eq)]
pub enum Class {
    Switch,
    Limit,
    Output,
    Mark,
}

#[derive(Clone, Copy)]
enum Rule {
    Fact(Token),
    Both { conclusion: Token, premises: (Token, Token) },
}

/// How parallels of more than two halves are nested.
#[derive(Clone, Copy)]
pub enum Nesting {
    Left,
    Right,
    Even,
}

/// How a compiler writes a score down.
#[derive(Clone, Copy)]
pub struct Style {
    pub numbering: Numbering,
    pub nesting: Nesting,
    pub swaps_halves: bool,
    /// Equal agents are one agent.
    pub shares_equal: bool,
    /// Agents that no procedure reaches are numbered before the others.
    pub unused_first: bool,
    pub layout: [Class; 4],
}

pub const CLASH: Token = Token(0);

pub struct Builder {
    style: Style,
    tokens: Vec<(Class, String)>,
    agents: Vec<Form>,
    procedures: Vec<(String, Option<Agent>)>,
    rules: Vec<Rule>,
    unused: Vec<Agent>,
    agent_names: Vec<(Agent, String)>,
}

/// A score or draft with its names, and the number of each token.
pub struct Written {
    pub bytes: Vec<u8>,
    pub names: Names,
    pub numbers: Vec<usize>,
}

impl Builder {
    /// With the clash as its only token.
    pub fn new(style: Style) -> Builder {
        Builder {
            style,
            tokens: vec![(Class::Mark, "clash".to_string())],
            agents: vec![],
            procedures: vec![],
            rules: vec![],
            unused: vec![],
            agent_names: vec![],
        }
    }

    pub fn token(&mut self, class: Class, name: &str) -> Token {
        self.tokens.push((class, name.to_string()));
        Token(self.tokens.len() - 1)
    }

    /// A procedure whose root is given later.
    pub fn declare(&mut self, name: &str) -> Procedure {
        self.procedures.push((name.to_string(), None));
        Procedure(self.procedures.len() - 1)
    }

    pub fn define(&mut self, procedure: Procedure, root: Agent) {
        self.procedures[procedure.0].1 = Some(root);
    }

    fn push(&mut self, form: Form) -> Agent {
        let equal = self.agents.iter().position(|&other| other == form).filter(|_| self.style.shares_equal);
        Agent(equal.unwrap_or_else(|| {
            self.agents.push(form);
            self.agents.len() - 1
        }))
    }

    pub fn skip(&mut self) -> Agent {
        self.push(Form::Skip)
    }

    pub fn abort(&mut self) -> Agent {
        self.push(Form::Abort)
    }

    pub fn tell(&mut self, token: Token) -> Agent {
        self.push(Form::Tell(token))
    }

    pub fn when(&mut self, token: Token, body: Agent) -> Agent {
        self.push(Form::When(token, body))
    }

    pub fn next(&mut self, body: Agent) -> Agent {
        self.push(Form::Next(body))
    }

    pub fn unless(&mut self, token: Token, body: Agent) -> Agent {
        self.push(Form::Unless(token, body))
    }

    pub fn watch(&mut self, token: Token, body: Agent) -> Agent {
        self.push(Form::Watch(token, body))
    }

    pub fn call(&mut self, procedure: Procedure) -> Agent {
        self.push(Form::Call(procedure))
    }

    /// All of these side by side.
    pub fn all(&mut self, agents: &[Agent]) -> Agent {
        let [first, .., last] = *agents else { return agents[0] };
        let (half, other) = match self.style.nesting {
            Nesting::Left => (self.all(&agents[..agents.len() - 1]), last),
            Nesting::Right => (first, self.all(&agents[1..])),
            Nesting::Even => {
                let (halves, others) = agents.split_at(agents.len() / 2);
                (self.all(halves), self.all(others))
            }
        };
        self.push(Form::Parallel(half, other))
    }

    pub fn when_tell(&mut self, token: Token, told: Token) -> Agent {
        let body = self.tell(told);
        self.when(token, body)
    }

    pub fn unless_tell(&mut self, token: Token, told: Token) -> Agent {
        let body = self.tell(told);
        self.unless(token, body)
    }

    pub fn next_call(&mut self, procedure: Procedure) -> Agent {
        let body = self.call(procedure);
        self.next(body)
    }

    pub fn when_next_call(&mut self, token: Token, procedure: Procedure) -> Agent {
        let body = self.next_call(procedure);
        self.when(token, body)
    }

    pub fn unless_call(&mut self, token: Token, procedure: Procedure) -> Agent {
        let body = self.call(procedure);
        self.unless(token, body)
    }

    /// Gives a name to an agent that has none.
    pub fn name(&mut self, agent: Agent, name: &str) {
        if self.agent_names.iter().all(|&(named, _)| named != agent) {
            self.agent_names.push((agent, name.to_string()));
        }
    }

    /// Keeps an agent that no procedure reaches.
    pub fn leave_unused(&mut self, agent: Agent) {
        self.unused.push(agent);
    }

    pub fn fact(&mut self, token: Token) {
        self.rules.push(Rule::Fact(token));
    }

    pub fn gives(&mut self, premise: Token, conclusion: Token) {
        self.both_give(premise, premise, conclusion);
    }

    pub fn both_give(&mut self, premise: Token, other: Token, conclusion: Token) {
        self.rules.push(Rule::Both { conclusion, premises: (premise, other) });
    }

    pub fn agent_count(&self) -> usize {
        self.agents.len()
    }

    pub fn rule_count(&self) -> usize {
        self.rules.len()
    }

    /// The number of each token: the clash, then class by class.
    fn token_numbers(&self) -> Vec<usize> {
        let of_class = |class| (1..self.tokens.len()).filter(move |&token| self.tokens[token].0 == class);
        let order = self.style.layout.into_iter().flat_map(of_class);
        let mut numbers = vec![0; self.tokens.len()];
        for (before, token) in order.enumerate() {
            numbers[token] = before + 1;
        }
        numbers
    }

    fn roots(&self) -> Vec<Agent> {
        let root = |(name, root): &(String, Option<Agent>)| root.unwrap_or_else(|| panic!("{name} has no root"));
        self.procedures.iter().map(root).collect()
    }

    /// The number of each agent. Every agent has one.
    fn agent_numbers(&self) -> Vec<usize> {
        let roots = self.roots();
        let (first, last) = if self.style.unused_first { (&self.unused, &roots) } else { (&roots, &self.unused) };
        let order = order::agents(&self.agents, &[&first[..], last].concat(), self.style.numbering);
        assert_eq!(order.len(), self.agents.len(), "some agents are neither used nor kept unused");
        let mut numbers = vec![0; order.len()];
        for (number, agent) in order.into_iter().enumerate() {
            numbers[agent.0] = number;
        }
        numbers
    }

    pub fn written(&self) -> Written {
        let (tokens, agents) = (self.token_numbers(), self.agent_numbers());
        let numbers = Numbers { style: &self.style, tokens: &tokens, agents: &agents };
        let mut agent_words = vec![0; agents.len()];
        for (agent, &form) in self.agents.iter().enumerate() {
            agent_words[agents[agent]] = numbers.agent_word(form);
        }
        let score = Score {
            tokens: tokens.len() as u32,
            ports: self.ports(&numbers),
            agents: agent_words,
            procedures: self.roots().into_iter().map(|root| words::procedure(numbers.agent(root))).collect(),
            rules: self.rules.iter().map(|&rule| numbers.rule_word(rule)).collect(),
        };
        Written { bytes: score.bytes(), names: self.names(&tokens, &agents), numbers: tokens }
    }

    /// All names but that of the clash.
    fn names(&self, tokens: &[usize], agents: &[usize]) -> Names {
        let token_names = self.tokens.iter().zip(tokens).skip(1);
        Names {
            tokens: token_names.map(|((_, name), &number)| (number, name.clone())).collect(),
            procedures: self.procedures.iter().map(|(name, _)| name.clone()).enumerate().collect(),
            agents: self.agent_names.iter().map(|(agent, name)| (agents[agent.0], name.clone())).collect(),
        }
    }

    /// From the lowest output to the highest.
    fn ports(&self, numbers: &Numbers) -> u32 {
        let outputs = (0..self.tokens.len()).filter(|&token| self.tokens[token].0 == Class::Output);
        let outputs: Vec<u32> = outputs.map(|token| numbers.token(Token(token))).collect();
        let lowest = outputs.iter().min().expect("a score has outputs");
        words::ports(*lowest, *lowest + outputs.len() as u32 - 1)
    }
}

/// What turns the parts of a score into words.
struct Numbers<'a> {
    style: &'a Style,
    tokens: &'a [usize],
    agents: &'a [usize],
}

impl Numbers<'_> {
    fn token(&self, token: Token) -> u32 {
        self.tokens[token.0] as u32
    }

    fn agent(&self, agent: Agent) -> u32 {
        self.agents[agent.0] as u32
    }

    fn agent_word(&self, form: Form) -> u32 {
        match form {
            Form::Skip => words::skip(),
            Form::Abort => words::abort(),
            Form::Tell(token) => words::tell(self.token(token)),
            Form::Parallel(half, other) if self.style.swaps_halves => {
                words::parallel(self.agent(other), self.agent(half))
            }
            Form::Parallel(half, other) => words::parallel(self.agent(half), self.agent(other)),
            Form::When(token, body) => words::when(self.agent(body), self.token(token)),
            Form::Next(body) => words::next(self.agent(body)),
            Form::Unless(token, body) => words::unless(self.agent(body), self.token(token)),
            Form::Watch(token, body) => words::watch(self.agent(body), self.token(token)),
            Form::Call(procedure) => words::call(procedure.0 as u32),
        }
    }

    fn rule_word(&self, rule: Rule) -> u32 {
        match rule {
            Rule::Fact(token) => words::fact(self.token(token)),
            Rule::Both { conclusion, premises: (premise, other) } => {
                words::rule(self.token(conclusion), self.token(premise), self.token(other))
            }
        }
    }
}
