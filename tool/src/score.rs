//! A score for people: its words taken apart and put together again. Any bytes with a head and a fitting count of words
//! can be taken apart, refused ones too; a word that has not the form of its place is kept as it is.

/// An agent's word. Agents and procedures are named by number.
#[derive(Clone, Copy, PartialEq, Eq, Debug)]
pub enum Agent {
    Skip,
    Abort,
    Tell(u8),
    Parallel(usize, usize),
    When(u8, usize),
    Next(usize),
    Unless(u8, usize),
    Call(usize),
    Watch(u8, usize),
    Formless(u32),
}

#[derive(Clone, Copy, PartialEq, Eq, Debug)]
pub enum Ports {
    Range(u8, u8),
    Formless(u32),
}

#[derive(Clone, Copy, PartialEq, Eq, Debug)]
pub enum Procedure {
    Root(usize),
    Formless(u32),
}

/// A rule has its first premise, its second and its conclusion.
#[derive(Clone, Copy, PartialEq, Eq, Debug)]
pub enum Rule {
    Rule(u8, u8, u8),
    Fact(u8),
    Formless(u32),
}

#[derive(Clone, PartialEq, Eq, Debug)]
pub struct Score {
    pub tokens: usize,
    pub ports: Ports,
    pub agents: Vec<Agent>,
    pub procedures: Vec<Procedure>,
    pub rules: Vec<Rule>,
}

/// What a word of a score is.
#[derive(Clone, Copy, PartialEq, Eq, PartialOrd, Ord, Debug)]
pub enum Part {
    Head,
    Ports,
    Agent(usize),
    Procedure(usize),
    Rule(usize),
}

const FACT: u32 = 1 << 27;

/// Bits from low on, as many as width says.
fn field(word: u32, low: u32, width: u32) -> usize {
    (word >> low & ((1 << width) - 1)) as usize
}

fn token(word: u32, low: u32) -> u8 {
    field(word, low, 8) as u8
}

fn kind(number: u32) -> u32 {
    number << 28
}

/// The words of bytes, low byte first; bytes past the last whole word are left out.
pub fn words(bytes: &[u8]) -> impl Iterator<Item = u32> + '_ {
    bytes.chunks_exact(4).map(|word| u32::from_le_bytes([word[0], word[1], word[2], word[3]]))
}

pub fn bytes(words: impl IntoIterator<Item = u32>) -> Vec<u8> {
    words.into_iter().flat_map(u32::to_le_bytes).collect()
}

impl Agent {
    fn of(word: u32) -> Agent {
        let agent = match word >> 28 {
            4 if word & 1 == 0 => Agent::Skip,
            4 => Agent::Abort,
            5 => Agent::Tell(token(word, 0)),
            6 => Agent::Parallel(field(word, 0, 10), field(word, 10, 10)),
            7 => Agent::When(token(word, 10), field(word, 0, 10)),
            8 => Agent::Next(field(word, 0, 10)),
            9 => Agent::Unless(token(word, 10), field(word, 0, 10)),
            10 => Agent::Call(field(word, 0, 6)),
            15 => Agent::Watch(token(word, 10), field(word, 0, 10)),
            _ => return Agent::Formless(word),
        };
        if agent.word() == word {
            agent
        } else {
            Agent::Formless(word)
        }
    }

    pub fn word(self) -> u32 {
        let guarded = |number, token, body| kind(number) | (token as u32) << 10 | body as u32;
        match self {
            Agent::Skip => kind(4),
            Agent::Abort => kind(4) | 1,
            Agent::Tell(token) => kind(5) | token as u32,
            Agent::Parallel(half, other) => kind(6) | (other as u32) << 10 | half as u32,
            Agent::When(token, body) => guarded(7, token, body),
            Agent::Next(body) => kind(8) | body as u32,
            Agent::Unless(token, body) => guarded(9, token, body),
            Agent::Call(procedure) => kind(10) | procedure as u32,
            Agent::Watch(token, body) => guarded(15, token, body),
            Agent::Formless(word) => word,
        }
    }

    pub fn is_watch(&self) -> bool {
        matches!(self, Agent::Watch(..))
    }

    /// The agents that this one refers to: its body, or its halves in order.
    pub fn inner(self) -> impl Iterator<Item = usize> {
        let (first, second) = match self {
            Agent::Parallel(half, other) => (Some(half), Some(other)),
            Agent::When(_, body) | Agent::Unless(_, body) | Agent::Watch(_, body) | Agent::Next(body) => {
                (Some(body), None)
            }
            Agent::Skip | Agent::Abort | Agent::Tell(_) | Agent::Call(_) | Agent::Formless(_) => (None, None),
        };
        first.into_iter().chain(second)
    }
}

impl Ports {
    fn of(word: u32) -> Ports {
        let ports = Ports::Range(token(word, 0), token(word, 8));
        if ports.word() == word {
            ports
        } else {
            Ports::Formless(word)
        }
    }

    pub fn word(self) -> u32 {
        match self {
            Ports::Range(lowest, highest) => kind(11) | (highest as u32) << 8 | lowest as u32,
            Ports::Formless(word) => word,
        }
    }
}

impl Procedure {
    fn of(word: u32) -> Procedure {
        let procedure = Procedure::Root(field(word, 0, 10));
        if procedure.word() == word {
            procedure
        } else {
            Procedure::Formless(word)
        }
    }

    pub fn word(self) -> u32 {
        match self {
            Procedure::Root(root) => kind(3) | root as u32,
            Procedure::Formless(word) => word,
        }
    }

    /// The root of a procedure of an accepted score.
    pub fn root(self) -> usize {
        match self {
            Procedure::Root(root) => root,
            Procedure::Formless(word) => field(word, 0, 10),
        }
    }
}

impl Rule {
    fn of(word: u32) -> Rule {
        let rule = if word & FACT != 0 {
            Rule::Fact(token(word, 0))
        } else {
            Rule::Rule(token(word, 8), token(word, 16), token(word, 0))
        };
        if rule.word() == word {
            rule
        } else {
            Rule::Formless(word)
        }
    }

    pub fn word(self) -> u32 {
        match self {
            Rule::Rule(premise, other, conclusion) => {
                kind(2) | (other as u32) << 16 | (premise as u32) << 8 | conclusion as u32
            }
            Rule::Fact(conclusion) => kind(2) | FACT | conclusion as u32,
            Rule::Formless(word) => word,
        }
    }
}

impl Score {
    /// Takes bytes apart: none where the library turns them down with 1, 2 or 3.
    pub fn read(bytes: &[u8]) -> Option<Score> {
        let words: Vec<u32> = words(bytes).collect();
        let &head = words.first()?;
        let (tokens, agents, procedures) = Score::sizes(head)?;
        let before = 2 + agents + procedures;
        if bytes.len() % 4 != 0 || words.len() < before || words.len() > before + crate::library::MAX_RULES {
            return None;
        }
        Some(Score {
            tokens,
            ports: Ports::of(words[1]),
            agents: words[2..2 + agents].iter().map(|&word| Agent::of(word)).collect(),
            procedures: words[2 + agents..before].iter().map(|&word| Procedure::of(word)).collect(),
            rules: words[before..].iter().map(|&word| Rule::of(word)).collect(),
        })
    }

    /// The counts of tokens, agents and procedures that a head states.
    pub fn sizes(head: u32) -> Option<(usize, usize, usize)> {
        (head >> 24 == 0x10).then(|| (field(head, 0, 8) + 1, field(head, 8, 10) + 1, field(head, 18, 6) + 1))
    }

    pub fn bytes(&self) -> Vec<u8> {
        let head = kind(1)
            | (self.procedures.len() as u32 - 1) << 18
            | (self.agents.len() as u32 - 1) << 8
            | (self.tokens as u32 - 1);
        bytes(
            [head, self.ports.word()]
                .into_iter()
                .chain(self.agents.iter().map(|agent| agent.word()))
                .chain(self.procedures.iter().map(|procedure| procedure.word()))
                .chain(self.rules.iter().map(|rule| rule.word())),
        )
    }

    /// What a word is, by its place.
    pub fn part(&self, word: usize) -> Part {
        let (agents, procedures) = (self.agents.len(), self.procedures.len());
        match word {
            0 => Part::Head,
            1 => Part::Ports,
            _ if word < 2 + agents => Part::Agent(word - 2),
            _ if word < 2 + agents + procedures => Part::Procedure(word - 2 - agents),
            _ => Part::Rule(word - 2 - agents - procedures),
        }
    }

    /// Whether it has a watch, and so is a draft.
    pub fn is_draft(&self) -> bool {
        self.agents.iter().any(Agent::is_watch)
    }
}
