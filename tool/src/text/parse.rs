//! Reads a text as a tree: what it says, with the places of its words. Names are looked up later, when all are known.

use super::comments::Noted;
use super::lines::{lines, Line, Word};
use crate::library::{MAX_AGENTS, MAX_PROCEDURES, MAX_RULES, MAX_TOKENS};
use crate::names::{closest, KEYWORDS};
use crate::problem::{shown, Problem, MOST_PROBLEMS};
use std::collections::HashSet;
use std::ops::Range;

#[derive(Default)]
pub struct Tree<'a> {
    pub tokens: Option<Tokens<'a>>,
    pub ports: Option<Ports<'a>>,
    pub procedures: Vec<Procedure<'a>>,
    /// The comments of the heading of the agents that nothing leads to.
    pub unused: Noted<'a>,
    /// The procedures and the unused agents, in the order of the text.
    pub order: Vec<Section>,
    pub rules: Vec<Rule<'a>>,
    pub nodes: Vec<Node<'a>>,
    pub last: Noted<'a>,
}

pub struct Tokens<'a> {
    pub count: Option<usize>,
    pub names: Vec<Name<'a>>,
    pub place: Range<usize>,
    pub noted: Noted<'a>,
}

/// A token's name, with its number where that is stated.
pub struct Name<'a> {
    pub number: Option<usize>,
    pub name: Word<'a>,
    pub noted: Noted<'a>,
}

pub struct Ports<'a> {
    pub lowest: Word<'a>,
    pub highest: Word<'a>,
    pub place: Range<usize>,
    pub noted: Noted<'a>,
}

pub struct Procedure<'a> {
    pub name: Word<'a>,
    pub from: Option<usize>,
    pub root: Option<usize>,
    pub place: Range<usize>,
    pub noted: Noted<'a>,
}

#[derive(Clone, Copy)]
pub enum Section {
    Procedure(usize),
    /// An agent that nothing leads to.
    Unused(usize),
}

/// A rule has one premise or two, a fact none.
pub struct Rule<'a> {
    pub premises: Vec<Word<'a>>,
    pub conclusion: Word<'a>,
    pub place: Range<usize>,
    pub noted: Noted<'a>,
}

pub struct Node<'a> {
    pub kind: Kind<'a>,
    pub label: Option<Label<'a>>,
    pub parts: Vec<usize>,
    pub place: Range<usize>,
    pub noted: Noted<'a>,
}

pub enum Kind<'a> {
    Skip,
    Abort,
    Tell(Word<'a>),
    Parallel(Join),
    When(Word<'a>),
    Next,
    Unless(Word<'a>),
    Call(Word<'a>),
    Watch(Word<'a>),
    /// An agent that is written elsewhere, by its label without `@`.
    Reference(Word<'a>),
}

/// How more than two agents are joined by parallels, each of two: the first two first, or the last two first.
#[derive(Clone, Copy, PartialEq, Eq, Debug)]
pub enum Join {
    Left,
    Right,
}

/// A label is a name, a number, or a name and a number.
pub struct Label<'a> {
    pub name: Word<'a>,
    pub number: Option<usize>,
}

/// Reads a text, or says what is wrong with it.
pub fn parse(text: &str) -> Result<Tree<'_>, Vec<Problem>> {
    let mut reader = Reader::default();
    for line in lines(text) {
        match line {
            Ok(line) => reader.line(line),
            Err(problem) => reader.fault(problem),
        }
        if reader.full || reader.problems.len() >= MOST_PROBLEMS {
            break;
        }
    }
    if !reader.full {
        reader.close(0);
        reader.absent(text.trim_end().len());
    }
    if reader.problems.is_empty() {
        let comments = reader.comments.into_iter().map(|(_, comment)| comment);
        reader.tree.last.before = comments.collect();
        if reader.tree.last.before.last() == Some(&"") {
            reader.tree.last.before.pop();
        }
        Ok(reader.tree)
    } else {
        Err(told(reader.problems))
    }
}

/// The problems that are told of, in the order of the text.
pub fn told(mut problems: Vec<Problem>) -> Vec<Problem> {
    problems.sort_by_key(|problem| problem.place.start);
    problems.truncate(MOST_PROBLEMS);
    problems
}

/// What indented lines belong to.
#[derive(Clone, Copy)]
enum Owner {
    Tokens,
    Procedure(usize),
    Unused,
    Node(usize),
}

struct Block {
    owner: Owner,
    /// The indentation of its first line, and that of the lines in it once there is one.
    indent: usize,
    inner: Option<usize>,
    /// Whether one of its lines could not be read.
    faulty: bool,
}

#[derive(Default)]
struct Reader<'a> {
    tree: Tree<'a>,
    blocks: Vec<Block>,
    /// Comments that stand by nothing yet, with their indentation.
    comments: Vec<(usize, &'a str)>,
    problems: Vec<Problem>,
    /// The words that lines at the margin began with.
    headings: HashSet<&'a str>,
    agents: usize,
    /// Lines that are indented more than this belong to one that could not be read.
    passed_over: Option<usize>,
    /// Whether there is more than a score has room for.
    full: bool,
}

const HEADINGS: [&str; 6] = ["tokens", "ports", "procedure", "unused", "rule", "fact"];
const AGENTS: [&str; 9] = ["parallel", "when", "unless", "next", "watch", "tell", "call", "skip", "abort"];

const AGENT: &str = "expected an agent: parallel, when, unless, next, watch, tell, call, skip, abort or a label";
const HEADING: &str = "expected tokens, ports, procedure, unused, rule or fact";

/// What was expected, and which of the words may have been meant.
fn meant(expected: &str, word: &str, words: &[&'static str]) -> String {
    match closest(&word.to_lowercase(), words.iter().copied()) {
        Some(meant) => format!("{expected}; did you mean `{meant}`?"),
        None => expected.into(),
    }
}

impl<'a> Reader<'a> {
    fn line(&mut self, line: Line<'a>) {
        if line.words.is_empty() {
            self.comment(line.indent, line.comment.unwrap_or_default());
            return;
        }
        if self.passed_over.is_some_and(|indent| line.indent > indent) {
            return;
        }
        self.passed_over = None;
        self.close(line.indent);
        let before = self.comments.drain(..).map(|(_, comment)| comment).collect();
        let noted = Noted { before, beside: line.comment, after: Vec::new() };
        let indent = line.indent;
        if let Err(problem) = self.read(line, noted) {
            self.fault(problem);
            self.passed_over = Some(indent);
        }
    }

    /// Notes a comment, or an empty line after one.
    fn comment(&mut self, indent: usize, comment: &'a str) {
        match self.comments.last() {
            _ if !comment.is_empty() => self.comments.push((indent, comment)),
            Some(&(indent, last)) if !last.is_empty() => self.comments.push((indent, "")),
            _ => (),
        }
    }

    /// Takes the comments that stand at the end of a block: they are indented as its lines are.
    fn comments_in(&mut self, block: &Block) -> Vec<&'a str> {
        let least = block.inner.unwrap_or(block.indent + 1);
        let count = self.comments.iter().take_while(|(indent, _)| *indent >= least).count();
        let mut taken: Vec<&str> = self.comments.drain(..count).map(|(_, comment)| comment).collect();
        if taken.last() == Some(&"") {
            taken.pop();
        }
        taken
    }

    /// Notes a line that could not be read, as part of the block that is open.
    fn fault(&mut self, problem: Problem) {
        self.problems.push(problem);
        if let Some(block) = self.blocks.last_mut() {
            block.faulty = true;
        }
    }

    /// Reads a line into the block that it stands in.
    fn read(&mut self, line: Line<'a>, noted: Noted<'a>) -> Result<(), Problem> {
        let place = line.words[0].place.clone();
        let Some(block) = self.blocks.last_mut() else {
            if line.indent > 0 {
                return Err(Problem::new(
                    place,
                    "an indented line that belongs to nothing",
                    "expected no spaces before it",
                ));
            }
            return self.heading(Words::new(line), noted);
        };
        let inner = *block.inner.get_or_insert(line.indent);
        if inner != line.indent {
            let label = format!("expected {inner} spaces before it, as before the line above that it stands beside");
            return Err(Problem::new(place, "an indentation that fits no line above", label));
        }
        if HEADINGS.contains(&line.words[0].text) {
            let message = format!("`{}` in the middle of something else", line.words[0].text);
            return Err(Problem::new(place, message, "expected no spaces before it"));
        }
        let (owner, indent, faulty) = (block.owner, line.indent, block.faulty);
        let mut words = Words::new(line);
        match owner {
            Owner::Tokens => self.name(words, noted),
            Owner::Procedure(procedure) => {
                if self.tree.procedures[procedure].root.is_some() {
                    return self.second(place, indent, faulty);
                }
                let root = self.agent(&mut words, indent, noted)?;
                self.tree.procedures[procedure].root = Some(root);
                Ok(())
            }
            Owner::Unused => {
                let agent = self.agent(&mut words, indent, noted)?;
                if let Kind::Reference(_) = self.tree.nodes[agent].kind {
                    return Err(Problem::new(
                        place,
                        "a reference to an agent that is used",
                        "expected an agent of its own",
                    ));
                }
                self.tree.order.push(Section::Unused(agent));
                Ok(())
            }
            Owner::Node(node) => {
                let parts = self.tree.nodes[node].parts.len();
                match self.tree.nodes[node].kind {
                    Kind::Parallel(_) if parts >= 2 => self.count(&place)?,
                    Kind::Parallel(_) => (),
                    _ if parts > 0 => return self.second(place, indent, faulty),
                    _ => (),
                }
                let part = self.agent(&mut words, indent, noted)?;
                self.tree.nodes[node].parts.push(part);
                Ok(())
            }
        }
    }

    fn heading(&mut self, mut words: Words<'a>, noted: Noted<'a>) -> Result<(), Problem> {
        let first = words.take(HEADING)?;
        self.headings.insert(first.text);
        match first.text {
            "tokens" => self.tokens(first, words, noted),
            "ports" => self.ports(first, words, noted),
            "procedure" => self.procedure(first, words, noted),
            "unused" => {
                words.ended()?;
                self.tree.unused.push(noted);
                self.open(Owner::Unused, 0);
                Ok(())
            }
            "rule" => self.rule(first, words, noted),
            "fact" => {
                let conclusion = words.name("expected the token that always holds")?;
                let place = first.place.start..words.end;
                words.ended()?;
                self.add_rule(Rule { premises: Vec::new(), conclusion, place, noted })
            }
            agent if AGENTS.contains(&agent) => {
                Err(Problem::new(first.place, "an agent outside a procedure", "expected spaces before it"))
            }
            other => {
                let message = format!("`{}` begins no part of a score", shown(other));
                Err(Problem::new(first.place, message, meant(HEADING, other, &HEADINGS)))
            }
        }
    }

    fn tokens(&mut self, first: Word<'a>, mut words: Words<'a>, noted: Noted<'a>) -> Result<(), Problem> {
        once(self.tree.tokens.as_ref().map(|tokens| &tokens.place), &first)?;
        let count = words.next().map(|word| number(&word, 1, MAX_TOKENS)).transpose()?;
        words.ended()?;
        let place = first.place.start..words.end;
        self.tree.tokens = Some(Tokens { count, names: Vec::new(), place, noted });
        self.open(Owner::Tokens, 0);
        Ok(())
    }

    fn ports(&mut self, first: Word<'a>, mut words: Words<'a>, noted: Noted<'a>) -> Result<(), Problem> {
        once(self.tree.ports.as_ref().map(|ports| &ports.place), &first)?;
        let lowest = words.name("expected the lowest token that goes out")?;
        words.keyword("to")?;
        let highest = words.name("expected the highest token that goes out")?;
        words.ended()?;
        self.tree.ports = Some(Ports { lowest, highest, place: first.place.start..words.end, noted });
        Ok(())
    }

    fn procedure(&mut self, first: Word<'a>, mut words: Words<'a>, noted: Noted<'a>) -> Result<(), Problem> {
        let name = words.name("expected the procedure's name or number")?;
        let from = match words.next() {
            Some(word) if word.text == "from" => {
                let first = words.take("expected the number of its first agent")?;
                Some(number(&first, 0, MAX_AGENTS - 1)?)
            }
            Some(word) => return Err(extra(&word)),
            None => None,
        };
        words.ended()?;
        let (procedure, place) = (self.tree.procedures.len(), first.place.start..words.end);
        if procedure == MAX_PROCEDURES {
            return Err(self.too_many(&place, "procedures", MAX_PROCEDURES));
        }
        self.tree.procedures.push(Procedure { name, from, root: None, place, noted });
        self.tree.order.push(Section::Procedure(procedure));
        self.open(Owner::Procedure(procedure), 0);
        Ok(())
    }

    fn rule(&mut self, first: Word<'a>, mut words: Words<'a>, noted: Noted<'a>) -> Result<(), Problem> {
        let mut premises = vec![words.name("expected a token")?];
        let mut next = words.take("expected `and` or `gives`")?;
        if next.text == "and" {
            premises.push(words.name("expected the second token")?);
            next = words.take("expected `gives`")?;
        }
        if next.text != "gives" {
            return Err(Problem::new(next.place, "not a rule", "expected `gives`"));
        }
        let conclusion = words.name("expected the token that it gives")?;
        words.ended()?;
        self.add_rule(Rule { premises, conclusion, place: first.place.start..words.end, noted })
    }

    fn add_rule(&mut self, rule: Rule<'a>) -> Result<(), Problem> {
        if self.tree.rules.len() == MAX_RULES {
            return Err(self.too_many(&rule.place, "rules and facts", MAX_RULES));
        }
        self.tree.rules.push(rule);
        Ok(())
    }

    /// An agent where there is one already; nothing more is said where that one is wrong.
    fn second(&mut self, place: Range<usize>, indent: usize, faulty: bool) -> Result<(), Problem> {
        if faulty {
            self.passed_over = Some(indent);
            return Ok(());
        }
        Err(Problem::new(place, "a second agent where there is room for one", "expected `parallel` above them both"))
    }

    fn open(&mut self, owner: Owner, indent: usize) {
        self.blocks.push(Block { owner, indent, inner: None, faulty: false });
    }

    /// A line under `tokens`.
    fn name(&mut self, mut words: Words<'a>, noted: Noted<'a>) -> Result<(), Problem> {
        let mut name = words.take("expected a token's name")?;
        let mut stated = None;
        if name.is_numeral() {
            stated = Some(number(&name, 0, MAX_TOKENS - 1)?);
            name = words.take("expected the token's name")?;
        }
        words.ended()?;
        let tokens = self.tree.tokens.as_mut().expect("its block is open");
        if tokens.names.len() == MAX_TOKENS {
            return Err(self.too_many(&name.place, "tokens", MAX_TOKENS));
        }
        tokens.names.push(Name { number: stated, name, noted });
        Ok(())
    }

    /// Reads the agents of a line, each the body of the one before, and gives the first.
    fn agent(&mut self, words: &mut Words<'a>, indent: usize, noted: Noted<'a>) -> Result<usize, Problem> {
        let first = self.tree.nodes.len();
        loop {
            let node = self.node(words)?;
            let at = self.tree.nodes.len();
            let (whole, several) = match node.kind {
                Kind::Parallel(_) => (false, true),
                Kind::When(_) | Kind::Unless(_) | Kind::Watch(_) | Kind::Next => (false, false),
                _ => (true, false),
            };
            if at > first {
                let above = &mut self.tree.nodes[at - 1];
                above.parts.push(at);
                if let Kind::Reference(_) = node.kind {
                    above.place.end = node.place.end;
                }
            }
            self.tree.nodes.push(node);
            if whole || several {
                words.ended()?;
            }
            if !whole && words.is_empty() {
                self.open(Owner::Node(at), indent);
            }
            if words.is_empty() {
                self.tree.nodes[first].noted = noted;
                return Ok(first);
            }
        }
    }

    /// One agent, without its body or halves.
    fn node(&mut self, words: &mut Words<'a>) -> Result<Node<'a>, Problem> {
        let mut word = words.take(AGENT)?;
        let start = word.place.start;
        let mut label = None;
        if let Some(name) = label_of(&word)? {
            let colon_after = |words: &Words, ahead| words.peek(ahead).is_some_and(|word| word.text == ":");
            if colon_after(words, 0) {
                words.next();
                label = Some(Label { number: name.text.parse().ok(), name });
            } else if colon_after(words, 1) {
                let stated = words.take("expected the agent's number")?;
                if name.is_numeral() {
                    return Err(Problem::new(stated.place, "a second number for an agent", "expected `:`"));
                }
                words.next();
                label = Some(Label { number: Some(number(&stated, 0, MAX_AGENTS - 1)?), name });
            } else {
                let place = word.place.clone();
                return Ok(Node {
                    kind: Kind::Reference(name),
                    label,
                    parts: Vec::new(),
                    place,
                    noted: Noted::default(),
                });
            }
            word = words.take(AGENT)?;
        }
        self.count(&word.place)?;
        let kind = match word.text {
            "skip" => Kind::Skip,
            "abort" => Kind::Abort,
            "tell" => Kind::Tell(words.name("expected the token to tell")?),
            "parallel" if words.peek(0).is_some_and(|word| word.text == "right") => {
                words.next();
                Kind::Parallel(Join::Right)
            }
            "parallel" => Kind::Parallel(Join::Left),
            "when" => Kind::When(words.name("expected the token to wait for")?),
            "next" => Kind::Next,
            "unless" => Kind::Unless(words.name("expected the token that stops it")?),
            "call" => Kind::Call(words.name("expected the procedure to call")?),
            "watch" => Kind::Watch(words.name("expected the token to watch for")?),
            other => {
                let message = format!("`{}` is not an agent", shown(other));
                return Err(Problem::new(word.place, message, meant(AGENT, other, &AGENTS)));
            }
        };
        let place = start..words.last;
        Ok(Node { kind, label, parts: Vec::new(), place, noted: Noted::default() })
    }

    /// Counts one more agent.
    fn count(&mut self, place: &Range<usize>) -> Result<(), Problem> {
        if self.agents == MAX_AGENTS {
            return Err(self.too_many(place, "agents", MAX_AGENTS));
        }
        self.agents += 1;
        Ok(())
    }

    fn too_many(&mut self, place: &Range<usize>, what: &str, most: usize) -> Problem {
        self.full = true;
        Problem::new(place.clone(), format!("more than {most} {what}"), format!("expected at most {most}"))
    }

    /// Ends the blocks that a line of this indentation is not part of.
    fn close(&mut self, indent: usize) {
        while self.blocks.last().is_some_and(|block| block.indent >= indent) {
            let block = self.blocks.pop().expect("there is one");
            let after = self.comments_in(&block);
            self.noted(block.owner).after.extend(after);
            if block.faulty {
                continue;
            }
            if let Some(problem) = self.lacks(block.owner) {
                self.fault(problem);
            }
        }
    }

    /// The comments of what a block belongs to.
    fn noted(&mut self, owner: Owner) -> &mut Noted<'a> {
        match owner {
            Owner::Tokens => &mut self.tree.tokens.as_mut().expect("its block is open").noted,
            Owner::Procedure(procedure) => &mut self.tree.procedures[procedure].noted,
            Owner::Unused => &mut self.tree.unused,
            Owner::Node(node) => &mut self.tree.nodes[node].noted,
        }
    }

    /// What a block that ends still lacks.
    fn lacks(&self, owner: Owner) -> Option<Problem> {
        match owner {
            Owner::Procedure(procedure) => {
                let procedure = &self.tree.procedures[procedure];
                procedure.root.is_none().then(|| {
                    let label = "expected its agent, indented, on the next line";
                    Problem::new(procedure.place.clone(), "a procedure without an agent", label)
                })
            }
            Owner::Node(node) => {
                let node = &self.tree.nodes[node];
                match (&node.kind, node.parts.len()) {
                    (Kind::Parallel(_), 0 | 1) => Some(Problem::new(
                        node.place.clone(),
                        "a parallel of fewer than two agents",
                        "expected two or more agents, indented, on lines of their own",
                    )),
                    (_, 0) => Some(Problem::new(
                        node.place.clone(),
                        "an agent without its body",
                        "expected its body after it or, indented, on the next line",
                    )),
                    _ => None,
                }
            }
            Owner::Tokens | Owner::Unused => None,
        }
    }

    /// Notes what a whole text lacks. A heading that could not be read is not lacking.
    fn absent(&mut self, end: usize) {
        for (heading, label) in [
            ("tokens", "expected `tokens`, how many there are, and their names"),
            ("ports", "expected `ports`, the lowest token that goes out, `to`, and the highest"),
            ("procedure", "expected `procedure`, its name and, indented, its agent"),
        ] {
            if !self.headings.contains(heading) {
                self.problems.push(Problem::new(end..end, format!("no `{heading}`"), label));
            }
        }
    }
}

/// The words of a line, one after the other.
struct Words<'a> {
    words: std::vec::IntoIter<Word<'a>>,
    /// Where the line ends, and the word that was taken last.
    end: usize,
    last: usize,
}

impl<'a> Words<'a> {
    fn new(line: Line<'a>) -> Words<'a> {
        Words { words: line.words.into_iter(), end: line.end, last: line.end }
    }

    fn next(&mut self) -> Option<Word<'a>> {
        let word = self.words.next()?;
        self.last = word.place.end;
        Some(word)
    }

    fn peek(&self, ahead: usize) -> Option<&Word<'a>> {
        self.words.as_slice().get(ahead)
    }

    fn is_empty(&self) -> bool {
        self.words.as_slice().is_empty()
    }

    fn take(&mut self, expected: &str) -> Result<Word<'a>, Problem> {
        self.next().ok_or_else(|| Problem::new(self.end..self.end, "the line ends too early", expected))
    }

    /// A word that names something, which no word of the text form does.
    fn name(&mut self, expected: &str) -> Result<Word<'a>, Problem> {
        let word = self.take(expected)?;
        if KEYWORDS.contains(&word.text) {
            return Err(Problem::new(word.place, format!("`{}` is a word of the text form", word.text), expected));
        }
        Ok(word)
    }

    fn keyword(&mut self, keyword: &str) -> Result<(), Problem> {
        let expected = format!("expected `{keyword}`");
        let word = self.take(&expected)?;
        if word.text == keyword {
            Ok(())
        } else {
            Err(Problem::new(word.place, format!("`{}` is out of place", shown(word.text)), expected))
        }
    }

    fn ended(&mut self) -> Result<(), Problem> {
        self.next().map_or(Ok(()), |word| Err(extra(&word)))
    }
}

fn extra(word: &Word) -> Problem {
    Problem::new(word.place.clone(), format!("`{}` is out of place", shown(word.text)), "expected the end of the line")
}

fn once(before: Option<&Range<usize>>, word: &Word) -> Result<(), Problem> {
    let again = || Problem::new(word.place.clone(), format!("`{}` a second time", word.text), "expected it once");
    before.map_or(Ok(()), |place| Err(again().beside(place.clone(), "the first time")))
}

/// The name of a label or reference, which begins with `@`.
fn label_of<'a>(word: &Word<'a>) -> Result<Option<Word<'a>>, Problem> {
    let Some(text) = word.text.strip_prefix('@') else { return Ok(None) };
    let name = Word { text, place: word.place.start + 1..word.place.end };
    if name.is_numeral() {
        number(&name, 0, MAX_AGENTS - 1)?;
    }
    Ok(Some(name))
}

/// The number that a word is, between bounds.
pub fn number(word: &Word, least: usize, most: usize) -> Result<usize, Problem> {
    let digits = word.text.chars().all(|c| c.is_ascii_digit());
    match word.text.parse() {
        Ok(number) if digits && (least..=most).contains(&number) => Ok(number),
        _ => {
            let what = if digits { "is out of range" } else { "is not a number" };
            let label = format!("expected a number from {least} to {most}");
            Err(Problem::new(word.place.clone(), format!("`{}` {what}", shown(word.text)), label))
        }
    }
}
