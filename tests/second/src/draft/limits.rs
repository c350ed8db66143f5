//! Drafts whose plain score is just at a size limit or one past it, and drafts whose plain score is far too large.

use crate::answer::{refused, Answer};
use crate::draft::{acts, scenes};
use crate::generate::{self, Score, Trial};
use crate::oracle;
use crate::random::Random;
use crate::translate::{self, Sizes};
use crate::words;

/// The names of T, N, P and the number of rules.
pub const NAMES: [&str; 4] = ["tokens", "agents", "procedures", "rules"];

const LIMITS: [usize; 4] = [256, 1024, 64, 256];

/// The sizes of a plain score, in the order of the names.
fn sizes(draft: &Score) -> Option<[usize; 4]> {
    let Sizes { tokens, agents, procedures, rules } = translate::sizes(&draft.bytes())?;
    Some([tokens, agents, procedures, rules])
}

/// Sizes that a plain score is to have; the others may be any.
type Wanted = [Option<usize>; 4];

/// A draft, and the sizes of its plain score; each is padded by as much as is asked for, not more and not less.
struct Padded {
    draft: Score,
    sizes: [usize; 4],
}

impl Padded {
    /// The draft is called by a new procedure 0, which nothing calls: its agents stand under no watch.
    fn new(mut draft: Score) -> Option<Padded> {
        for word in &mut draft.agents {
            if oracle::kind(*word) == 10 {
                *word += 1;
            }
        }
        draft.procedures.insert(0, words::procedure(draft.agents.len() as u32));
        draft.agents.push(words::call(1));
        let sizes = if is_too_large(&draft) { None } else { sizes(&draft) };
        sizes.map(|sizes| Padded { draft, sizes })
    }

    fn root(&self) -> u32 {
        self.draft.procedures[0] & 0x3FF
    }

    fn push(&mut self, agent: u32) -> u32 {
        self.draft.agents.push(agent);
        self.sizes[1] += 1;
        self.draft.agents.len() as u32 - 1
    }

    fn push_root(&mut self, agent: u32) {
        let root = self.push(agent);
        self.draft.procedures[0] = words::procedure(root);
    }

    fn pad_agents(&mut self, agents: usize) {
        while self.sizes[1] < agents {
            let root = self.root();
            self.push_root(words::parallel(root, root));
        }
    }

    /// Procedures of one root, each called once by procedure 0.
    fn pad_procedures(&mut self, procedures: usize) {
        if self.sizes[2] >= procedures {
            return;
        }
        let root = self.push(words::skip());
        while self.sizes[2] < procedures {
            let call = self.push(words::call(self.draft.procedures.len() as u32));
            self.draft.procedures.push(words::procedure(root));
            self.sizes[2] += 1;
            let root = self.root();
            self.push_root(words::parallel(root, call));
        }
    }

    fn pad_rules(&mut self, random: &mut Random, rules: usize) {
        while self.sizes[3] < rules {
            self.draft.rules.push(generate::rule_or_fact(random, self.draft.tokens));
            self.sizes[3] += 1;
        }
    }

    fn pad_tokens(&mut self, random: &mut Random, tokens: usize) {
        let more = tokens.saturating_sub(self.sizes[0]);
        rename(random, &mut self.draft, more as u32);
        self.sizes[0] += more;
    }

    /// Gives the plain score the sizes that are wanted, the others as they come but not past their limits; nothing where
    /// that cannot be, or the draft would be too large.
    fn pad(mut self, random: &mut Random, wanted: Wanted) -> Option<Padded> {
        let [tokens, agents, procedures, rules] = wanted;
        self.pad_procedures(procedures.unwrap_or(0));
        self.pad_agents(agents.unwrap_or(0));
        self.pad_rules(random, rules.unwrap_or(0));
        self.pad_tokens(random, tokens.unwrap_or(0));
        let is_wanted = (0..4).all(|size| match wanted[size] {
            Some(wanted) => self.sizes[size] == wanted,
            None => self.sizes[size] <= LIMITS[size],
        });
        (is_wanted && !is_too_large(&self.draft)).then_some(self)
    }

    /// The translation's answer, where its sizes are within their limits or not.
    fn trial(self) -> Trial {
        let [_, agents, procedures, rules] = self.sizes;
        let fits = (0..4).all(|size| self.sizes[size] <= LIMITS[size]);
        let length = 4 * (2 + agents + procedures + rules) as u64;
        Trial::known(self.draft.bytes(), if fits { Answer::Accepted(length) } else { refused(16, 0) })
    }
}

fn is_too_large(draft: &Score) -> bool {
    let sizes = [draft.tokens as usize, draft.agents.len(), draft.procedures.len(), draft.rules.len()];
    (0..4).any(|size| sizes[size] > LIMITS[size])
}

/// Gives a draft so many more tokens, and each of its tokens but the clash a new number.
fn rename(random: &mut Random, draft: &mut Score, more: u32) {
    draft.tokens += more;
    let mut names = random.order(draft.tokens);
    let clash = names.iter().position(|&name| name == 0).expect("token 0 has a name");
    names.swap(0, clash);
    let name = |word: u32, lowest: u32| word & !(0xFF << lowest) | names[(word >> lowest & 0xFF) as usize] << lowest;
    for word in &mut draft.agents {
        *word = match oracle::kind(*word) {
            5 => name(*word, 0),
            7 | 9 | 15 => name(*word, 10),
            _ => *word,
        };
    }
    for word in &mut draft.rules {
        *word = match oracle::is_fact(*word) {
            true => name(*word, 0),
            false => name(name(name(*word, 0), 8), 16),
        };
    }
    draft.ports = generate::ports(random, draft.tokens);
}

/// A small draft, whose tokens have any numbers.
pub fn renamed(random: &mut Random) -> Vec<u8> {
    let mut draft = Score::read(&small(random));
    let more = random.below(257 - draft.tokens);
    rename(random, &mut draft, more);
    draft.bytes()
}

fn small(random: &mut Random) -> Vec<u8> {
    let kinds = [
        acts::many,
        scenes::small_draft,
        scenes::shared_body,
        scenes::small_diamond,
        scenes::recursion,
        scenes::small_diamond_of_calls,
    ];
    random.pick(&kinds)(random)
}

/// A draft that is padded so that the plain score has the sizes that are wanted.
fn padded(random: &mut Random, wanted: Wanted) -> Trial {
    loop {
        let draft = small(random);
        let padded = Padded::new(Score::read(&draft)).and_then(|padded| padded.pad(random, wanted));
        if let Some(padded) = padded {
            return padded.trial();
        }
    }
}

/// Which limit an index is about, and whether it is one past it.
pub fn side(index: u64) -> (usize, bool) {
    ((index % 4) as usize, index / 4 % 2 == 1)
}

/// One size at its limit, or one past it; the others as they come.
pub fn one(random: &mut Random, index: u64) -> Trial {
    let (limit, past) = side(index);
    let mut wanted = [None; 4];
    wanted[limit] = Some(LIMITS[limit] + usize::from(past));
    padded(random, wanted)
}

/// All sizes at their limits, or one of them one past.
pub fn all(random: &mut Random, index: u64) -> Trial {
    let (limit, past) = side(index);
    let mut wanted = LIMITS.map(Some);
    wanted[limit] = Some(LIMITS[limit] + usize::from(past));
    padded(random, wanted)
}

/// As many sets as there are of the tokens of ten watches or more.
pub fn diamond(random: &mut Random, _: u64) -> Trial {
    let steps = random.pick(&[10, 16, 16, 64, 250]);
    let body = random.pick(&[words::skip(), words::next(0), words::unless(0, 5), words::when(0, 1), words::call(0)]);
    let mut agents = scenes::diamond(body, steps, random.below(257 - steps));
    if body == words::call(0) {
        agents.push(words::next(agents.len() as u32 - 1));
    }
    Trial::known(scenes::of_agents(256, agents).bytes(), refused(16, 0))
}

/// The same by calls: more than 64 procedures.
pub fn diamond_of_calls(random: &mut Random, _: u64) -> Trial {
    let procedures = random.pick(&[7, 8, 17, 17, 64]);
    Trial::known(scenes::diamond_of_calls(procedures, random.below(2)).bytes(), refused(16, 0))
}
