//! Generated instants in which clashes come and go.

use crate::trials::judge;
use second::answer::Answer;
use second::calls::InstantLent;
use second::clash::{cause, inputs, kinds_of_ports, score, standing};
use second::decoded::{Decoded, Token};
use second::lent::*;
use second::random::Random;
use second::tests::{ensure, shown, Met, Outcome};
use second::{lawful, scenes};

const SENDS: &str = "a quiet instant that sends tokens";
const OUTSIDE: &str = "a quiet instant with tokens outside the ports";
const ALL_OUTSIDE: &str = "a quiet instant with tokens, none of them at the ports";
const SENDS_AFTER: &str = "a quiet instant that sends tokens right after a clash";
const CLASHES_AFTER: &str = "a clash right after a quiet instant that sends tokens";
const ABORTS_AFTER: &str = "an abort right after a clash";
const ABORTS_IN: &str = "an abort where the clash was told or stands";

/// What must be met beside clashes of every cause and with ports of every kind.
pub const MET: [&str; 7] = [SENDS, OUTSIDE, ALL_OUTSIDE, SENDS_AFTER, CLASHES_AFTER, ABORTS_AFTER, ABORTS_IN];

/// Instants on one state. What each leaves in its maps is held to what its status says.
pub fn in_turn(met: &mut Met, random: &mut Random, _: u64) -> Outcome {
    let score = score(random);
    let decoded = Decoded::new(&score);
    let others = if random.one_in(2) { vec![] } else { scenes::agents(random, &decoded) };
    let mut state = state_bytes(RUNNING, others.into_iter().chain([decoded.roots[0]]));
    let mut before = None;
    for _ in 0..random.between(2, 6) {
        let tokens = inputs(random, &decoded);
        let lent = InstantLent { state, input: map_bytes(&tokens), ..lawful::instant(random, score.clone()) };
        let offset = random.below(8) as usize;
        let (answer, after) = judge(met, &lent, random, offset)?;
        let Answer::Instant { status, .. } = answer else { return Err(format!("{answer}{}", shown(&lent))) };
        let maps = Maps::read(status, &after);
        maps.hold(&decoded).map_err(|difference| format!("{difference}{}", shown(&lent)))?;
        maps.note(met, &decoded, &tokens);
        maps.note_after(met, before.as_ref());
        let aborts = status == 2 && !is_aborted(&lent.state);
        note_where(met, aborts && (tokens.contains(&0) || standing(&decoded)[0]), ABORTS_IN);
        state = after.state;
        before = Some(maps);
    }
    Ok(())
}

/// What an instant leaves.
struct Maps {
    status: u32,
    store: Vec<Token>,
    output: Vec<Token>,
}

impl Maps {
    fn read(status: u32, after: &InstantLent) -> Maps {
        Maps { status, store: map_tokens(&after.store), output: map_tokens(&after.output) }
    }

    fn hold(&self, score: &Decoded) -> Outcome {
        let all: Vec<Token> = (0..score.tokens).collect();
        let at_ports: Vec<Token> = self.store.iter().copied().filter(|token| score.ports.contains(token)).collect();
        let holds = match self.status {
            0 => !self.store.contains(&0) && self.output == at_ports,
            1 => self.store == all && self.output.is_empty(),
            _ => self.store.is_empty() && self.output.is_empty(),
        };
        ensure(holds, &format!("both engines leave maps that status {} does not", self.status))
    }

    fn note(&self, met: &mut Met, score: &Decoded, inputs: &[Token]) {
        if self.status == 1 {
            kinds_of_ports(score).chain([cause(score, inputs)]).for_each(|name| met.note(name));
        }
        let is_outside = |token: &Token| !score.ports.contains(token);
        let some_outside = self.status == 0 && self.store.iter().any(is_outside);
        note_where(met, self.sends(), SENDS);
        note_where(met, some_outside, OUTSIDE);
        note_where(met, some_outside && self.output.is_empty(), ALL_OUTSIDE);
    }

    fn note_after(&self, met: &mut Met, before: Option<&Maps>) {
        let Some(before) = before else { return };
        let was_clash = before.status == 1;
        note_where(met, was_clash && self.sends(), SENDS_AFTER);
        note_where(met, before.sends() && self.status == 1, CLASHES_AFTER);
        note_where(met, was_clash && self.status == 2, ABORTS_AFTER);
    }

    fn sends(&self) -> bool {
        self.status == 0 && !self.output.is_empty()
    }
}

fn note_where(met: &mut Met, holds: bool, what: &str) {
    if holds {
        met.note(what);
    }
}
