//! A draft played from its start, by its own definition: each order starts with the copies that the one before left
//! awake.

use crate::decoded::Token;
use crate::draft::order::{End, Order, Watched};
use crate::draft::Draft;
use crate::engine::{output, HEAVIEST_FOLLOWED};
use crate::lent::instant_bytes;
use crate::random::Random;
use crate::weight::Weights;
use std::collections::BTreeSet;

pub struct Player<'a> {
    draft: &'a Draft,
    /// The copies awake, or nothing once aborted.
    awake: Option<Vec<Watched>>,
}

impl Player<'_> {
    /// The root of procedure 0, under no token.
    pub fn start(draft: &Draft) -> Player<'_> {
        let root = Watched { agent: draft.score.roots[0], under: BTreeSet::new() };
        Player { draft, awake: Some(vec![root]) }
    }

    /// The copies awake, or none once aborted.
    pub fn awake(&self) -> &[Watched] {
        self.awake.as_deref().unwrap_or_default()
    }

    /// The end of the next instant, by a random order.
    pub fn instant(&mut self, inputs: &[Token], random: &mut Random) -> End {
        let Some(copies) = &self.awake else { return End::Abort };
        let end = instant(self.draft, copies, inputs, random);
        self.go_on(&end);
        end
    }

    /// The next instant starts with what this end leaves awake.
    pub fn go_on(&mut self, end: &End) {
        self.awake = match end {
            End::Abort => None,
            End::Quiet { awake, .. } => Some(awake.clone()),
        };
    }
}

/// The end of an instant, by a random order; a heavy one is followed without copies.
fn instant(draft: &Draft, agents: &[Watched], inputs: &[Token], random: &mut Random) -> End {
    let order = Order::start(draft, agents, inputs);
    let weight = weight(&mut Weights::new(&draft.score), agents, inputs);
    if weight > HEAVIEST_FOLLOWED {
        return order.without_copies().finish(random);
    }
    let mut order = order;
    let end = order.finish(random);
    assert!(order.steps <= weight, "an order of {} steps has weight {weight}", order.steps);
    end
}

/// The weight of what an order starts with. A watch takes one step to its body, and so weighs as a when does.
pub fn weight(weights: &mut Weights, agents: &[Watched], inputs: &[Token]) -> u64 {
    let agents: Vec<_> = agents.iter().map(|watched| watched.agent).collect();
    weights.of_order(&agents, inputs.len())
}

/// What a journal shows of an instant that ends so.
pub fn shown(draft: &Draft, inputs: &[Token], end: &End) -> Vec<u8> {
    let outputs: Vec<Token> = match end {
        End::Abort => vec![],
        End::Quiet { store, .. } => output(store, &draft.score.ports),
    };
    instant_bytes(end.status(), inputs, &outputs)
}

/// The ends of the instants of a list, from the start.
pub fn ends(draft: &Draft, list: &[Vec<Token>], random: &mut Random) -> Vec<End> {
    let mut player = Player::start(draft);
    list.iter().map(|inputs| player.instant(inputs, random)).collect()
}

/// The journal of a list from the start, instant by instant.
pub fn journal(draft: &Draft, list: &[Vec<Token>], random: &mut Random) -> Vec<Vec<u8>> {
    let ends = ends(draft, list, random);
    list.iter().zip(&ends).map(|(inputs, end)| shown(draft, inputs, end)).collect()
}
