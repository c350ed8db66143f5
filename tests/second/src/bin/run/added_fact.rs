//! A token that is in the store of every unaborted instant may as well be a fact: the run stays as it was.

use crate::{instant, judge};
use second::calls::{InstantLent, RunLent};
use second::decoded::{Decoded, Token};
use second::guarded::GUARDS;
use second::lent::*;
use second::random::Random;
use second::tests::{ensure, shown, Met, Outcome};
use second::{lawful, oracle, scenes, words};

/// The library's answer to an instant call, and the buffers after it.
type Played = (u64, InstantLent);

const MOST_RULES: usize = 256;

/// Runs a score as it is and with such a fact more. Of a score that has no such token nothing is claimed.
pub fn changes_nothing(met: &mut Met, random: &mut Random, _: u64) -> Outcome {
    let lent = any_run(random);
    let played = instants_of(met, random, &lent)?;
    let decoded = Decoded::new(&lent.score);
    let Some(token) = new_fact(random, &decoded, &played) else { return Ok(()) };
    let Some(score) = with_fact(random, &lent.score, token) else { return Ok(()) };
    let more = RunLent { score, ..lent.clone() };
    same_run(met, random, &lent, &more)
        .and_then(|()| same_instants(&played, &instants_of(met, random, &more)?))
        .map_err(|difference| format!("with the fact {token}: {difference}{}", shown(&lent)))?;
    if !is_fact(&decoded, token) && played.iter().any(is_unaborted) {
        met.count_fact_added();
    }
    Ok(())
}

/// Mostly of a score that tells a token at every instant, from a state in which it does so; at times the journal ends
/// anywhere.
fn any_run(random: &mut Random) -> RunLent {
    let tells = !random.one_in(4);
    let score = if tells { scenes::telling_score(random) } else { scenes::score(random) };
    let decoded = Decoded::new(&score);
    let mut lent = lawful::run(random, score, 6);
    if tells {
        let others = if random.one_in(2) { vec![] } else { scenes::agents(random, &decoded) };
        let agents = others.into_iter().chain([decoded.roots[0]]);
        lent.state = numbered(state_bytes(RUNNING, agents), scenes::early_number(random));
    }
    if random.one_in(4) {
        lent.journal.truncate(random.below(lent.journal.len() as u32 + 1) as usize);
    }
    lent
}

/// The instants of the whole list, each played by the instant call, also those that the journal has no room for.
fn instants_of(met: &mut Met, random: &mut Random, run: &RunLent) -> Result<Vec<Played>, String> {
    let mut state = run.state.clone();
    let mut played = Vec::new();
    for inputs in inputs(&run.inputs) {
        let lent = InstantLent { state, input: map_bytes(&inputs), ..lawful::instant(random, run.score.clone()) };
        let (answer, after) = instant::instant(&lent, random.below(8) as usize, random.pick(&GUARDS))?;
        met.count("instant", &lent.score, answer);
        state = after.state.clone();
        played.push((answer, after));
    }
    Ok(played)
}

fn is_unaborted((_, after): &Played) -> bool {
    !is_aborted(&after.state)
}

fn is_fact(score: &Decoded, token: Token) -> bool {
    score.rules.iter().any(|rule| rule.premises.is_empty() && rule.conclusion == token)
}

/// A token that every unaborted instant has in its store: one that is not a fact already, where there is one.
fn new_fact(random: &mut Random, score: &Decoded, played: &[Played]) -> Option<Token> {
    let stores: Vec<Vec<Token>> =
        played.iter().filter(|played| is_unaborted(played)).map(|(_, after)| map_tokens(&after.store)).collect();
    let is_always = |token: &Token| stores.iter().all(|store| store.contains(token));
    let (facts, new): (Vec<Token>, Vec<Token>) =
        (0..score.tokens).filter(is_always).partition(|&token| is_fact(score, token));
    [new, facts].iter().find(|tokens| !tokens.is_empty()).map(|tokens| random.pick(tokens))
}

/// The score with a fact put in at a random place among its rules; nothing where it has as many as there can be.
fn with_fact(random: &mut Random, score: &[u8], token: Token) -> Option<Vec<u8>> {
    let mut words = oracle::words(score);
    let rules = oracle::rule_places(&words);
    if rules.len() == MOST_RULES {
        return None;
    }
    let at = rules.start + random.below(rules.len() as u32 + 1) as usize;
    words.insert(at, words::fact(token as u32));
    Some(words::to_bytes(&words))
}

fn same_run(met: &mut Met, random: &mut Random, lent: &RunLent, more: &RunLent) -> Outcome {
    let (answer, after) = judge::run(met, random, lent)?;
    let (other_answer, other) = judge::run(met, random, more)?;
    ensure(answer == other_answer, &format!("the run answers {other_answer}, not {answer}"))?;
    ensure(after.journal == other.journal, "the run writes another journal")?;
    ensure(after.state == other.state, "the run leaves another state")
}

fn same_instants(played: &[Played], other: &[Played]) -> Outcome {
    for ((answer, after), (other_answer, other)) in played.iter().zip(other) {
        ensure(answer == other_answer, "an instant has another status or count")?;
        ensure(after.store == other.store, "an instant has another store")?;
        ensure(after.output == other.output, "an instant has another output")?;
        ensure(after.state == other.state, "an instant leaves another state")?;
    }
    Ok(())
}
