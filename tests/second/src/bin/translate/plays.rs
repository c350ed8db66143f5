//! Drafts played by their own definition, and their translations played by the library.

use crate::{check, instant, judge, run};
use second::answer::{refused, same, Answer, ACCEPTED};
use second::calls::{instant_call, journal_check_call, run_call, InstantLent, JournalCheckLent, RunLent};
use second::clash;
use second::decoded::{Decoded, Token};
use second::draft::order::End;
use second::draft::{acts, player, scenes, Draft};
use second::guarded::GUARDS;
use second::lent::*;
use second::random::Random;
use second::scenes::{any_number, dirt};
use second::tests::{ensure, same_call, shown, Met, Outcome};

/// What must be met among the instants played.
pub const MET: [&str; 7] =
    ["quiet", "clash", "aborted", "stopped", "awake under no watch", "awake under one", "awake under more"];

fn note_end(met: &mut Met, end: &End) {
    met.note(MET[end.status() as usize]);
    let End::Quiet { awake, stopped, .. } = end else { return };
    let is_awake_under =
        |least: usize, most: usize| awake.iter().any(|watched| (least..=most).contains(&watched.under.len()));
    let holds = [!stopped.is_empty(), is_awake_under(0, 0), is_awake_under(1, 1), is_awake_under(2, 256)];
    for (what, _) in MET[3..].iter().zip(holds).filter(|(_, holds)| *holds) {
        met.note(what);
    }
}

/// The translation of a draft by the library, which the library's score check accepts; nothing where it is too large.
pub fn translated(met: &mut Met, random: &mut Random, draft: &[u8]) -> Result<Option<Vec<u8>>, String> {
    let lent = judge::lent(random, draft.to_vec());
    let (answer, after) = judge::translate(met, random, &lent)?;
    let Answer::Accepted(length) = answer else { return Ok(None) };
    let plain = after.plain[..length as usize].to_vec();
    same(check::check(&plain, random.below(8) as usize)?, ACCEPTED)
        .map_err(|difference| format!("score_check of a translation: {difference}{}", shown(&lent)))?;
    Ok(Some(plain))
}

/// Holds the library's run of a plain score from its start to a journal.
pub fn run_shows(random: &mut Random, plain: &[u8], list: &[Vec<Token>], journal: &[u8]) -> Outcome {
    let room = journal.len() + random.below(9) as usize;
    let lent = RunLent {
        score: plain.to_vec(),
        state: State::start(&Decoded::new(plain)).bytes(),
        inputs: list_bytes(list),
        journal: dirt(random, room),
        scratch: dirt(random, SCRATCH_BYTES),
    };
    let (answer, after) = run::run(&lent, random.below(8) as usize, random.pick(&GUARDS))?;
    same(answer, Answer::Accepted(list.len() as u64))
        .and_then(|()| ensure(after.journal.starts_with(journal), "the run's journal is not the draft's"))
        .and_then(|()| ensure(number_of(&after.state) as usize == list.len(), "the run leaves another number"))
        .map_err(|difference| format!("{difference}, which is {}{}", second::tests::hex(journal), shown(&lent)))
}

/// A list over the draft's tokens: the run of the translation shows what the draft's own definition gives.
fn play(met: &mut Met, random: &mut Random, bytes: &[u8], most_instants: u32) -> Outcome {
    let Some(plain) = translated(met, random, bytes)? else { return Ok(()) };
    let draft = Draft::new(bytes);
    let list = scenes::instants(random, &draft, most_instants);
    let ends = player::ends(&draft, &list, random);
    let journal: Vec<u8> =
        list.iter().zip(&ends).flat_map(|(inputs, end)| player::shown(&draft, inputs, end)).collect();
    ends.iter().for_each(|end| note_end(met, end));
    run_shows(random, &plain, &list, &journal)
        .map_err(|difference| format!("{difference}\ndraft {}", second::tests::hex(bytes)))
}

pub fn acts(met: &mut Met, random: &mut Random, _: u64) -> Outcome {
    let draft = acts::many(random);
    play(met, random, &draft, 12)
}

pub fn any_drafts(met: &mut Met, random: &mut Random, _: u64) -> Outcome {
    let draft = scenes::any_draft(random);
    play(met, random, &draft, 12)
}

pub fn special_drafts(met: &mut Met, random: &mut Random, _: u64) -> Outcome {
    let draft = scenes::special_draft(random);
    play(met, random, &draft, 12)
}

pub fn recursion(met: &mut Met, random: &mut Random, _: u64) -> Outcome {
    let draft = scenes::recursion(random);
    play(met, random, &draft, 12)
}

pub fn large_drafts(met: &mut Met, random: &mut Random, _: u64) -> Outcome {
    let draft = scenes::large_draft(random);
    play(met, random, &draft, 4)
}

pub fn long(met: &mut Met, random: &mut Random, _: u64) -> Outcome {
    let draft = acts::many(random);
    play(met, random, &draft, 500)
}

/// The library's check of a journal of a plain score.
fn check_answers(random: &mut Random, plain: &[u8], journal: Vec<u8>, wanted: Answer) -> Outcome {
    let lent = JournalCheckLent { score: plain.to_vec(), journal, scratch: dirt(random, SCRATCH_BYTES) };
    let (answer, _) = run::journal_check(&lent, random.below(8) as usize, random.pick(&GUARDS))?;
    same(answer, wanted).map_err(|difference| format!("journal check: {difference}{}", shown(&lent)))
}

/// A draft's journal is accepted of its translation; where it has a clash, the same with its ports sent is 14 there.
pub fn journals(met: &mut Met, random: &mut Random, _: u64) -> Outcome {
    let bytes = acts::many(random);
    let Some(plain) = translated(met, random, &bytes)? else { return Ok(()) };
    let draft = Draft::new(&bytes);
    let list = scenes::instants(random, &draft, 12);
    let journal = player::journal(&draft, &list, random).concat();
    let clashes = clash::clashes(&journal);
    if let Some(&first) = clashes.first() {
        let old = clash::sent(&draft.score, &journal, &clashes);
        check_answers(random, &plain, old, refused(14, first as u64))?;
        met.note(OLD_JOURNAL);
    }
    check_answers(random, &plain, journal, Answer::Accepted(list.len() as u64))
}

pub const OLD_JOURNAL: &str = "a draft's journal that shows outputs in a clash";

/// In the other calls a watch is a word of a wrong kind.
pub fn other_calls(met: &mut Met, random: &mut Random, _: u64) -> Outcome {
    let score = scenes::any_draft(random);
    let offset = random.below(8) as usize;
    let number = second::oracle::check(&score);
    same(check::check(&score, offset)?, number).map_err(|difference| format!("score_check: {difference}"))?;
    if number == ACCEPTED {
        return Ok(());
    }
    let state = numbered(state_bytes(RUNNING, [0]), any_number(random));
    let scratch = dirt(random, SCRATCH_BYTES);
    let (input, store, output) = (map_bytes(&[]), dirt(random, MAP_BYTES), dirt(random, MAP_BYTES));
    let lent = InstantLent { score, state, input, store, output, scratch };
    same_call(&instant_call(&lent, random), &instant::instant(&lent, offset, GUARDS[0])?)?;
    let InstantLent { score, state, scratch, .. } = lent;
    let lent = RunLent { score, state, inputs: list_bytes(&[vec![]]), journal: dirt(random, 64), scratch };
    same_call(&run_call(&lent, random), &run::run(&lent, offset, GUARDS[0])?)?;
    let RunLent { score, inputs: journal, scratch, .. } = lent;
    let lent = JournalCheckLent { score, journal, scratch };
    same_call(&journal_check_call(&lent, random), &run::journal_check(&lent, offset, GUARDS[0])?)?;
    met.note(REFUSED_BY_ALL);
    Ok(())
}

pub const REFUSED_BY_ALL: &str = "a draft refused by the other calls";
