//! Generated runs with clashes, and their journals by both readings: that of document 01 sends what is at the ports.

use crate::judge::{self, known};
use crate::runs::written;
use second::answer::{refused, Answer};
use second::calls::{journal, JournalCheckLent, RunLent};
use second::clash::{cause, clashes, kinds_of_ports, list, output_bytes, score, sent};
use second::decoded::{Decoded, Token};
use second::lent::*;
use second::random::Random;
use second::scenes;
use second::tests::{ensure, shown, Met, Outcome};
use second::words::to_bytes;

const BACK: &str = "outputs in the instant after a clash";
const STOPPED: &str = "a run stopped at a clash";
const JUST_ENOUGH: &str = "a run with just room enough for a clash";
const NOT_FOR_PORTS: &str = "a run with room for a clash, and not for its ports";
const OLD: &str = "an old journal";
const TAKEN_OUT: &str = "an old journal with its outputs in clashes taken out";
const ONE_SENT: &str = "a journal with one of several clashes sent";
const PORT_ADDED: &str = "a journal with one output at the ports added to a clash";
const OTHER_ADDED: &str = "a journal with one output outside the ports added to a clash";
const UNKNOWN_ADDED: &str = "a journal with an output T or above added to a clash";
const WRONG_BEFORE: &str = "a journal with a wrong instant before a clash that is sent";
const LACKING_ALL: &str = "a journal that lacks the outputs of a quiet instant";
const LACKING_ONE: &str = "a journal that lacks one output of a quiet instant";

/// What must be met beside clashes of every cause and with ports of every kind.
pub const MET: [&str; 13] = [
    BACK,
    STOPPED,
    JUST_ENOUGH,
    NOT_FOR_PORTS,
    OLD,
    TAKEN_OUT,
    ONE_SENT,
    PORT_ADDED,
    OTHER_ADDED,
    UNKNOWN_ADDED,
    WRONG_BEFORE,
    LACKING_ALL,
    LACKING_ONE,
];

/// A score, a list for it, and the journal of its run from the start, which has a clash.
struct Scene {
    score: Vec<u8>,
    decoded: Decoded,
    list: Vec<Vec<Token>>,
    journal: Vec<u8>,
}

impl Scene {
    fn any(random: &mut Random) -> Scene {
        loop {
            let score = score(random);
            let decoded = Decoded::new(&score);
            let list = list(random, &decoded, 8);
            let journal = journal(&decoded, &list, random).concat();
            if !clashes(&journal).is_empty() {
                return Scene { score, decoded, list, journal };
            }
        }
    }

    fn clashes(&self) -> Vec<usize> {
        clashes(&self.journal)
    }

    fn any_clash(&self, random: &mut Random) -> usize {
        random.pick(&self.clashes())
    }

    /// The word behind an instant's last.
    fn end(&self, instant: usize) -> usize {
        instants(&self.journal)[instant].end
    }

    /// The journal with words put in behind an instant's last.
    fn with(&self, instant: usize, words: &[u32]) -> Vec<u8> {
        let mut journal = self.journal.clone();
        let end = 4 * self.end(instant);
        journal.splice(end..end, to_bytes(words));
        journal
    }

    /// A run of the list from the start, with so many bytes for the journal.
    fn run(&self, random: &mut Random, room: usize) -> RunLent {
        RunLent {
            score: self.score.clone(),
            state: State::start(&self.decoded).bytes(),
            inputs: list_bytes(&self.list),
            journal: scenes::dirt(random, room),
            scratch: scenes::dirt(random, SCRATCH_BYTES),
        }
    }

    /// Holds the check of a journal to what is known of it, and notes what it was.
    fn check(&self, met: &mut Met, random: &mut Random, journal: Vec<u8>, wanted: Answer, what: &str) -> Outcome {
        let scratch = scenes::dirt(random, SCRATCH_BYTES);
        let lent = JournalCheckLent { score: self.score.clone(), journal, scratch };
        let answer = judge::journal_check(met, random, &lent)?;
        known(answer, answer == wanted).map_err(|difference| format!("{difference}, not {wanted}{}", shown(&lent)))?;
        met.note(what);
        Ok(())
    }
}

/// No instant of status 1 shows an output.
pub fn runs(met: &mut Met, random: &mut Random, _: u64) -> Outcome {
    let scene = Scene::any(random);
    let mut lent = scene.run(random, scene.journal.len() + 4);
    lent.journal.fill(0);
    let (answer, after) = judge::run(met, random, &lent)?;
    known(answer, answer == Answer::Accepted(scene.list.len() as u64))?;
    let journal = written(&after.journal);
    for clash in clashes(journal) {
        ensure(output_bytes(journal, clash).is_empty(), "a clash shows outputs")?;
        kinds_of_ports(&scene.decoded)
            .chain([cause(&scene.decoded, &scene.list[clash])])
            .for_each(|name| met.note(name));
        if clash + 1 < scene.list.len() && !output_bytes(journal, clash + 1).is_empty() {
            met.note(BACK);
        }
    }
    Ok(())
}

/// The journal ends at a clash: a byte before its end, at it, and between it and where its ports would end.
pub fn rooms(met: &mut Met, random: &mut Random, _: u64) -> Outcome {
    let scene = Scene::any(random);
    let end = 4 * scene.end(scene.any_clash(random));
    let ports = 4 * scene.decoded.ports.clone().count() as u32;
    let rooms = [end - 1, end, end + random.between(1, ports - 1) as usize];
    for (room, what) in rooms.into_iter().zip([STOPPED, JUST_ENOUGH, NOT_FOR_PORTS]) {
        let lent = scene.run(random, room);
        let (answer, _) = judge::run(met, random, &lent)?;
        let fit = instants(&scene.journal).iter().filter(|words| 4 * words.end <= room).count();
        let wanted = if fit == scene.list.len() { Answer::Accepted(fit as u64) } else { refused(15, fit as u64) };
        known(answer, answer == wanted)?;
        met.note(what);
    }
    Ok(())
}

/// An old journal meets 14 at its first clash, and without those outputs it is accepted.
pub fn old_journals(met: &mut Met, random: &mut Random, _: u64) -> Outcome {
    let scene = Scene::any(random);
    let clashes = scene.clashes();
    let old = sent(&scene.decoded, &scene.journal, &clashes);
    scene.check(met, random, old.clone(), refused(14, clashes[0] as u64), OLD)?;
    let mut taken_out = old;
    for &clash in clashes.iter().rev() {
        taken_out.drain(output_bytes(&taken_out, clash));
    }
    scene.check(met, random, taken_out, Answer::Accepted(scene.list.len() as u64), TAKEN_OUT)
}

/// Of several clashes one is sent.
pub fn one_clash_sent(met: &mut Met, random: &mut Random, _: u64) -> Outcome {
    let scene = Scene::any(random);
    if scene.clashes().len() == 1 {
        return Ok(());
    }
    let clash = scene.any_clash(random);
    let journal = sent(&scene.decoded, &scene.journal, &[clash]);
    scene.check(met, random, journal, refused(14, clash as u64), ONE_SENT)
}

/// One of the numbers below a limit that are wanted, where there is one.
fn any_below(random: &mut Random, limit: usize, is_wanted: impl Fn(&usize) -> bool) -> Option<usize> {
    let numbers: Vec<usize> = (0..limit).filter(is_wanted).collect();
    (!numbers.is_empty()).then(|| random.pick(&numbers))
}

/// A single output word is put in at the end of a clash: 14 there, or 13 at the word of a token T or above.
pub fn output_added(met: &mut Met, random: &mut Random, _: u64) -> Outcome {
    let scene = Scene::any(random);
    let (clash, ports, tokens) = (scene.any_clash(random), &scene.decoded.ports, scene.decoded.tokens);
    let (differs, fault) = (refused(14, clash as u64), refused(13, scene.end(clash) as u64));
    let at_ports = any_below(random, tokens, |token| ports.contains(token));
    let outside = any_below(random, tokens, |token| !ports.contains(token));
    let unknown = if random.one_in(2) { Some(tokens) } else { any_below(random, 300, |&token| token > tokens) };
    for (token, wanted, what) in
        [(at_ports, differs, PORT_ADDED), (outside, differs, OTHER_ADDED), (unknown, fault, UNKNOWN_ADDED)]
    {
        let Some(token) = token else { continue };
        scene.check(met, random, scene.with(clash, &[output_word(token)]), wanted, what)?;
    }
    Ok(())
}

/// An instant before a clash that is sent has another status: 14 at it.
pub fn wrong_before(met: &mut Met, random: &mut Random, _: u64) -> Outcome {
    let scene = Scene::any(random);
    let clash = scene.any_clash(random);
    if clash == 0 {
        return Ok(());
    }
    let wrong = random.below(clash as u32) as usize;
    let mut journal = sent(&scene.decoded, &scene.journal, &[clash]);
    let status = 4 * instants(&journal)[wrong].start;
    journal[status] = (journal[status] + 1 + random.below(2) as u8) % 3;
    scene.check(met, random, journal, refused(14, wrong as u64), WRONG_BEFORE)
}

/// The outputs of a quiet instant are taken out, or one of them: 14 there.
pub fn outputs_taken_out(met: &mut Met, random: &mut Random, _: u64) -> Outcome {
    let scene = Scene::any(random);
    let shows = |&instant: &usize| !output_bytes(&scene.journal, instant).is_empty();
    let Some(instant) = any_below(random, scene.list.len(), shows) else { return Ok(()) };
    let outputs = output_bytes(&scene.journal, instant);
    let one = outputs.start + 4 * random.below(outputs.len() as u32 / 4) as usize;
    for (bytes, what) in [(outputs, LACKING_ALL), (one..one + 4, LACKING_ONE)] {
        let mut journal = scene.journal.clone();
        journal.drain(bytes);
        scene.check(met, random, journal, refused(14, instant as u64), what)?;
    }
    Ok(())
}
