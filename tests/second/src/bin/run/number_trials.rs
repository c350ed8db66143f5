//! Generated runs that come to the last number, or almost, with journals that end about the same instant.

use crate::judge::{self, known};
use crate::runs::written;
use second::answer::{refused, Answer};
use second::calls::{run_call, RunLent};
use second::decoded::Decoded;
use second::lent::*;
use second::random::Random;
use second::scenes;
use second::tests::{ensure, shown, Met, Outcome};
use second::words::to_bytes;

/// The most instants that a list has, so that a run can be stopped after four.
const MOST_INSTANTS: usize = 5;

const SAME_INSTANT: &str = "18 where 15 is due at the same instant";
const FULL_BEFORE: &str = "15 at the instant before 18 is due";
const FULL_AFTER: &str = "18 at the instant before 15 is due";
const RUNNING_TO_18: &str = "18 of a run in a running state";
const ABORTED_TO_18: &str = "18 of a run in an aborted state";
const ABORTED_BEFORE_18: &str = "18 of a run after an abort in it";

/// What is refused before 18, where that is due too.
const BEFORE_18: [&str; 5] = ["1 to 7 before 18", "8 before 18", "9 before 18", "12 before 18", "13 before 18"];

fn stopped_after(instants: usize) -> String {
    format!("18 after {instants} instants")
}

fn to_its_end(instants: usize) -> String {
    format!("a run over {instants} instants that ends at the last number")
}

/// What must be met.
pub fn met() -> Vec<String> {
    let counted = (0..5).flat_map(|instants| [stopped_after(instants), to_its_end(instants)]);
    let others = [SAME_INSTANT, FULL_BEFORE, FULL_AFTER, RUNNING_TO_18, ABORTED_TO_18, ABORTED_BEFORE_18];
    counted.chain(others.into_iter().chain(BEFORE_18).map(String::from)).collect()
}

/// A run far from the last number, with room enough, and what it leaves.
struct Scene {
    lent: RunLent,
    instants: usize,
    journal: Vec<u8>,
}

impl Scene {
    /// Of so many instants, from any state, or from the start of a score in which aborts hang on the inputs.
    fn any(random: &mut Random, instants: usize) -> Scene {
        let from_start = random.one_in(2);
        let score = if from_start { scenes::switchboard(random, 3) } else { scenes::small_score(random) };
        let decoded = Decoded::new(&score);
        let list: Vec<_> = (0..instants).map(|_| scenes::tokens(random, &decoded)).collect();
        let state = match random.below(4) {
            _ if from_start => State::start(&decoded).bytes(),
            0 | 1 => state_bytes(ABORTED, []),
            _ => scenes::lawful_state(random, &decoded),
        };
        let inputs = list_bytes(&list);
        let room = inputs.len() + list.len() * 4 * decoded.ports.count();
        let scratch = scenes::dirt(random, SCRATCH_BYTES);
        let lent = RunLent { score, state: numbered(state, 0), inputs, journal: vec![0; room], scratch };
        let (_, after) = run_call(&lent, random);
        Scene { lent, instants, journal: written(&after.journal).to_vec() }
    }

    /// The journal's bytes up to the end of so many instants.
    fn end(&self, count: usize) -> usize {
        instants(&self.journal)[..count].last().map_or(0, |words| 4 * words.end)
    }

    /// How many instants fit into so many bytes.
    fn fit(&self, room: usize) -> usize {
        (0..=self.instants).filter(|&count| self.end(count) <= room).count() - 1
    }

    /// A room for just so many instants: no byte more, one less than the next one needs, or any between.
    fn room_for(&self, random: &mut Random, count: usize) -> usize {
        let end = self.end(count);
        let most = if count < self.instants { self.end(count + 1) - 1 } else { end + 8 };
        let any = random.between(end as u32, most as u32) as usize;
        random.pick(&[end, most, any])
    }

    /// The state after so many instants from another number.
    fn state_after(&self, random: &mut Random, count: usize, number: u32) -> Vec<u8> {
        let words = instants(&self.lent.inputs)[..count].last().map_or(0, |words| words.end);
        let lent = RunLent { inputs: self.lent.inputs[..4 * words].to_vec(), ..self.lent.clone() };
        numbered(run_call(&lent, random).1.state, number + count as u32)
    }

    /// The answer with so many instants left before the last number, and so many that fit into the journal.
    fn answer(&self, left: usize, fit: usize) -> Answer {
        if self.instants <= left.min(fit) {
            Answer::Accepted(self.instants as u64)
        } else if left <= fit {
            refused(18, left as u64)
        } else {
            refused(15, fit as u64)
        }
    }
}

/// Lists of each number of instants in turn, run with each number of them left before the last number, in journals that
/// end before the instant at which 18 is due, at it, behind it, and nowhere.
pub fn to_the_last(met: &mut Met, random: &mut Random, index: u64) -> Outcome {
    let instants = index as usize % (MOST_INSTANTS + 1);
    let scene = Scene::any(random, instants);
    for left in 0..=instants + 1 {
        for count in [left.saturating_sub(1), left, left + 1] {
            let room = scene.room_for(random, count.min(instants));
            judge_left(met, random, &scene, left, room)?;
        }
        judge_left(met, random, &scene, left, scene.journal.len() + 4)?;
    }
    Ok(())
}

/// With so many instants left, and so many bytes for the journal.
fn judge_left(met: &mut Met, random: &mut Random, scene: &Scene, left: usize, room: usize) -> Outcome {
    let number = LAST_NUMBER - left as u32;
    let state = numbered(scene.lent.state.clone(), number);
    let lent = RunLent { state, journal: scenes::dirt(random, room), ..scene.lent.clone() };
    let fit = scene.fit(room);
    let (answer, after) = judge::run(met, random, &lent)?;
    let wanted = scene.answer(left, fit);
    let count = wanted.written() as usize;
    let end = scene.end(count);
    let journal = [&scene.journal[..end], &lent.journal[end..]].concat();
    let left_alike = after.journal == journal && after.state == scene.state_after(random, count, number);
    known(answer, answer == wanted)
        .and_then(|()| ensure(left_alike, "both engines leave another journal or state"))
        .map_err(|difference| format!("{difference}{}", shown(&lent)))?;
    note(met, scene, answer, (left, fit), (is_aborted(&lent.state), is_aborted(&after.state)));
    Ok(())
}

fn note(met: &mut Met, scene: &Scene, answer: Answer, (left, fit): (usize, usize), aborted: (bool, bool)) {
    match answer.number() {
        0 if scene.instants == left => met.note(&to_its_end(left)),
        15 if fit + 1 == left && left < scene.instants => met.note(FULL_BEFORE),
        18 => {
            met.note(&stopped_after(left));
            if fit == left {
                met.note(SAME_INSTANT);
            }
            if fit == left + 1 && fit < scene.instants {
                met.note(FULL_AFTER);
            }
            met.note(match aborted {
                (false, false) => RUNNING_TO_18,
                (false, true) => ABORTED_BEFORE_18,
                _ => ABORTED_TO_18,
            });
        }
        _ => {}
    }
}

/// An instant is wanted at the last number, at once or after one more, and something else is wrong: in turn the score,
/// a length, the state, the list's bytes, and the list's last word.
pub fn with_a_fault(met: &mut Met, random: &mut Random, index: u64) -> Outcome {
    let instants = random.between(2, 4) as usize;
    let scene = Scene::any(random, instants);
    let decoded = Decoded::new(&scene.lent.score);
    let number = LAST_NUMBER - random.below(2);
    let mut lent = RunLent { state: numbered(scene.lent.state, number), ..scene.lent };
    let fault = index as usize % BEFORE_18.len();
    match fault {
        0 => scenes::damage_score(random, &mut lent.score),
        1 if random.one_in(2) => scenes::resize(random, &mut lent.scratch),
        1 => scenes::resize(random, &mut lent.state),
        2 => lent.state = numbered(scenes::unlawful_state(random, &decoded), number),
        3 => lent.inputs.extend(vec![0; random.between(1, 3) as usize]),
        _ => lent.inputs.extend(to_bytes(&[random.pick(&[instant_word(1), output_word(0), input_word(256), 0])])),
    }
    let (answer, _) = judge::run(met, random, &lent)?;
    let holds = fault == 0 || answer.number() == [8, 9, 12, 13][fault - 1];
    ensure(holds, &format!("both engines say {answer}{}", shown(&lent)))?;
    if fault > 0 || answer.number() <= 7 {
        met.note(BEFORE_18[fault]);
    }
    Ok(())
}
