//! Generated instants at every kind of number.

use crate::trials::{judge, resize_one};
use second::calls::{InstantLent, Lent};
use second::decoded::Decoded;
use second::lent::*;
use second::random::Random;
use second::tests::{ensure, shown, Met, Outcome};
use second::{lawful, scenes};

/// The numbers that instants must be met at, in running and in aborted states: the first and the last ones, and those
/// at which a byte is full, or all bits but the highest.
const NUMBERS: [u32; 9] = [0, 1, 0xFF, 0xFFFF, 0xFF_FFFF, 0x7FFF_FFFF, LAST_NUMBER - 2, LAST_NUMBER - 1, LAST_NUMBER];

fn noted_at(number: u32, aborted: bool) -> String {
    format!("an instant at number {number} of {}", if aborted { "an aborted state" } else { "a running state" })
}

/// What is refused before 18, where that is due too.
const BEFORE_18: [&str; 4] = ["1 to 7 before 18", "8 before 18", "9 before 18", "10 before 18"];

/// What must be met.
pub fn met() -> Vec<String> {
    let at = |&number| [noted_at(number, false), noted_at(number, true)];
    NUMBERS.iter().flat_map(at).chain(BEFORE_18.map(String::from)).collect()
}

/// A lawful call at a number, of a running state or of an aborted one.
fn lent_at(random: &mut Random, number: u32, aborted: bool) -> InstantLent {
    let score = scenes::small_score(random);
    let agents = scenes::agents(random, &Decoded::new(&score));
    let state = if aborted { state_bytes(ABORTED, []) } else { state_bytes(RUNNING, agents) };
    InstantLent { state: numbered(state, number), ..lawful::instant(random, score) }
}

/// One of the numbers in turn, or any other. At the last one all stays as it was; at another one the state's number is
/// one higher, and of an aborted state nothing else changes.
pub fn at_numbers(met: &mut Met, random: &mut Random, index: u64) -> Outcome {
    let aborted = index.is_multiple_of(2);
    let turn = index as usize / 2 % (NUMBERS.len() + 1);
    let number = NUMBERS.get(turn).copied().unwrap_or_else(|| scenes::any_number(random));
    let lent = lent_at(random, number, aborted);
    let offset = random.below(8) as usize;
    let (answer, after) = judge(met, &lent, random, offset)?;
    let (wanted, holds) = if number == LAST_NUMBER {
        (18, after.buffers() == lent.buffers())
    } else {
        (0, number_of(&after.state) == number + 1)
    };
    let same_agents = after.state[..AGENT_BYTES.end] == lent.state[..AGENT_BYTES.end];
    ensure(answer.number() == wanted && holds && (same_agents || !aborted), &format!("both engines say {answer}"))
        .map_err(|difference| format!("{difference}{}", shown(&lent)))?;
    met.note(&noted_at(number, aborted));
    Ok(())
}

/// At the last number something else is wrong, in turn with the score, a length, the state and the input.
pub fn with_a_fault(met: &mut Met, random: &mut Random, index: u64) -> Outcome {
    let aborted = random.one_in(4);
    let mut lent = lent_at(random, LAST_NUMBER, aborted);
    let decoded = Decoded::new(&lent.score);
    let fault = index as usize % BEFORE_18.len();
    match fault {
        0 => scenes::damage_score(random, &mut lent.score),
        1 => resize_one(random, &mut lent),
        2 => lent.state = numbered(scenes::unlawful_state(random, &decoded), LAST_NUMBER),
        _ => lent.input = scenes::unlawful_input(random, &decoded),
    }
    let offset = random.below(8) as usize;
    let (answer, _) = judge(met, &lent, random, offset)?;
    let holds = fault == 0 || answer.number() as usize == 7 + fault;
    ensure(holds, &format!("both engines say {answer}{}", shown(&lent)))?;
    if fault > 0 || answer.number() <= 7 {
        met.note(BEFORE_18[fault]);
    }
    Ok(())
}
