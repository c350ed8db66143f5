//! The translator, held to translations written out by hand and to the order of refusals.

use super::*;
use crate::answer::{refused, Answer, ACCEPTED};
use crate::calls::{translate_call, TranslateLent};
use crate::draft;
use crate::lent::PLAIN_BYTES;
use crate::translate::written::Written;
use crate::words::to_bytes;

fn shown(bytes: &[u8]) -> Vec<String> {
    oracle::words(bytes).iter().map(|word| format!("{word:08X}")).collect()
}

#[test]
fn written_out_by_hand() {
    for Written { name, draft, plain } in written::ALL {
        let (draft, plain) = (to_bytes(draft), to_bytes(plain));
        assert_eq!(draft::check(&draft), ACCEPTED, "{name}");
        assert_eq!(shown(&translate(&draft).expect("the plain score fits")), shown(&plain), "{name}");
        let (answer, after) = translate_call(&TranslateLent { draft, plain: vec![0xA5; PLAIN_BYTES] });
        assert_eq!(answer.packed(), plain.len() as u64, "{name}");
        assert_eq!(after.plain[..plain.len()], plain, "{name}");
        assert!(after.plain[plain.len()..].iter().all(|&byte| byte == 0xA5), "{name}");
    }
}

fn answer(draft: Vec<u8>, plain: usize) -> Answer {
    let lent = TranslateLent { draft, plain: vec![0xA5; plain] };
    let (answer, after) = translate_call(&lent);
    assert!(answer.number() == 0 || after.plain == lent.plain);
    answer
}

/// Nine watches in a diamond over a skip, and so many parallels on top: 1,023 agents and these.
fn nine_watches(parallels: u32) -> Vec<u8> {
    let mut agents = draft::scenes::diamond(words::skip(), 9, 1);
    for _ in 0..parallels {
        let last = agents.len() as u32 - 1;
        agents.push(words::parallel(last, last));
    }
    draft::scenes::of_agents(10, agents).bytes()
}

#[test]
fn the_limit_of_agents() {
    assert_eq!(answer(nine_watches(1), PLAIN_BYTES), Answer::Accepted(4 * (2 + 1024 + 1)));
    assert_eq!(answer(nine_watches(2), PLAIN_BYTES), refused(16, 0));
}

#[test]
fn the_order_of_refusals() {
    let circle = to_bytes(&[0x1000_0100, 0xB000_0000, 0xA000_0000, 0xF000_0000, 0x3000_0001]);
    assert_eq!(answer(circle, 0), refused(7, 0));
    for length in [0, 1, PLAIN_BYTES - 4, PLAIN_BYTES - 1, PLAIN_BYTES + 1, PLAIN_BYTES + 4] {
        assert_eq!(answer(nine_watches(2), length), refused(8, 0));
        assert_eq!(answer(nine_watches(1), length), refused(8, 0));
    }
    assert_eq!(refused(16, 0).packed(), 1 << 61 | 16);
}
