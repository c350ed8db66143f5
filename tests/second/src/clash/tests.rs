//! What a clash sends, by the second engine and by a draft's own definition, and what document 01 has it send.

use super::*;
use crate::calls;
use crate::draft::order::End;
use crate::draft::{self, player, Draft};
use crate::engine;
use crate::sample::S;
use crate::sequence::Sequence;

const LIST: [&[Token]; 3] = [&[1], &[], &[1, 3]];

fn sample_list() -> Vec<Vec<Token>> {
    LIST.iter().map(|inputs| inputs.to_vec()).collect()
}

#[test]
fn the_third_instant_of_the_sample_ends_after_its_inputs() {
    let score = Decoded::new(&to_bytes(&S));
    let wanted: [&[u32]; 3] =
        [&[0xC000_0000, 0xD000_0001, 0xE000_0002], &[0xC000_0000], &[0xC000_0001, 0xD000_0001, 0xD000_0003]];
    let journal = calls::journal(&score, &sample_list(), &mut Random::new(0, 0));
    assert_eq!(journal, wanted.map(to_bytes));
    assert_eq!(clashes(&journal.concat()), [2]);
    let sent = sent(&score, &journal.concat(), &[2]);
    assert_eq!(oracle::words(&sent)[4..], [0xC000_0001, 0xD000_0001, 0xD000_0003, 0xE000_0002, 0xE000_0003]);
    assert_eq!(output_bytes(&sent, 2), 28..36);
}

/// What document 01 shows of an instant with this store.
fn by_document_01(ports: std::ops::RangeInclusive<Token>, status: u32, inputs: &[Token], store: &Store) -> Vec<u8> {
    let outputs: Vec<Token> = ports.filter(|&token| store[token]).collect();
    instant_bytes(status, inputs, &outputs)
}

/// How many instants of a status were compared, the clash last.
fn hold_instant(met: &mut [u64; 2], status: u32, got: &[u8], old: &[u8]) {
    let words = oracle::words(got);
    assert_eq!(words[0], instant_word(status));
    match status {
        1 => assert!(words.iter().all(|&word| oracle::kind(word) != 14) && old.starts_with(got)),
        _ => assert_eq!(got, old),
    }
    met[status as usize] += 1;
}

#[test]
fn a_clash_shows_no_outputs_and_a_quiet_instant_shows_document_01s() {
    let mut met = [0; 2];
    for index in 0..4_000 {
        let mut random = Random::new(0, index);
        let score = Decoded::new(&score(&mut random));
        let list = list(&mut random, &score, 8);
        let mut sequence = Sequence::start(&score, &[score.roots[0]], 0, &mut random);
        let journal = calls::journal(&score, &list, &mut random);
        let sent = sent(&score, &journal.concat(), &clashes(&journal.concat()));
        for ((inputs, got), range) in list.iter().zip(&journal).zip(instants(&sent)) {
            let end = sequence.instant(inputs, &mut random);
            let engine::End::Quiet { store, .. } = &end else { break };
            let old = by_document_01(score.ports.clone(), end.status(), inputs, store);
            assert_eq!(sent[4 * range.start..4 * range.end], old);
            hold_instant(&mut met, end.status(), got, &old);
        }
    }
    assert!(met.iter().all(|&times| times >= 1_000), "{met:?}");
}

#[test]
fn a_draft_shows_no_outputs_in_a_clash() {
    let mut met = [0; 2];
    for index in 0..4_000 {
        let mut random = Random::new(1, index);
        let draft = Draft::new(&draft::acts::many(&mut random));
        let list = draft::scenes::instants(&mut random, &draft, 8);
        for (inputs, end) in list.iter().zip(player::ends(&draft, &list, &mut random)) {
            let End::Quiet { store, .. } = &end else { break };
            let old = by_document_01(draft.score.ports.clone(), end.status(), inputs, store);
            hold_instant(&mut met, end.status(), &player::shown(&draft, inputs, &end), &old);
        }
    }
    assert!(met.iter().all(|&times| times >= 1_000), "{met:?}");
}

#[test]
fn clashes_have_every_cause_and_ports_of_every_kind() {
    let mut met = std::collections::BTreeMap::new();
    for index in 0..4_000 {
        let mut random = Random::new(2, index);
        let score = Decoded::new(&score(&mut random));
        let inputs = inputs(&mut random, &score);
        let end = Sequence::start(&score, &[score.roots[0]], 0, &mut random).instant(&inputs, &mut random);
        if end.status() == 1 {
            for name in kinds_of_ports(&score).chain([cause(&score, &inputs)]) {
                *met.entry(name).or_insert(0) += 1;
            }
        }
    }
    assert!(CAUSES.iter().chain(&PORTS).all(|name| met.get(name).is_some_and(|&times| times >= 50)), "{met:?}");
}
