//! Input lists and journals, instant by instant. What is read as instants here has the form that the library asks for,
//! as it has said before.

use crate::library::{Map, Refusal, Status, INPUT_WORD, INSTANT_WORD, KIND_MASK, OUTPUT_WORD, STATUS_MASK, TOKEN_MASK};
use crate::score::words;

/// What a list or a journal says of an instant; a list says nothing of its end.
#[derive(Clone, Copy, PartialEq, Eq, Debug)]
pub struct Entry {
    pub status: Status,
    pub pressed: Map,
    pub outputs: Map,
}

/// The two things that are read as instants.
#[derive(Clone, Copy, PartialEq, Eq, Debug)]
pub enum Form {
    List,
    Journal,
}

fn kind(word: u32) -> u32 {
    word & KIND_MASK
}

fn token(word: u32) -> u8 {
    (word & TOKEN_MASK) as u8
}

/// The instants of a list or journal. Words before the first instant are passed over.
pub fn entries(bytes: &[u8]) -> impl Iterator<Item = Entry> + '_ {
    let mut words = words(bytes).skip_while(|&word| kind(word) != INSTANT_WORD).peekable();
    std::iter::from_fn(move || {
        let status = Status::of(words.next()? & STATUS_MASK);
        let mut entry = Entry { status, pressed: Map::default(), outputs: Map::default() };
        while let Some(word) = words.next_if(|&word| kind(word) != INSTANT_WORD) {
            match kind(word) {
                OUTPUT_WORD => entry.outputs.insert(token(word)),
                _ => entry.pressed.insert(token(word)),
            }
        }
        Some(entry)
    })
}

/// Adds an instant to an input list.
pub fn push(list: &mut Vec<u8>, pressed: &Map) {
    list.extend(INSTANT_WORD.to_le_bytes());
    list.extend(pressed.tokens().flat_map(|token| (INPUT_WORD | token as u32).to_le_bytes()));
}

/// The first instants of a list or journal; nothing that stands before them.
pub fn first(bytes: &[u8], instants: usize) -> &[u8] {
    if instants == 0 {
        return &[];
    }
    let mut begins = words(bytes).enumerate().filter(|&(_, word)| kind(word) == INSTANT_WORD);
    let end = begins.nth(instants).map_or(bytes.len(), |(at, _)| 4 * at);
    &bytes[..end]
}

/// The input list of a journal.
pub fn inputs(journal: &[u8]) -> Vec<u8> {
    let mut list = Vec::new();
    entries(journal).for_each(|entry| push(&mut list, &entry.pressed));
    list
}

/// A word that the library turned down with 12 or 13.
pub struct Fault {
    pub at: usize,
    /// What stands there.
    pub held: String,
    /// The instant that it stands in, or begins; none before the first.
    pub instant: Option<usize>,
    pub reason: String,
}

impl Fault {
    /// Finds the word that a refusal speaks of, if it speaks of one.
    pub fn of(refusal: Refusal, bytes: &[u8], form: Form, tokens: usize) -> Option<Fault> {
        let at = match refusal.number {
            12 => bytes.len() / 4,
            13 => refusal.value as usize,
            _ => return None,
        };
        let begun = words(bytes).take(at + 1).filter(|&word| kind(word) == INSTANT_WORD).count();
        let (held, reason) = match words(bytes).nth(at) {
            Some(word) if at == 0 && word >> 24 == 0x10 => (format!("{word:08X}"), "this is how a score begins".into()),
            Some(word) => {
                let before = at.checked_sub(1).and_then(|before| words(bytes).nth(before));
                (format!("{word:08X}"), reason(word, before, form, tokens))
            }
            None => {
                let rest = &bytes[4 * (bytes.len() / 4)..];
                let held: Vec<String> = rest.iter().map(|byte| format!("{byte:02X}")).collect();
                (held.join(" "), "a word that is cut short".into())
            }
        };
        Some(Fault { at, held, instant: begun.checked_sub(1), reason })
    }

    /// In a line, with its place.
    pub fn line(&self) -> String {
        let place = self.instant.map_or("before the first instant".into(), |instant| format!("in instant {instant}"));
        format!("word {}, {}, {place}: {}", self.at, self.held, self.reason)
    }
}

/// What a word is against, where the one before it is in order.
fn reason(word: u32, before: Option<u32>, form: Form, tokens: usize) -> String {
    let spare = match kind(word) {
        INSTANT_WORD => !(KIND_MASK | STATUS_MASK),
        _ => !(KIND_MASK | TOKEN_MASK),
    };
    match (kind(word), form) {
        (INSTANT_WORD, _) if word & spare != 0 => "bits are set that have no meaning".into(),
        (INSTANT_WORD, Form::List) => "an instant of an input list has no status".into(),
        (INSTANT_WORD, Form::Journal) => "there is no status 3".into(),
        (INPUT_WORD, _) | (OUTPUT_WORD, Form::Journal) => match before {
            None => "expected an instant's word (C) first".into(),
            Some(_) if word & spare != 0 => "bits are set that have no meaning".into(),
            Some(_) if token(word) as usize >= tokens => {
                format!("token {}, and the score has tokens 0 to {}", token(word), tokens - 1)
            }
            Some(before) if kind(before) == OUTPUT_WORD && kind(word) == INPUT_WORD => {
                "an input after an output".into()
            }
            Some(before) => format!("token {} after token {}; expected rising tokens", token(word), token(before)),
        },
        (OUTPUT_WORD, Form::List) => "an output's word, which only a journal has".into(),
        _ if before.is_none() => "expected an instant's word (C) first".into(),
        (_, Form::List) => "expected an instant's word (C) or an input's (D)".into(),
        (_, Form::Journal) => "expected an instant's word (C), an input's (D) or an output's (E)".into(),
    }
}

#[cfg(test)]
mod tests {
    use super::*;
    use crate::score::bytes;

    const SAMPLE: [u32; 7] = [0xC0000000, 0xD0000001, 0xE0000002, 0xC0000000, 0xC0000001, 0xD0000001, 0xD0000003];

    fn fault(words: &[u32], at: usize, form: Form) -> String {
        let refusal = Refusal { number: 13, value: at as u64 };
        Fault::of(refusal, &bytes(words.iter().copied()), form, 4).unwrap().line()
    }

    #[test]
    fn a_journal_is_read_instant_by_instant() {
        let journal = bytes(SAMPLE);
        let read: Vec<_> = entries(&journal)
            .map(|entry| (entry.status, entry.pressed.tokens().collect::<Vec<_>>(), entry.outputs.tokens().collect()))
            .collect();
        let expected: [(Status, Vec<u8>, Vec<u8>); 3] =
            [(Status::Quiet, vec![1], vec![2]), (Status::Quiet, vec![], vec![]), (Status::Clash, vec![1, 3], vec![])];
        assert_eq!(read, expected);
        assert_eq!(entries(&[]).count(), 0);
    }

    #[test]
    fn the_inputs_of_a_journal_are_a_list() {
        let journal = bytes(SAMPLE);
        assert!(inputs(first(&journal, 0)).is_empty());
        assert!(first(&bytes([0xD0000001, 0xC0000000]), 0).is_empty());
        assert_eq!(inputs(first(&journal, 2)), bytes([0xC0000000, 0xD0000001, 0xC0000000]));
        assert_eq!(
            inputs(first(&journal, 9)),
            bytes([0xC0000000, 0xD0000001, 0xC0000000, 0xC0000000, 0xD0000001, 0xD0000003])
        );
    }

    #[test]
    fn a_wrong_word_is_said_with_its_place_and_reason() {
        let journal = |words: &[u32]| fault(words, words.len() - 1, Form::Journal);
        assert_eq!(
            journal(&[0xD0000001]),
            "word 0, D0000001, before the first instant: expected an instant's word (C) first"
        );
        assert_eq!(journal(&[0xC0000000, 0xC0000003]), "word 1, C0000003, in instant 1: there is no status 3");
        assert!(journal(&[0xC0000000, 0xD0000004]).ends_with("in instant 0: token 4, and the score has tokens 0 to 3"));
        assert!(journal(&[0xC0000000, 0xE0000002, 0xD0000003]).ends_with("an input after an output"));
        assert!(
            journal(&[0xC0000000, 0xD0000002, 0xD0000002]).ends_with("token 2 after token 2; expected rising tokens")
        );
        assert!(journal(&[0xC0000000, 0xD0000102]).ends_with("bits are set that have no meaning"));
        assert!(journal(&[0xC0000000, 0x00000000]).ends_with("an input's (D) or an output's (E)"));
        let cut = Fault::of(Refusal { number: 12, value: 0 }, &bytes(SAMPLE)[..18], Form::Journal, 4).unwrap();
        assert_eq!(cut.line(), "word 4, 01 00, in instant 1: a word that is cut short");
        assert!(fault(&[0xC0000001], 0, Form::List).ends_with("an instant of an input list has no status"));
        assert!(fault(&[0xC0000000, 0xE0000001], 1, Form::List).ends_with("which only a journal has"));
    }
}
