//! Plain scores of drafts, with names for the copies that the translator makes.

use crate::builder::Written;
use crate::names::Names;
use second::answer::ACCEPTED;
use second::decoded::Token;
use second::draft;
use second::translate::{self, Pair, Set};
use std::collections::BTreeMap;

/// The plain score of a draft. The draft's tokens keep their numbers.
pub fn plain(draft: Written) -> Written {
    assert_eq!(draft::check(&draft.bytes), ACCEPTED, "a draft is turned down");
    let bytes = translate::translate(&draft.bytes).expect("a plain score keeps to the size limits");
    let names = names(&draft);
    Written { bytes, names, numbers: draft.numbers }
}

fn names(draft: &Written) -> Names {
    let origins = translate::origins(&draft.bytes).expect("a plain score keeps to the size limits");
    let Names { tokens, procedures, agents } = &draft.names;
    let new_tokens = origins.sets.iter().map(|&set| any_of(tokens, set));
    Names {
        tokens: tokens
            .values()
            .cloned()
            .chain(new_tokens)
            .enumerate()
            .map(|(before, name)| (before + 1, name))
            .collect(),
        procedures: copies(tokens, procedures, &origins.procedures),
        agents: copies(tokens, agents, &origins.agents),
    }
}

/// The names of copies: a named thing under watch tokens plays until one of them comes.
fn copies(tokens: &BTreeMap<Token, String>, old: &BTreeMap<usize, String>, pairs: &[Pair]) -> BTreeMap<usize, String> {
    let name = |&(number, set): &Pair| {
        let name = old.get(&number)?;
        Some(if set == Set::NONE { name.clone() } else { format!("{name}-until-{}", any_of(tokens, set)) })
    };
    pairs.iter().enumerate().filter_map(|(number, pair)| Some((number, name(pair)?))).collect()
}

fn any_of(tokens: &BTreeMap<Token, String>, set: Set) -> String {
    let names: Vec<&str> = set.tokens().iter().map(|token| tokens[token].as_str()).collect();
    names.join("-or-")
}
