//! The passes over the rules that close a store, counted as document 02 tells them.

#[cfg(test)]
mod tests;

use crate::decoded::{Rule, Token};
use std::collections::BTreeSet;

/// Goes through the rules in their order. Each rule whose premises are all in the store, as those of a fact are, brings
/// its conclusion in at once.
fn pass(rules: &[Rule], store: &mut BTreeSet<Token>) {
    for rule in rules {
        if rule.premises.iter().all(|premise| store.contains(premise)) {
            store.insert(rule.conclusion);
        }
    }
}

/// The store after each pass. They go on until one adds nothing, which is counted too.
pub fn passes(rules: &[Rule], given: &[Token]) -> Vec<BTreeSet<Token>> {
    let mut stores = Vec::new();
    let mut store: BTreeSet<Token> = given.iter().copied().collect();
    loop {
        let before = store.clone();
        pass(rules, &mut store);
        stores.push(store.clone());
        if store == before {
            return stores;
        }
    }
}
