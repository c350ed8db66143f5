//! Drafts played by their own definition, beside their translations and by hand, and what is known of generated ones.

use super::*;
use crate::answer::{refused, ACCEPTED};
use crate::draft::order::{End, Order, Watched};
use crate::draft::player::{self, Player};
use crate::draft::written::Played;
use crate::generate::{Score, Trial};
use crate::lent::*;
use crate::random::Random;
use crate::words::{self, *};
use crate::{calls, circles, every_order, generate, translate};
use std::collections::{BTreeMap, BTreeSet};

type Make = fn(&mut Random) -> Vec<u8>;

/// How often what a test is about was met.
#[derive(Default)]
struct Met(BTreeMap<&'static str, u64>);

impl Met {
    fn note(&mut self, name: &'static str, holds: bool) {
        *self.0.entry(name).or_default() += u64::from(holds);
    }

    fn note_end(&mut self, end: &End) {
        self.note("quiet", end.status() == 0);
        self.note("clash", end.status() == 1);
        self.note("aborted", end.status() == 2);
        if let End::Quiet { awake, stopped, .. } = end {
            self.note("stopped", !stopped.is_empty());
            self.note("awake under none", awake.iter().any(|watched| watched.under.is_empty()));
            self.note("awake under one", awake.iter().any(|watched| watched.under.len() == 1));
            self.note("awake under more", awake.iter().any(|watched| watched.under.len() > 1));
        }
    }

    fn require(&self, least: u64) {
        for (name, &times) in &self.0 {
            assert!(times >= least, "{name}: met only {times} times");
        }
    }
}

/// Drafts of a kind, with random numbers of their own.
fn drafts(make: Make, count: u64) -> impl Iterator<Item = (Random, Vec<u8>)> {
    (0..count).map(move |index| {
        let mut random = Random::new(0, index);
        let draft = make(&mut random);
        assert_eq!(check(&draft), ACCEPTED);
        (random, draft)
    })
}

fn hex(bytes: &[u8]) -> String {
    words(bytes).iter().map(|word| format!("{word:08X} ")).collect()
}

/// The journal that a draft's definition gives is its translation's, which is accepted and translates to itself.
fn plays_as_its_translation(make: Make, count: u64, met: &mut Met) {
    for (mut random, bytes) in drafts(make, count) {
        let plain = translate::translate(&bytes);
        met.note("fits", plain.is_some());
        let Some(plain) = plain else { continue };
        assert_eq!(oracle::check(&plain), ACCEPTED, "{}", hex(&bytes));
        assert_eq!(translate::translate(&plain).as_ref(), Some(&plain), "{}", hex(&bytes));
        let draft = Draft::new(&bytes);
        let list = scenes::instants(&mut random, &draft, 12);
        let ends = player::ends(&draft, &list, &mut random);
        let wanted: Vec<_> = list.iter().zip(&ends).map(|(inputs, end)| player::shown(&draft, inputs, end)).collect();
        let journal = calls::journal(&Decoded::new(&plain), &list, &mut random);
        assert_eq!(journal, wanted, "{} over {list:?}", hex(&bytes));
        ends.iter().for_each(|end| met.note_end(end));
    }
}

#[test]
fn acts_play_as_their_translations() {
    let mut met = Met::default();
    plays_as_its_translation(acts::few, 4_000, &mut met);
    plays_as_its_translation(acts::many, 10_000, &mut met);
    met.require(1_000);
}

#[test]
fn drafts_play_as_their_translations() {
    let mut met = Met::default();
    plays_as_its_translation(scenes::tiny_draft, 4_000, &mut met);
    plays_as_its_translation(scenes::draft, 4_000, &mut met);
    plays_as_its_translation(scenes::watched_score, 4_000, &mut met);
    plays_as_its_translation(scenes::large_draft, 100, &mut met);
    met.require(200);
}

#[test]
fn special_drafts_play_as_their_translations() {
    let mut met = Met::default();
    for make in [scenes::watch_chain, scenes::shared_body, scenes::recursion, scenes::small_diamond, limits::renamed] {
        plays_as_its_translation(make, 2_000, &mut met);
    }
    plays_as_its_translation(scenes::special_draft, 2_000, &mut met);
    met.require(100);
}

/// Where the points that orders pass through are more, the list is given up.
const MOST_POINTS: usize = 2_000;

/// Each instant of a list, followed by all orders: they end alike, and the translation shows that end.
fn follow_every_order(random: &mut Random, bytes: &[u8], met: &mut Met) {
    let draft = Draft::new(bytes);
    let plain = translate::translate(bytes).expect("a tiny draft's plain score fits");
    let list = scenes::instants(random, &draft, 5);
    let journal = calls::journal(&Decoded::new(&plain), &list, random);
    let mut player = Player::start(&draft);
    for (inputs, wanted) in list.iter().zip(journal) {
        if oracle::words(&wanted)[0] == instant_word(2) && player.awake().is_empty() {
            return;
        }
        let ends = every_order::ends(Order::start(&draft, player.awake(), inputs), MOST_POINTS)
            .expect("no order passes its weight");
        met.note("followed", ends.is_some());
        let Some(ends) = ends else { return };
        let [end] = &ends.into_iter().collect::<Vec<_>>()[..] else { panic!("orders end differently: {}", hex(bytes)) };
        assert_eq!(player::shown(&draft, inputs, end), wanted, "{} over {list:?}", hex(bytes));
        met.note_end(end);
        player.go_on(end);
    }
}

#[test]
fn every_order_of_tiny_drafts_ends_alike() {
    let mut met = Met::default();
    for make in [acts::few, scenes::tiny_draft, scenes::recursion] {
        for (mut random, bytes) in drafts(make, 1_000) {
            follow_every_order(&mut random, &bytes, &mut met);
        }
    }
    met.require(20);
}

/// The store, and what is awake next, each agent under the same tokens once.
fn end_without_copies(end: End) -> Option<(Vec<bool>, BTreeSet<Watched>)> {
    match end {
        End::Abort => None,
        End::Quiet { store, awake, .. } => Some((store, awake.into_iter().collect())),
    }
}

#[test]
fn orders_end_alike_with_and_without_copies() {
    for (mut random, bytes) in drafts(acts::many, 3_000) {
        let draft = Draft::new(&bytes);
        let mut player = Player::start(&draft);
        for inputs in scenes::instants(&mut random, &draft, 6) {
            let order = Order::start(&draft, player.awake(), &inputs).without_copies();
            let end = player.instant(&inputs, &mut random);
            if end != End::Abort {
                assert_eq!(end_without_copies(order.clone().finish(&mut random)), end_without_copies(end));
            }
        }
    }
}

/// The agents and procedures that paths from procedure 0 lead to, of a score without watches.
fn all_on_paths(score: &Decoded) -> bool {
    let mut agents = vec![false; score.agents.len()];
    let mut procedures = vec![false; score.roots.len()];
    let mut open = vec![score.roots[0]];
    procedures[0] = true;
    while let Some(agent) = open.pop() {
        if std::mem::replace(&mut agents[agent], true) {
            continue;
        }
        match score.agents[agent] {
            decoded::Form::Parallel(half, other) => open.extend([half, other]),
            decoded::Form::When { body, .. } | decoded::Form::Next { body } | decoded::Form::Unless { body, .. } => {
                open.push(body)
            }
            decoded::Form::Call { procedure } => {
                procedures[procedure] = true;
                open.push(score.roots[procedure]);
            }
            _ => {}
        }
    }
    !agents.contains(&false) && !procedures.contains(&false)
}

#[test]
fn a_score_on_paths_is_its_own_translation() {
    let mut met = Met::default();
    for make in [acts::few, acts::many, crate::scenes::score, crate::scenes::special_score] {
        for (_, bytes) in drafts(make, 2_000) {
            let score = to_bytes(&watches_as_whens(&bytes));
            let plain = translate::translate(&score).expect("a score without watches fits");
            let stays = all_on_paths(&Decoded::new(&score));
            assert_eq!(plain == score, stays, "{}", hex(&score));
            met.note("stays", stays);
            met.note("loses what is on no path", !stays);
        }
    }
    met.require(1_000);
}

/// The draft with a token more, that all its watches are of; and the score with each watch read as its body.
fn watched_in_vain(bytes: &[u8]) -> Option<(Vec<u8>, Vec<u8>)> {
    let mut draft = Score::read(bytes);
    if draft.tokens == 256 {
        return None;
    }
    let mut score = Score::read(bytes);
    let watches: Vec<usize> = (0..draft.agents.len()).filter(|&agent| kind(draft.agents[agent]) == WATCH).collect();
    for agent in watches {
        let body = draft.agents[agent] & 0x3FF;
        draft.agents[agent] = words::watch(body, draft.tokens);
        score.agents[agent] = words::parallel(body, body);
    }
    draft.tokens += 1;
    Some((draft.bytes(), score.bytes()))
}

#[test]
fn a_watch_that_nothing_stops_plays_as_its_body() {
    let mut met = Met::default();
    for (mut random, bytes) in drafts(scenes::any_draft, 10_000) {
        let Some((draft, score)) = watched_in_vain(&bytes) else { continue };
        let (draft, score) = (Draft::new(&draft), Decoded::new(&score));
        let mut list = scenes::instants(&mut random, &draft, 8);
        list.iter_mut().for_each(|inputs| inputs.retain(|&token| token < score.tokens));
        let journal = calls::journal(&score, &list, &mut random);
        // A clash brings the watch token too: the instants after it are not compared.
        for (got, wanted) in player::journal(&draft, &list, &mut random).into_iter().zip(journal) {
            assert_eq!(got, wanted, "{}", hex(&bytes));
            met.note("compared", draft.has_watches());
            if oracle::words(&got)[0] == instant_word(1) {
                break;
            }
        }
    }
    met.require(10_000);
}

#[test]
fn journals_written_out_by_hand() {
    for Played { name, draft, list, journal } in written::all() {
        assert_eq!(check(&draft), ACCEPTED, "{name}");
        let plain = translate::translate(&draft).expect("the plain score fits");
        let (draft, plain, journal) = (Draft::new(&draft), Decoded::new(&plain), hex(&to_bytes(&journal)));
        for index in 0..20 {
            let mut random = Random::new(1, index);
            assert_eq!(hex(&player::journal(&draft, &list, &mut random).concat()), journal, "{name}");
            assert_eq!(hex(&calls::journal(&plain, &list, &mut random).concat()), journal, "{name}");
        }
    }
}

/// Holds the translation to what is known of a trial.
fn is_known(trial: &Trial) {
    let lent = calls::TranslateLent { draft: trial.score.clone(), plain: vec![0xA5; PLAIN_BYTES] };
    let (answer, _) = calls::translate_call(&lent);
    if let Some(known) = trial.known {
        let is_known = answer == known || known == ACCEPTED && [0, 16].contains(&answer.number());
        assert!(is_known, "{answer}, not {known}: {}", hex(&trial.score));
    }
}

#[test]
fn sizes_about_their_limits_are_known() {
    for index in 0..800 {
        is_known(&limits::one(&mut Random::new(2, index), index));
        is_known(&limits::all(&mut Random::new(3, index), index));
    }
    let full = limits::all(&mut Random::new(3, 0), 0);
    assert_eq!(translate::translate(&full.score).map(|plain| plain.len()), Some(PLAIN_BYTES));
}

#[test]
fn more_pairs_than_can_be_counted_are_refused() {
    for index in 0..1_000 {
        is_known(&limits::diamond(&mut Random::new(4, index), index));
        is_known(&limits::diamond_of_calls(&mut Random::new(5, index), index));
    }
}

#[test]
fn faults_are_known() {
    for index in 0..5_000 {
        is_known(&damaged::watch(&mut Random::new(6, index), index));
        is_known(&damaged::watch_elsewhere(&mut Random::new(7, index), index));
        is_known(&damaged::checked(&mut Random::new(8, index), index));
        is_known(&damaged::accepted(&mut Random::new(9, index), index));
    }
}

#[test]
fn a_watch_is_unguarded() {
    let score = |agents: &[u32], root: u32| {
        let (agents, procedures) = (agents.to_vec(), vec![procedure(root)]);
        Score { tokens: 1, ports: ports(0, 0), agents, procedures, rules: vec![] }.bytes()
    };
    assert_eq!(check(&score(&[call(0), watch(0, 0)], 1)), refused(7, 0));
    assert_eq!(check(&score(&[call(0), watch(0, 0), next(1)], 2)), ACCEPTED);
    assert_eq!(check(&score(&[call(0), next(0), watch(1, 0)], 2)), ACCEPTED);
    assert_eq!(oracle::check(&score(&[skip(), watch(0, 0)], 1)), refused(4, 3));
}

#[test]
fn scores_are_checked_as_they_were() {
    for index in 0..5_000 {
        for make in [generate::several_faults, circles::any_calls, generate::every_kind_everywhere] {
            let Trial { score, .. } = make(&mut Random::new(10, index), index);
            let has_watch = agent_places(&words(&score)).any(|at| kind(words(&score)[at]) == WATCH);
            assert!(has_watch || check(&score) == oracle::check(&score), "{}", hex(&score));
        }
    }
}
