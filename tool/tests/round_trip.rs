//! Scores of the library's test generator go out to text and come back byte for byte, whatever is named; refused ones are
//! listed too, and what is made of their listings is as they are, or is turned down at a place. The origins of all plain
//! scores can be told.

use score::library;
use score::names::{Names, KEYWORDS};
use score::origins;
use score::score::{Part, Score};
use score::text::{make, print, Comments, Listing};
use second::draft::{acts, limits, scenes as drafts};
use second::generate::{self, Trial};
use second::random::Random;
use second::{circles, scenes};

type Generate = fn(&mut Random, u64) -> Vec<u8>;

macro_rules! trials {
    ($($path:path),* $(,)?) => { &[$(|random, index| { let trial: Trial = $path(random, index); trial.score }),*] };
}

macro_rules! scores {
    ($($path:path),* $(,)?) => { &[$(|random, _| $path(random)),*] };
}

const CHECKED: &[Generate] = trials![
    generate::valid_small,
    generate::valid_middling,
    generate::valid_any,
    generate::valid_with_facts,
    generate::boundary_sizes,
    generate::lengths,
    generate::random_bytes,
    generate::damaged_head,
    generate::one_word_damaged,
    generate::one_bit_damaged,
    generate::one_field_at_its_limit,
    generate::fact_damaged,
    generate::several_faults,
    generate::every_bit,
    generate::every_bit_of_fact,
    generate::every_kind_everywhere,
    circles::one_circle,
    circles::guarded_circle,
    circles::two_circles,
    circles::chain,
    circles::chain_into_circle,
    circles::any_calls,
    circles::any_calls_damaged,
];

const SCENES: &[Generate] = scores![
    scenes::least_score,
    scenes::tiny_score,
    scenes::small_score,
    scenes::score,
    scenes::telling_score,
    scenes::large_score,
    scenes::rule_chain,
    scenes::fact_chain,
    scenes::all_facts,
    scenes::when_chain,
    scenes::nested_whens,
    scenes::call_chain,
];

/// Listings of a megabyte.
const DEEP: &[Generate] = scores![scenes::deep_sharing];

const DRAFTS: &[Generate] = scores![
    acts::few,
    acts::many,
    drafts::tiny_draft,
    drafts::small_draft,
    drafts::draft,
    drafts::large_draft,
    drafts::watched_score,
    drafts::special_draft,
    limits::renamed,
];

/// What was met: accepted scores and drafts, refused ones that could be listed, and the largest score in bytes.
#[derive(Default, Debug)]
struct Met {
    scores: usize,
    drafts: usize,
    refused: usize,
    largest: usize,
}

fn accepted(score: &Score, bytes: &[u8]) -> bool {
    if score.is_draft() {
        library::translate(bytes).is_ok()
    } else {
        library::check(bytes).is_ok()
    }
}

/// Names for some of the tokens, procedures and agents.
fn names(random: &mut Random, score: &Score) -> Names {
    let letters = ["winch1.up", "Bühne", "cue-4", "limit_top", "x", "a.b-c_d"];
    let mut some = |count: usize, most: u32| {
        let one_in = random.between(1, most);
        let named = (0..count).filter(|_| random.one_in(one_in)).collect::<Vec<_>>();
        named.into_iter().map(|k| (k, format!("{}{k}", random.pick(&letters)))).collect()
    };
    let mut tokens: std::collections::BTreeMap<usize, String> = some(score.tokens, 3);
    tokens.remove(&0);
    Names { tokens, procedures: some(score.procedures.len(), 3), agents: some(score.agents.len(), 40) }
}

/// Each part of a listing stands at a place that is not empty and lies in it.
fn check_places(score: &Score, listing: &Listing) {
    for word in 0..2 + score.agents.len() + score.procedures.len() + score.rules.len() {
        let place = listing.places.of(score.part(word));
        assert!(!place.is_empty() && listing.text.get(place).is_some(), "word {word} has no place:\n{}", listing.text);
    }
}

fn round_trip(bytes: &[u8], names: &Names, met: &mut Met) {
    let Some(score) = Score::read(bytes) else {
        assert!(library::check(bytes).is_err_and(|refusal| refusal.number <= 3));
        return;
    };
    assert_eq!(score.bytes(), bytes);
    let listing = print(&score, names, &Comments::default());
    check_places(&score, &listing);
    let made = make(&listing.text, &Names::default());
    if !accepted(&score, bytes) {
        met.refused += 1;
        match made {
            Ok(made) => assert_eq!(made.score.bytes(), bytes, "{}", listing.text),
            Err(problems) => {
                assert!(!problems.is_empty());
                problems.iter().for_each(|problem| assert!(listing.text.get(problem.place.clone()).is_some()));
            }
        }
        return;
    }
    let made = made.unwrap_or_else(|problems| panic!("{problems:?}\n{}", listing.text));
    assert_eq!(made.score.bytes(), bytes, "{}", listing.text);
    assert_eq!(&made.names, names);
    assert_eq!(made.places, listing.places, "{}", listing.text);
    assert_eq!(made.comments, Comments::default());
    assert_eq!(print(&made.score, &made.names, &made.comments).text, listing.text);
    if score.is_draft() {
        let plain = library::translate(bytes).ok().and_then(|plain| Score::read(&plain)).expect("it was accepted");
        assert!(origins::of(&score, &plain).is_some(), "{}", listing.text);
    }
    met.scores += usize::from(!score.is_draft());
    met.drafts += usize::from(score.is_draft());
    met.largest = met.largest.max(bytes.len());
}

/// Tries each generator, each trial without names or with some.
fn all(generators: &[Generate], category: u64, trials: u64) -> Met {
    let mut met = Met::default();
    for (k, generate) in generators.iter().enumerate() {
        for index in 0..trials {
            let mut random = Random::new(category + k as u64, index);
            let bytes = generate(&mut random, index);
            let named = index % 2 == 1;
            let names = Score::read(&bytes).filter(|_| named).map(|score| names(&mut random, &score));
            round_trip(&bytes, &names.unwrap_or_default(), &mut met);
        }
    }
    println!("{met:?}");
    met
}

#[test]
fn scores_of_the_check() {
    let met = all(CHECKED, 1_000, 2_500);
    assert!(met.scores >= 20_000 && met.refused >= 20_000 && met.largest == 5384, "{met:?}");
}

#[test]
fn scores_in_which_much_happens() {
    let met = all(SCENES, 2_000, 7_000);
    assert!(met.scores >= 80_000, "{met:?}");
}

#[test]
fn scores_that_are_deep() {
    let met = all(DEEP, 4_000, 300);
    assert!(met.scores == 300, "{met:?}");
}

#[test]
fn drafts_of_every_kind() {
    let met = all(DRAFTS, 3_000, 1_500);
    assert!(met.drafts >= 8_000, "{met:?}");
}

#[test]
fn the_sample() {
    for file in ["../sample/score", "../sample/draft"] {
        let bytes = std::fs::read(file).expect(file);
        let mut met = Met::default();
        round_trip(&bytes, &Names::default(), &mut met);
        assert_eq!(met.scores + met.drafts, 1);
    }
}

/// A word of the text form is no name, so that no names file can spoil a listing.
#[test]
fn no_keyword_is_a_name() {
    assert!(KEYWORDS.iter().all(|keyword| !score::names::is_name(keyword)));
    assert_eq!(Score::read(&std::fs::read("../sample/score").unwrap()).unwrap().part(8), Part::Rule(0));
}
