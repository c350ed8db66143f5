//! Texts of every kind, most of them wrong: nothing crashes or hangs, a wrong text has a place, and what is made of a
//! right one is listed and made again as it was.

use score::names::{Names, KEYWORDS};
use score::problem::Problem;
use score::score::Score;
use score::text::{make, print, Comments};
use second::generate;
use second::random::Random;
use second::{draft::acts, scenes};
use std::time::{Duration, Instant};

/// A listing of one of the generator's scores, some with names.
fn listing(random: &mut Random) -> String {
    let bytes = match random.below(4) {
        0 => scenes::tiny_score(random),
        1 => scenes::small_score(random),
        2 => acts::few(random),
        _ => generate::valid_small(random, 0).score,
    };
    let score = Score::read(&bytes).expect("the generator makes scores");
    let mut names = Names::default();
    if random.one_in(2) {
        names.tokens = (1..score.tokens).map(|token| (token, format!("token-{token}"))).collect();
        names.procedures = (0..score.procedures.len()).map(|k| (k, format!("part.{k}"))).collect();
    }
    print(&score, &names, &Comments::default()).text
}

/// What stands beside the words of the text form in a text that is none.
const OTHERS: [&str; 20] = [
    "clash",
    "main",
    "up",
    "@a",
    "@a:",
    "@7",
    "@7:",
    "@b 3:",
    ":",
    "@",
    "0",
    "1",
    "4",
    "255",
    "256",
    "1024",
    "99999999999999999999",
    "-1",
    "#",
    "é",
];

fn word(random: &mut Random) -> &'static str {
    if random.one_in(2) {
        random.pick(&KEYWORDS)
    } else {
        random.pick(&OTHERS)
    }
}

fn some_words(random: &mut Random) -> String {
    let mut text = String::new();
    for _ in 0..random.below(60) {
        text += word(random);
        text += random.pick(&[" ", " ", " ", "\n", "\n    ", "\n        ", "\n  ", "\n\t", "\r\n", ""]);
    }
    text
}

/// Changes some bytes of a text; what is no text any more becomes one again.
fn damage(random: &mut Random, text: &str) -> String {
    let mut bytes = text.as_bytes().to_vec();
    for _ in 0..random.between(1, 3) {
        let at = random.below(bytes.len() as u32 + 1) as usize;
        match random.below(20) {
            0 => bytes.truncate(at),
            1..=6 if at < bytes.len() => bytes[at] = random.word() as u8,
            7..=12 if at < bytes.len() => drop(bytes.remove(at)),
            _ => bytes.insert(at, random.pick(b" \n#@:0a\t")),
        }
    }
    String::from_utf8_lossy(&bytes).into_owned()
}

/// Leaves out lines, repeats them, moves them, changes their indentation, or puts in other words.
fn rearrange(random: &mut Random, text: &str) -> String {
    let mut lines: Vec<String> = text.lines().map(String::from).collect();
    for _ in 0..random.between(1, 3) {
        if lines.is_empty() {
            break;
        }
        let at = random.below(lines.len() as u32) as usize;
        match random.below(5) {
            0 => drop(lines.remove(at)),
            1 => lines.insert(at, lines[at].clone()),
            2 => {
                let line = lines.remove(at);
                lines.insert(random.below(lines.len() as u32 + 1) as usize, line);
            }
            3 => lines[at] = format!("{}{}", random.pick(&["", " ", "    ", "        "]), lines[at].trim_start()),
            _ => {
                let mut words: Vec<&str> = lines[at].split(' ').collect();
                let changed = random.below(words.len() as u32) as usize;
                words[changed] = word(random);
                lines[at] = words.join(" ");
            }
        }
    }
    lines.join("\n") + "\n"
}

fn check_problems(text: &str, problems: &[Problem]) {
    assert!(!problems.is_empty() && problems.len() <= 20, "{} problems\n{text}", problems.len());
    for problem in problems {
        assert!(text.get(problem.place.clone()).is_some(), "{problem:?}\n{text}");
        assert!(!problem.message.is_empty() && problem.label.starts_with("expected"), "{problem:?}");
        if let Some((place, _)) = &problem.beside {
            assert!(text.get(place.clone()).is_some(), "{problem:?}\n{text}");
        }
    }
}

/// Tries a text, and says whether a score was made of it.
fn check_text(text: &str) -> bool {
    match make(text, &Names::default()) {
        Ok(made) => {
            assert_eq!(Score::read(&made.score.bytes()).as_ref(), Some(&made.score), "{text}");
            let listed = print(&made.score, &made.names, &made.comments).text;
            let again = make(&listed, &Names::default());
            // A score that the library refuses may have references that no text has.
            if score::library::check(&made.score.bytes()).is_ok() {
                let again = again.unwrap_or_else(|problems| panic!("{problems:?}\n{text}\n{listed}"));
                assert_eq!(again.score, made.score, "{text}\n{listed}");
                assert_eq!(again.names, made.names, "{text}\n{listed}");
                assert_eq!(print(&again.score, &again.names, &again.comments).text, listed, "{text}\n{listed}");
            }
            true
        }
        Err(problems) => {
            check_problems(text, &problems);
            false
        }
    }
}

fn try_many(category: u64, rounds: u64, text: impl Fn(&mut Random) -> String) -> (u64, u64) {
    let (mut right, mut wrong) = (0, 0);
    for index in 0..rounds {
        let text = text(&mut Random::new(category, index));
        *if check_text(&text) { &mut right } else { &mut wrong } += 1;
    }
    println!("{right} right, {wrong} wrong");
    (right, wrong)
}

#[test]
fn damaged_texts() {
    let (right, wrong) = try_many(5_000, 60_000, |random| {
        let text = listing(random);
        damage(random, &text)
    });
    assert!(right > 1_000 && wrong > 30_000);
}

#[test]
fn rearranged_texts() {
    let (right, wrong) = try_many(5_001, 60_000, |random| {
        let text = listing(random);
        rearrange(random, &text)
    });
    assert!(right > 5_000 && wrong > 10_000);
}

#[test]
fn any_words() {
    let (_, wrong) = try_many(5_002, 60_000, some_words);
    assert!(wrong > 50_000);
}

#[test]
fn any_characters() {
    let (right, _) = try_many(5_003, 20_000, |random| {
        let bytes: Vec<u8> = (0..random.below(300)).map(|_| random.word() as u8).collect();
        String::from_utf8_lossy(&bytes).into_owned()
    });
    assert_eq!(right, 0);
}

/// Comments are put in before lines and at their ends: laid out anew, each is there once, and then all stays as it is.
#[test]
fn comments_are_kept() {
    let empty = Names::default();
    for index in 0..5_000 {
        let random = &mut Random::new(5_004, index);
        let (mut text, mut comments) = (String::new(), 0);
        let mut comment = |text: &mut String, before: &str| {
            *text += &format!("{before}# comment {comments};\n");
            comments += 1;
        };
        for line in listing(random).lines() {
            if random.one_in(3) {
                comment(&mut text, random.pick(&["", "  ", "        "]));
            }
            text += line;
            if random.one_in(3) {
                comment(&mut text, " ");
            } else {
                text += "\n";
            }
        }
        comment(&mut text, "");
        let made = make(&text, &empty).unwrap_or_else(|problems| panic!("{problems:?}\n{text}"));
        let listed = print(&made.score, &made.names, &made.comments).text;
        for comment in 0..comments {
            assert_eq!(listed.matches(&format!("comment {comment};")).count(), 1, "{comment}\n{text}\n{listed}");
        }
        let again = make(&listed, &empty).unwrap_or_else(|problems| panic!("{problems:?}\n{listed}"));
        assert_eq!(again.score, made.score);
        assert_eq!(print(&again.score, &again.names, &again.comments).text, listed, "{text}");
    }
}

/// A comment is kept too where what it stood by is printed elsewhere, or not at all.
#[test]
fn comments_are_kept_where_lines_go() {
    let texts = [
        "procedure a\n    # 0\n    @b  # 1\nprocedure c\n    @b: skip  # 2\n",
        "procedure a from 1\n    parallel\n        # 0\n        @b  # 1\n        skip\nunused  # 2\n    @b 0: tell 1  # 3\n",
        "procedure a\n    skip\n# 0\n\nunused  # 1\n\n",
        "procedure a\n    skip\n# 0\n\nunused  # 1\n# 2\n\nrule 1 gives 2  # 3\n# 4\n",
        "procedure a\n    skip\nunused  # 0\n    skip  # 1\nunused  # 2\n    skip  # 3\n",
        "procedure a\n    parallel\n        # 0\n        @2  # 1\n        @3: skip\nunused\n    @2: parallel\n        @0: skip\n        skip\n",
        "procedure a\n    parallel\n        skip\n        skip\n        # 0\n    # 1\n# 2\nprocedure b\n    next\n        skip\n        # 3\n",
    ];
    for text in texts {
        let text = format!("tokens 4\n    0 clash  # clash\n    # all\nports 1 to 2\n{text}");
        let laid_out = |text: &str| {
            let made = make(text, &Names::default()).unwrap_or_else(|problems| panic!("{problems:?}\n{text}"));
            (print(&made.score, &made.names, &made.comments).text, made.score)
        };
        let (listed, score) = laid_out(&text);
        let kept = |comment: &str| assert_eq!(listed.matches(comment).count(), 1, "{comment}\n{text}\n{listed}");
        text.lines().filter_map(|line| line.find('#').map(|at| &line[at..])).for_each(kept);
        assert_eq!(laid_out(&listed), (listed.clone(), score), "{text}");
    }
}

/// A comment at the end of a block stays in it.
#[test]
fn comments_stay_in_their_blocks() {
    let text = "tokens 4
    1 go
    # tokens
ports go to 2

procedure a
    parallel
        skip
        when go tell 2
        # when go tell 3
    # procedure

procedure b
    skip
";
    let made = make(text, &Names::default()).unwrap_or_else(|problems| panic!("{problems:?}"));
    assert_eq!(print(&made.score, &made.names, &made.comments).text, text);
}

const LARGE: usize = 10_000_000;

fn repeated(start: &str, part: &str) -> String {
    let mut text = String::from(start);
    text += &part.repeat((LARGE - start.len()) / part.len() + 1);
    text
}

/// Names that may have been meant are looked for in less than a second, however long they are and however many.
#[test]
fn names_that_are_unknown() {
    let long = "a".repeat(100_000);
    let labels: String = (0..500).map(|k| format!("    @{}{k:04}: skip\n", "l".repeat(30))).collect();
    let references: String = (0..500).map(|k| format!("    next @{}x{k:04}\n", "l".repeat(30))).collect();
    let texts = [
        format!("tokens 4\n    1 {long}\nports 1 to 2\nprocedure a\n    tell {long}b\n"),
        format!("tokens 4\nports 1 to 2\nprocedure a\n    skip\nunused\n{labels}{references}"),
    ];
    for text in texts {
        let start = Instant::now();
        let problems = make(&text, &Names::default()).err().unwrap_or_default();
        check_problems(&text, &problems);
        assert!(start.elapsed() < Duration::from_secs(1), "took {:?}", start.elapsed());
    }
}

/// Texts of 10 MB are refused, at a place, in less than a second.
#[test]
fn large_texts() {
    let head = "tokens 4\nports 1 to 2\n";
    let deep: String = (0..4_000).map(|depth| " ".repeat(depth) + "parallel\n").collect();
    let texts = [
        ("nothing but letters", repeated("", "a")),
        ("nothing but spaces", repeated("", " ")),
        ("nothing but line ends", repeated("", "\n")),
        ("nothing but comments", repeated("", "# comment\n")),
        ("one line of words", repeated("", "when 1 ")),
        ("one line of agents", repeated("tokens 4\nports 1 to 2\nprocedure a\n    ", "when 1 ")),
        ("one line of colons", repeated("", ":")),
        ("rules", repeated(head, "rule 1 and 2 gives 3\n")),
        ("facts", repeated(head, "fact 1\n")),
        ("procedures", repeated(head, "procedure a\n    skip\n")),
        ("halves", repeated("tokens 4\nports 1 to 2\nprocedure a\n    parallel\n", "        skip\n")),
        ("references", repeated("tokens 4\nports 1 to 2\nprocedure a\n    parallel\n", "        @a\n")),
        ("unused agents", repeated("tokens 4\nports 1 to 2\nunused\n", "    skip\n")),
        ("names", repeated("tokens\n", "    name\n")),
        ("faults", repeated(head, "nonsense\n")),
        ("indentation", repeated("", "        x\n")),
        ("deep", format!("{head}procedure a\n{deep}")),
        ("a long name", repeated("tokens 4\nports ", "name")),
        ("a long number", repeated("tokens ", "9")),
        ("tabs", repeated("", "\t")),
        ("accents", repeated("tokens\n    ", "é")),
    ];
    for (name, text) in texts {
        let start = Instant::now();
        let problems = make(&text, &Names::default()).err().unwrap_or_default();
        let taken = start.elapsed();
        check_problems(&text, &problems);
        assert!(taken < Duration::from_secs(1), "{name} took {taken:?}");
    }
}
