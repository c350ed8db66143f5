//! What is said of texts and names files that are wrong: line, column, what is wrong, what was expected.

use score::names::{self, Names};
use score::open::{of_text, Failure};
use score::problem::Source;

/// All that is said of a text.
fn said(text: &str) -> Vec<String> {
    match of_text(Source::of_file("t", text.into()), &Names::default()) {
        Ok(opened) => {
            let refused = opened.verdict.as_ref().err().map(|refusal| opened.refused(*refusal));
            refused.iter().map(|problem| problem.line(&opened.source)).collect()
        }
        Err(Failure::Text(source, problems)) => problems.iter().map(|problem| problem.line(&source)).collect(),
        Err(_) => Vec::new(),
    }
}

/// A text of 4 tokens whose other lines begin at line 3.
fn check(lines: &str, expected: &[&str]) {
    assert_eq!(said(&format!("tokens 4\nports 1 to 2\n{lines}")), expected, "{lines}");
}

#[test]
fn agents() {
    check("procedure a\n    skip\n", &[]);
    check("procedure a\n    when\n", &["t:4:9: error: the line ends too early: expected the token to wait for"]);
    check(
        "procedure a\n    tell up\n",
        &["t:4:10: error: no token has the name `up`: expected the name or number of a token"],
    );
    check(
        "procedure a\n    when 1\n",
        &["t:4:5: error: an agent without its body: expected its body after it or, indented, on the next line"],
    );
    check(
        "procedure a\n",
        &["t:3:1: error: a procedure without an agent: expected its agent, indented, on the next line"],
    );
    check(
        "procedure a\n    parallel\n        skip\n",
        &["t:4:5: error: a parallel of fewer than two agents: expected two or more agents, indented, on lines of their own"],
    );
    check(
        "procedure a\n    skip\n    skip\n",
        &["t:5:5: error: a second agent where there is room for one: expected `parallel` above them both"],
    );
    check("procedure a\n    skip 1\n", &["t:4:10: error: `1` is out of place: expected the end of the line"]);
    check(
        "procedure a\n    tel 1\n",
        &["t:4:5: error: `tel` is not an agent: expected an agent: parallel, when, unless, next, watch, tell, call, skip, abort or a label; did you mean `tell`?"],
    );
    check("procedure a\n    tell 256\n", &["t:4:10: error: `256` is out of range: expected a number from 0 to 255"]);
    check(
        "procedure lift\n    next call lifft\n",
        &["t:4:15: error: no procedure has the name `lifft`: expected the name or number of a procedure; did you mean `lift`?"],
    );
    check(
        "procedure a\n    @b\n",
        &[
            "t:4:6: error: no agent has the name `b`: expected the name or number of an agent",
            "t:4:7: error: no agents: expected at least one",
        ],
    );
}

#[test]
fn indentation() {
    check(
        "procedure a\n    parallel\n        skip\n      skip\n",
        &["t:6:7: error: an indentation that fits no line above: expected 8 spaces before it, as before the line above that it stands beside"],
    );
    check("procedure a\n\tskip\n", &["t:4:1: error: a tab in the indentation: expected spaces"]);
    check(
        "fact 1\n    skip\nprocedure a\n    skip\n",
        &["t:4:5: error: an indented line that belongs to nothing: expected no spaces before it"],
    );
}

/// A word that is out of its place is told of as such, and draws no other problems after it.
#[test]
fn one_fault_is_told_of_once() {
    check(
        "procedure a\n    unless call a\n",
        &["t:4:12: error: `call` is a word of the text form: expected the token that stops it"],
    );
    check(
        "procedure a\n    skip\nrule 1 and gives 2\n",
        &["t:5:12: error: `gives` is a word of the text form: expected the second token"],
    );
    check(
        "procedure a\n    skip\n    rule 1 gives 2\n",
        &["t:5:5: error: `rule` in the middle of something else: expected no spaces before it"],
    );
    check(
        "procedure a\n    parallel\n    skip\n    skip\n",
        &["t:4:5: error: a parallel of fewer than two agents: expected two or more agents, indented, on lines of their own"],
    );
    check("procedure a:\n    skip\n", &["t:3:12: error: `:` is out of place: expected the end of the line"]);
    check(
        "proceduer a\n    skip\nprocedure a\n    skip\n",
        &["t:3:1: error: `proceduer` begins no part of a score: \
           expected tokens, ports, procedure, unused, rule or fact; did you mean `procedure`?"],
    );
    check("skip\nprocedure a\n    skip\n", &["t:3:1: error: an agent outside a procedure: expected spaces before it"]);
    check(
        "procedure a\n\u{a0}   skip\n",
        &["t:4:1: error: a blank in the indentation that is no space: expected spaces"],
    );
    assert_eq!(
        said("tokens 300\nports 1 to 2\nprocedure a\n    skip\n"),
        ["t:1:8: error: `300` is out of range: expected a number from 1 to 256"]
    );
}

/// Names without numbers go from 1 on, as token 0 is the clash.
#[test]
fn token_0_is_the_clash() {
    let rest = "ports 1 to 1\nprocedure a\n    skip\n";
    assert_eq!(said(&format!("tokens\n    estop\n    go\n{rest}")), Vec::<String>::new());
    assert_eq!(
        said(&format!("tokens\n    clash\n    estop\n    0 clash\n{rest}")),
        ["t:4:7: error: `clash` is taken: expected another name"]
    );
    for wrong in ["    0 estop", "    1 clash"] {
        assert_eq!(
            said(&format!("tokens 2\n{wrong}\n{rest}")),
            ["t:2:7: error: clash is the name of token 0, and its only one: expected another name or number"]
        );
    }
}

#[test]
fn numbers() {
    check(
        "procedure a\n    parallel\n        @0: skip\n        @0: skip\n",
        &["t:6:9: error: agent 0 a second time: expected another number"],
    );
    check(
        "procedure a\n    parallel\n        @0: skip\n        @2: skip\n",
        &["t:6:9: error: there is no agent 1, but there is agent 2: expected agent 1 somewhere"],
    );
    check("procedure a\n    @12 0: skip\n", &["t:4:9: error: a second number for an agent: expected `:`"]);
    check(
        "procedure a from 1023\n    next skip\n",
        &[
            "t:4:5: error: this would be agent 1024: expected agents 0 to 1023",
            "t:4:10: error: there is no agent 0, but there is agent 1023: expected agent 0 somewhere",
        ],
    );
    check(
        "procedure 1\n    skip\n",
        &["t:3:11: error: procedure 1 is out of its place: expected 0, as procedures stand in their order"],
    );
}

#[test]
fn headings() {
    check(
        "procedure a\n    skip\nrule 1 gives\n",
        &["t:5:13: error: the line ends too early: expected the token that it gives"],
    );
    check("procedure a\n    skip\nrule 1 2\n", &["t:5:8: error: not a rule: expected `gives`"]);
    check("procedure a\n    skip\nports 1 to 2\n", &["t:5:1: error: `ports` a second time: expected it once"]);
    assert_eq!(
        said("tokens 4\n    up\n    up\nports 1 to 2\nprocedure a\n    skip\n"),
        ["t:3:5: error: `up` is taken: expected another name"]
    );
    assert_eq!(
        said("tokens 2\n    9 up\nports 1 to 1\nprocedure a\n    skip\n"),
        ["t:2:7: error: this would be token 9: expected tokens 0 to 1, or a higher count; it counts the clash too"]
    );
    assert_eq!(
        said(""),
        [
            "t:1:1: error: no `tokens`: expected `tokens`, how many there are, and their names",
            "t:1:1: error: no `ports`: expected `ports`, the lowest token that goes out, `to`, and the highest",
            "t:1:1: error: no `procedure`: expected `procedure`, its name and, indented, its agent",
        ]
    );
    assert_eq!(said("tokens\nports 0 to 0\nprocedure a\n    skip\n"), Vec::<String>::new());
}

/// What the library turns down stands at the line that it came from.
#[test]
fn refusals() {
    check(
        "procedure a\n    parallel\n        tell 4\n        skip\n",
        &["t:5:9: error[5]: a token that the score does not have: expected tokens 0 to 3"],
    );
    check("procedure a\n    parallel\n        skip\n        call a\n", &[
        "t:3:1: error[7]: calls that go in a circle within one instant: it calls itself again, with no `next` or `unless` on the way"
    ]);
    check(
        "procedure a\n    next @1\n\nunused\n    skip\n",
        &["t:4:5: error[6]: a reference that does not fit: expected an agent that is written before it, and agent 1 is not"],
    );
    check(
        "procedure a\n    next call 3\n",
        &["t:4:10: error[6]: a reference that does not fit: it calls procedure 3; expected procedures 0 to 0"],
    );
    check(
        "procedure a\n    skip\nrule 1 and 2 gives 9\n",
        &["t:5:1: error[5]: a token that the score does not have: expected tokens 0 to 3"],
    );
    check(
        "procedure a\n    watch 1 tell 9\n",
        &["t:4:13: error[5]: a token that the score does not have: expected tokens 0 to 3"],
    );
    assert_eq!(
        said("tokens 4\nports 3 to 1\nprocedure a\n    skip\n"),
        ["t:2:1: error[6]: a reference that does not fit: expected the lowest first: 3 is token 3, 1 token 1"]
    );
    // 16 watches, each of which may stand around the next, over a next
    let mut text = String::from("tokens 20\nports 1 to 2\nprocedure a\n    @33\n\nunused\n    next skip\n");
    for watch in 1..=16 {
        text += &format!(
            "    @{0}: watch {watch} @{1}\n    @{2}: parallel\n        @{1}\n        @{0}\n",
            2 * watch,
            2 * watch - 1,
            2 * watch + 1
        );
    }
    assert_eq!(said(&text), [
        "t:8:5: error[16]: a plain score that would be too large: expected at most 256 tokens, 1024 agents, 64 procedures and 256 rules"
    ]);
}

fn said_of_names(text: &str) -> Option<String> {
    let source = Source::of_file("n", text.into());
    names::read(text).err().map(|problem| problem.line(&source))
}

#[test]
fn names_files() {
    assert_eq!(said_of_names("token 1 up\r\ntoken 0 clash\r\n"), None);
    assert_eq!(said_of_names("# the carpet\ntoken 1 up\n\nprocedure 0 main # start\nagent 1023 stop\n"), None);
    let line = "n:1:1: error: not a line of names: expected `token`, `procedure` or `agent`, its number and its name";
    assert_eq!(said_of_names("token 1\n").as_deref(), Some(line));
    assert_eq!(said_of_names("tokens 1 up\n").as_deref(), Some(line));
    assert_eq!(
        said_of_names("token 256 up\n").as_deref(),
        Some("n:1:7: error: `256` is out of range: expected a number from 0 to 255")
    );
    assert_eq!(
        said_of_names("token 1 when\n").as_deref(),
        Some(
            "n:1:9: error: not a name: expected a letter, then letters, digits, `_`, `-` or `.`, and no word of the text form"
        )
    );
    assert_eq!(
        said_of_names("token 1 a\ntoken 2 a\n").as_deref(),
        Some("n:2:9: error: token 1 has this name already: expected another name")
    );
    assert_eq!(
        said_of_names("token 1 a\ntoken 1 b\n").as_deref(),
        Some("n:2:7: error: token 1 has a name already: expected another number")
    );
    assert_eq!(
        said_of_names("token 1 clash\n").as_deref(),
        Some("n:1:9: error: clash is the name of token 0, and its only one: expected another name or number")
    );
}
