//! Prints a score as text.

use super::output::Output;
use super::Ended;
use score::names::Names;
use score::open::{self, Failure};
use score::problem::report;
use score::score::{Agent, Ports, Procedure, Rule, Score};
use score::text::print;
use serde_json::{json, Value};
use std::path::Path;

/// A refused score is listed too, as far as it can be taken apart.
pub fn list(file: &Path, names: Option<&Path>, json: bool) -> Result<Ended, Failure> {
    let opened = open::score(file, names)?;
    let problem = opened.verdict.as_ref().err().map(|refusal| opened.refused(*refusal));
    let mut out = Output::new();
    if json {
        let mut value = as_json(&opened.score, &opened.names);
        value["problem"] = problem.as_ref().map_or(Value::Null, |problem| problem.json(&opened.source));
        out.line(value)?;
    } else {
        out.text(print(&opened.score, &opened.names, &opened.comments).text)?;
        // What is printed comes before what is wrong with it.
        out.flush()?;
        problem.iter().for_each(|problem| report(&opened.source, std::slice::from_ref(problem)));
    }
    out.flush()?;
    Ok(Ended::of(problem.is_none()))
}

/// A score as JSON: tokens, agents and procedures by number, and the names.
fn as_json(score: &Score, names: &Names) -> Value {
    let named = |names: &std::collections::BTreeMap<usize, String>| -> Value {
        names.iter().map(|(number, name)| (number.to_string(), json!(name))).collect::<serde_json::Map<_, _>>().into()
    };
    json!({
        "tokens": score.tokens,
        "ports": match score.ports {
            Ports::Range(lowest, highest) => json!([lowest, highest]),
            Ports::Formless(word) => json!({ "word": word }),
        },
        "agents": score.agents.iter().map(|&agent| agent_json(agent)).collect::<Vec<_>>(),
        "procedures": score.procedures.iter().map(|&procedure| match procedure {
            Procedure::Root(root) => json!({ "root": root }),
            Procedure::Formless(word) => json!({ "word": word }),
        }).collect::<Vec<_>>(),
        "rules": score.rules.iter().map(|&rule| match rule {
            Rule::Rule(premise, other, conclusion) => json!({ "premises": [premise, other], "gives": conclusion }),
            Rule::Fact(conclusion) => json!({ "premises": [], "gives": conclusion }),
            Rule::Formless(word) => json!({ "word": word }),
        }).collect::<Vec<_>>(),
        "draft": score.is_draft(),
        "names": {
            "tokens": named(&names.tokens), "procedures": named(&names.procedures), "agents": named(&names.agents),
        },
    })
}

fn agent_json(agent: Agent) -> Value {
    match agent {
        Agent::Skip => json!({ "kind": "skip" }),
        Agent::Abort => json!({ "kind": "abort" }),
        Agent::Tell(token) => json!({ "kind": "tell", "token": token }),
        Agent::Parallel(half, other) => json!({ "kind": "parallel", "halves": [half, other] }),
        Agent::When(token, body) => json!({ "kind": "when", "token": token, "body": body }),
        Agent::Next(body) => json!({ "kind": "next", "body": body }),
        Agent::Unless(token, body) => json!({ "kind": "unless", "token": token, "body": body }),
        Agent::Call(procedure) => json!({ "kind": "call", "procedure": procedure }),
        Agent::Watch(token, body) => json!({ "kind": "watch", "token": token, "body": body }),
        Agent::Formless(word) => json!({ "word": word }),
    }
}
