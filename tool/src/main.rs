//! The program `score`: its arguments, and what it ends with: 0 fine, 1 something is refused or differs, 2 bad usage or a
//! file that cannot be read or written.

mod commands;

use clap::{Args, CommandFactory, Parser, Subcommand};
use clap_complete::{generate, Shell};
use commands::{Ended, Output};
use score::open::Failure;
use score::problem::{error, report};
use std::io::{stderr, Write};
use std::path::PathBuf;
use std::process::ExitCode;

#[derive(Parser)]
#[command(name = "score", version, about = "Reads, writes, checks and plays scores")]
struct Program {
    #[command(subcommand)]
    command: Command,
    /// Print JSON, for programs
    #[arg(long, global = true)]
    json: bool,
}

#[derive(Subcommand)]
enum Command {
    /// Print a score as text
    List(List),
    /// Make a score of a text
    Make(Make),
    /// Check scores: files, and all files of folders
    Check(Check),
    /// Play a score, instant by instant
    Play(Play),
    /// Print a journal and check it
    Journal(Journal),
    /// Print the completion script for bash
    Completion,
}

#[derive(Args)]
struct List {
    /// A score, a draft or a text
    file: PathBuf,
    /// The names of tokens, procedures and agents, instead of FILE.names
    #[arg(long, value_name = "NAMES")]
    names: Option<PathBuf>,
}

#[derive(Args)]
struct Make {
    /// A text, or - for standard input
    text: PathBuf,
    /// Where the score goes; its names go to FILE.names
    #[arg(short, long, value_name = "FILE")]
    output: PathBuf,
    /// Make the plain score of a draft, which consoles play
    #[arg(long)]
    plain: bool,
    /// Names that the text does not give, instead of TEXT.names
    #[arg(long, value_name = "NAMES")]
    names: Option<PathBuf>,
}

#[derive(Args)]
struct Check {
    /// Scores, texts, and folders of them
    #[arg(required = true, value_name = "PATH")]
    paths: Vec<PathBuf>,
    /// How many files are checked at a time; as many as there are processors where it is not given
    #[arg(short, long, value_name = "N", value_parser = clap::value_parser!(u16).range(1..=1024))]
    jobs: Option<u16>,
    /// Take drafts too, where they have a plain score
    #[arg(long)]
    drafts: bool,
}

#[derive(Args)]
struct Play {
    /// A score, a draft or a text
    file: PathBuf,
    /// Take the switches from a file: lines as they are typed, or an input list
    #[arg(short, long, value_name = "INPUTS")]
    inputs: Option<PathBuf>,
    /// Write the journal here at the end
    #[arg(short = 'o', long, value_name = "JOURNAL")]
    journal: Option<PathBuf>,
    /// The names of tokens, procedures and agents, instead of FILE.names
    #[arg(long, value_name = "NAMES")]
    names: Option<PathBuf>,
}

#[derive(Args)]
struct Journal {
    /// The score that was played, a draft or a text
    file: PathBuf,
    /// The journal
    journal: PathBuf,
    /// The names of tokens, procedures and agents, instead of FILE.names
    #[arg(long, value_name = "NAMES")]
    names: Option<PathBuf>,
}

/// The exit status of bad usage too, by clap.
const UNREADABLE: u8 = 2;

fn main() -> ExitCode {
    let program = Program::parse();
    let json = program.json;
    let ended = match program.command {
        Command::List(list) => commands::list(&list.file, list.names.as_deref(), json),
        Command::Make(make) => commands::make(&make.text, &make.output, make.plain, make.names.as_deref(), json),
        Command::Check(check) => commands::check(&check.paths, check.jobs, check.drafts, json),
        Command::Play(play) => {
            commands::play(&play.file, play.inputs.as_deref(), play.journal.as_deref(), play.names.as_deref(), json)
        }
        Command::Journal(journal) => commands::journal(&journal.file, &journal.journal, journal.names.as_deref(), json),
        Command::Completion => completion(),
    };
    match ended {
        Ok(Ended::Fine) => ExitCode::SUCCESS,
        Ok(Ended::Refused) => ExitCode::FAILURE,
        Ok(Ended::Unreadable) => UNREADABLE.into(),
        Err(failure) => failed(failure, json),
    }
}

/// Prints the completion script for bash.
fn completion() -> Result<Ended, Failure> {
    let (mut script, mut out) = (Vec::new(), Output::new());
    generate(Shell::Bash, &mut Program::command(), "score", &mut script);
    // Bash is not to offer the word FILE.
    for line in String::from_utf8_lossy(&script).lines() {
        match line.split_once(" <").filter(|_| line.contains("opts=")) {
            Some((options, _)) => out.line(format_args!("{options}\""))?,
            None => out.line(line)?,
        }
    }
    out.flush()?;
    Ok(Ended::Fine)
}

/// Says why a file could not be used, on standard error, or in JSON on standard output.
fn failed(failure: Failure, json: bool) -> ExitCode {
    let status = if matches!(failure, Failure::File(_)) { UNREADABLE.into() } else { ExitCode::FAILURE };
    if json {
        let mut out = Output::new();
        // Standard output that is closed leaves nobody to be told.
        let _ = out.line(failure.json()).and_then(|()| out.flush());
        return status;
    }
    let said = match failure {
        Failure::Text(source, problems) => {
            report(&source, &problems);
            return status;
        }
        Failure::File(message) => format!("score: {message}"),
        Failure::Bytes(path, refusal, message) => {
            format!("{}: {}: {message}", path.display(), error(Some(refusal.number)))
        }
    };
    // So does standard error.
    let _ = writeln!(stderr(), "{said}");
    status
}
