//! Writes a library of scores as a shop has them, each with the names in it, an input list, and the journal that the
//! second engine gives for that list.

mod acts;
mod builder;
mod inputs;
mod names;
mod order;
mod pieces;
mod plain;
mod rig;
mod shows;
mod stage;
mod titles;
mod watched;

use builder::Token;
use second::answer::ACCEPTED;
use second::decoded::{self, Decoded};
use second::random::Random;
use second::{calls, lent, oracle};
use shows::{Entry, LAST_OLD};
use std::collections::BTreeSet;
use std::fs;
use std::io;
use std::path::Path;
use std::process::ExitCode;

const SCORES: u32 = 312;

/// The folders in which a library keeps its parts.
const FOLDERS: [&str; 3] = ["scores", "inputs", "journals"];

/// The bytes of a score, and its agents.
struct Size {
    bytes: usize,
    agents: usize,
}

/// Writes a score of the library, with what goes with it.
fn write(folder: &Path, seed: u64, number: u32) -> io::Result<Size> {
    let mut random = Random::new(seed, number.into());
    let Entry { title, written, panel } = shows::entry(&mut random, number);
    let name = format!("{number:03}-{title}");
    let answer = oracle::check(&written.bytes);
    assert_eq!(answer, ACCEPTED, "{name} is turned down");
    let score = Decoded::new(&written.bytes);
    let list: Vec<_> =
        inputs::list(&mut random, &panel).iter().map(|pressed| rising(&written.numbers, pressed)).collect();
    let journal = calls::journal(&score, &list, &mut random).concat();
    fs::write(folder.join("scores").join(&name), &written.bytes)?;
    fs::write(folder.join("inputs").join(&name), lent::list_bytes(&list))?;
    fs::write(folder.join("journals").join(&name), journal)?;
    if let Some(names) = names_text(&mut random, number, &title, written.names) {
        fs::write(folder.join("scores").join(format!("{name}.names")), names)?;
    }
    Ok(Size { bytes: written.bytes.len(), agents: score.agents.len() })
}

fn rising(numbers: &[usize], tokens: &BTreeSet<Token>) -> Vec<decoded::Token> {
    let numbers: BTreeSet<decoded::Token> = tokens.iter().map(|token| numbers[token.0]).collect();
    numbers.into_iter().collect()
}

/// The names of many old scores are lost, and some of others.
fn names_text(random: &mut Random, number: u32, title: &str, mut names: names::Names) -> Option<String> {
    if number <= LAST_OLD && random.one_in(2) {
        return None;
    }
    if random.one_in(10) {
        names.forget_some(random, 4);
    }
    Some(names.text(&title.replace('-', " ")))
}

/// Fails where the folders are there already: scores of another seed are not to be mixed in.
fn write_all(folder: &Path, seed: u64) -> io::Result<Vec<Size>> {
    fs::create_dir_all(folder)?;
    for part in FOLDERS {
        fs::create_dir(folder.join(part))?;
    }
    (1..=SCORES).map(|number| write(folder, seed, number)).collect()
}

/// The smallest, the mean and the largest.
fn spread(numbers: impl Iterator<Item = usize> + Clone) -> String {
    let (smallest, largest) = (numbers.clone().min().unwrap_or(0), numbers.clone().max().unwrap_or(0));
    let mean = numbers.clone().sum::<usize>() / numbers.count().max(1);
    format!("{smallest} to {largest} (mean {mean})")
}

/// The folder and the seed that the arguments ask for.
fn wanted(arguments: &[String]) -> Option<(&Path, u64)> {
    match arguments {
        [folder] => Some((Path::new(folder), 1)),
        [folder, seed] => Some((Path::new(folder), seed.parse().ok()?)),
        _ => None,
    }
}

fn main() -> ExitCode {
    let arguments: Vec<String> = std::env::args().skip(1).collect();
    let Some((folder, seed)) = wanted(&arguments) else {
        eprintln!("usage: give the folder of the library, and a seed if it is not to be 1");
        return ExitCode::from(2);
    };
    match write_all(folder, seed) {
        Ok(sizes) => {
            let bytes = spread(sizes.iter().map(|size| size.bytes));
            let agents = spread(sizes.iter().map(|size| size.agents));
            println!("{} scores, {bytes} bytes, {agents} agents", sizes.len());
            ExitCode::SUCCESS
        }
        Err(error) => {
            eprintln!("{}: {error}", folder.display());
            ExitCode::FAILURE
        }
    }
}
