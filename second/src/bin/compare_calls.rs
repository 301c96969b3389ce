//! Makes calls on the units of another program and of the own engine, and compares what they give.

use second::comparison::{self, Tally};
use second::{calls, other, shares};
use std::env;
use std::io::{self, Write};
use std::process::ExitCode;

const USAGE: &str =
    "usage: compare_calls PROGRAM [--groups N] [--seed S] | compare_calls --write GROUP [--seed S]";
const WRITE: &str = "--write";

struct Settings {
    program: String,
    groups: u64,
    seed: u64,
    written: Option<u64>,
}

fn main() -> ExitCode {
    let Some(settings) = read_settings(env::args().skip(1)) else {
        eprintln!("{USAGE}");
        return ExitCode::from(2);
    };
    if let Some(index) = settings.written {
        let stream = calls::group(settings.seed, index).stream();
        return match io::stdout().write_all(&stream) {
            Ok(()) => ExitCode::SUCCESS,
            Err(_) => ExitCode::FAILURE,
        };
    }
    match compare(&settings) {
        Ok(tally) => report(&tally, &settings),
        Err(difference) => {
            println!("{difference}");
            ExitCode::FAILURE
        }
    }
}

fn read_settings(words: impl Iterator<Item = String>) -> Option<Settings> {
    let mut settings = Settings { program: String::new(), groups: 140, seed: 1, written: None };
    let mut words = words.peekable();
    if words.peek()? != WRITE {
        settings.program = words.next()?;
    }
    while let Some(word) = words.next() {
        let value = words.next()?.parse().ok()?;
        match word.as_str() {
            "--groups" => settings.groups = value,
            "--seed" => settings.seed = value,
            WRITE => settings.written = Some(value),
            _ => return None,
        }
    }
    Some(settings)
}

fn compare(settings: &Settings) -> Result<Tally, String> {
    let shares = shares::each(settings.groups, |index, tally: &mut Tally| {
        let group = calls::group(settings.seed, index);
        let heading = |difference| {
            let (seed, size, window) = (settings.seed, group.size, group.window);
            format!("group {index} of seed {seed} differs, n = {size}, W = {window}\n{difference}")
        };
        let replies = other::run(&settings.program, &group.stream());
        let replies = replies.map_err(|error| heading(error.to_string()))?;
        comparison::judge(&group, &settings.program, &replies, tally).map_err(heading)
    })?;
    Ok(shares.into_iter().fold(Tally::default(), Tally::plus))
}

fn report(tally: &Tally, settings: &Settings) -> ExitCode {
    println!("{} groups of seed {}: no difference", settings.groups, settings.seed);
    print!("{tally}");
    let weaknesses = tally.weaknesses();
    for weakness in &weaknesses {
        println!("too weak: not reached: {weakness}");
    }
    if weaknesses.is_empty() {
        ExitCode::SUCCESS
    } else {
        ExitCode::FAILURE
    }
}
