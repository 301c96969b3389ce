//! Runs random scripts through another bench program and the own engine, and compares what they print.

mod tally;

use second::script::{self, printable};
use second::{generate, other, shares};
use std::env;
use std::process::ExitCode;
use tally::Tally;

const USAGE: &str = "usage: compare PROGRAM [--scripts N] [--seed S]";

struct Settings {
    program: String,
    scripts: u64,
    seed: u64,
}

fn main() -> ExitCode {
    let Some(settings) = read_settings(env::args().skip(1)) else {
        eprintln!("{USAGE}");
        return ExitCode::from(2);
    };
    match compare(&settings) {
        Ok(tally) => {
            println!("{} scripts of seed {}: no difference", settings.scripts, settings.seed);
            print!("{tally}");
            report_weakness(&tally)
        }
        Err(difference) => {
            println!("{difference}");
            ExitCode::FAILURE
        }
    }
}

fn read_settings(mut words: impl Iterator<Item = String>) -> Option<Settings> {
    let mut settings = Settings { program: words.next()?, scripts: 6_000, seed: 1 };
    while let Some(word) = words.next() {
        let value = words.next()?.parse().ok()?;
        match word.as_str() {
            "--scripts" => settings.scripts = value,
            "--seed" => settings.seed = value,
            _ => return None,
        }
    }
    Some(settings)
}

fn report_weakness(tally: &Tally) -> ExitCode {
    let weaknesses = tally.weaknesses();
    for weakness in &weaknesses {
        println!("too weak: not reached: {weakness}");
    }
    if weaknesses.is_empty() {
        ExitCode::SUCCESS
    } else {
        ExitCode::FAILURE
    }
}

/// Compares script after script, up to the first difference.
fn compare(settings: &Settings) -> Result<Tally, String> {
    let shares = shares::each(settings.scripts, |index, tally| {
        let script = generate::script(settings.seed, index);
        compare_one(&settings.program, &script, tally).map_err(|difference| {
            format!("script {index} of seed {} differs\n{difference}", settings.seed)
        })
    })?;
    Ok(shares.into_iter().fold(Tally::default(), Tally::plus))
}

fn compare_one(program: &str, script: &[u8], tally: &mut Tally) -> Result<(), String> {
    let lines = script::read_lines(&mut &script[..]).map_err(|error| error.to_string())?;
    let play = script::play(&lines);
    let own = script::print(&play);
    let others = other::run(program, script).unwrap_or_else(|error| error.to_string().into());
    if others == own.as_bytes() {
        tally.count(&lines, play);
        return Ok(());
    }
    let script: Vec<String> = script.split(|&byte| byte == b'\n').map(printable).collect();
    let script = script.join("\n");
    let others = String::from_utf8_lossy(&others);
    Err(format!("--- script\n{script}\n--- {program}\n{others}\n--- own engine\n{own}"))
}
