//! Draws the run of a script: `picture [--bench PROGRAM] < script > out.svg`.

use second::trace::Trace;
use second::{drawing, other, script};
use std::env;
use std::io::{self, Read, Write};
use std::process::ExitCode;

fn main() -> ExitCode {
    match picture(env::args().skip(1).collect()) {
        Ok(()) => ExitCode::SUCCESS,
        Err(why) => {
            eprintln!("picture: {why}");
            ExitCode::FAILURE
        }
    }
}

fn picture(words: Vec<String>) -> Result<(), String> {
    let bench = match &words[..] {
        [] => None,
        [option, program] if option == "--bench" => Some(program),
        _ => return Err("usage: picture [--bench PROGRAM] < script > out.svg".to_owned()),
    };
    let mut script = Vec::new();
    io::stdin().read_to_end(&mut script).map_err(|error| error.to_string())?;
    let lines = script::read_lines(&mut &script[..]).map_err(|error| error.to_string())?;
    if let Some(program) = bench {
        require_agreement(program, &script, &lines)?;
    }
    let trace = Trace::of(&lines).ok_or("the first line names no group")?;
    io::stdout().write_all(drawing::draw(&trace).as_bytes()).map_err(|error| error.to_string())
}

fn require_agreement(program: &str, script: &[u8], lines: &[Vec<u8>]) -> Result<(), String> {
    let others = other::run(program, script).map_err(|error| error.to_string())?;
    if others == script::print(&script::play(lines)).as_bytes() {
        Ok(())
    } else {
        Err(format!("{program} prints something else for this script"))
    }
}
