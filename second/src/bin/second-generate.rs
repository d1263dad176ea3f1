//! Writes a random script: `second-generate rehearse|keeper|tablet SEED [LINES]`. The script is
//! on standard output; how to run it, and what happens in it, is on standard error. A script of
//! the keeper or the tablet is the first session of the seed's case; with `case` in front of
//! the program's name the whole case is written, in the form of the stored ones.

use second::case::{Case, Program};
use second::stats::Stats;
use second::{generate_keeper, generate_rehearse, generate_tablet};
use std::io::Write;
use std::process::ExitCode;

fn make(program: Program, seed: u64, lines: usize, stats: &mut Stats) -> Result<Case, String> {
    match program {
        Program::Keeper => Ok(generate_keeper::case(seed, lines, stats)),
        Program::Tablet => Ok(generate_tablet::case(seed, lines, stats)),
        Program::Rehearse => generate_rehearse::case(seed, lines, stats).map_err(|violation| violation.0),
    }
}

fn run(arguments: &[String]) -> Result<(), String> {
    let usage = "second-generate [case] rehearse|keeper|tablet SEED [LINES]";
    let whole = arguments.first().is_some_and(|word| word == "case");
    let words = &arguments[usize::from(whole)..];
    let program = words.first().and_then(|name| Program::from_name(name)).ok_or(usage)?;
    let seed = words.get(1).and_then(|word| word.parse().ok()).ok_or(usage)?;
    let lines = words.get(2).map_or(Ok(150), |word| word.parse()).map_err(|_| usage)?;
    let mut stats = Stats::default();
    let case = make(program, seed, lines, &mut stats)?;
    let script = match whole {
        true => case.text().into_bytes(),
        false => case.sessions[0].lines.concat(),
    };
    std::io::stdout().write_all(&script).map_err(|error| error.to_string())?;
    eprintln!("run: {} {}", program.name(), case.arguments.join(" "));
    eprintln!("{stats}");
    Ok(())
}

fn main() -> ExitCode {
    let arguments: Vec<String> = std::env::args().skip(1).collect();
    match run(&arguments) {
        Ok(()) => ExitCode::SUCCESS,
        Err(text) => {
            eprintln!("{text}");
            ExitCode::FAILURE
        }
    }
}
