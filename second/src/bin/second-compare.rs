//! Compares the programs with the second implementation, line by line and byte by byte:
//! `second-compare OURS SECOND STORED COUNT SEED PROGRAM...`, where OURS and SECOND are the
//! directories of the programs and STORED is the one of stored cases.
//!
//! Ends with status 1 at the first difference, which is shrunk before it is shown.

use second::case::{self, Case, Program, Session};
use second::clock::Terms;
use second::rng::Rng;
use second::stats::Stats;
use second::{generate, generate_keeper, generate_rehearse, generate_tablet};
use std::fs::{self, File};
use std::io;
use std::path::{Path, PathBuf};
use std::process::{Command, ExitCode, Stdio};

/// Lines of one script.
const LINES: usize = 150;

/// How a program ended and what it left.
#[derive(PartialEq, Eq, Debug, Default)]
struct Outcome {
    stdout: Vec<u8>,
    /// The exit status, or nothing where a signal ended it.
    status: Option<i32>,
    journal: Option<Vec<u8>>,
}

/// Where the two are, and a place for their files.
struct Bench {
    ours: PathBuf,
    second: PathBuf,
    directory: PathBuf,
    /// Differences found while shrinking run the programs again and again: how often.
    runs: u64,
}

impl Drop for Bench {
    fn drop(&mut self) {
        let _ = fs::remove_dir_all(&self.directory);
    }
}

impl Bench {
    fn new(ours: &str, second: &str) -> io::Result<Bench> {
        let directory = std::env::temp_dir().join(format!("second-compare-{}", std::process::id()));
        fs::create_dir_all(&directory)?;
        Ok(Bench { ours: ours.into(), second: second.into(), directory, runs: 0 })
    }

    fn path(&self, program: Program, ours: bool) -> PathBuf {
        match ours {
            true => self.ours.join(program.name()),
            false => self.second.join(format!("second-{}", program.name())),
        }
    }

    /// Runs one session; what was in the journal before is changed as the session says.
    fn session(&mut self, case: &Case, session: &Session, before: Option<&[u8]>, ours: bool) -> io::Result<Outcome> {
        self.runs += 1;
        let journal = self.directory.join("journal");
        let mut bytes = before.unwrap_or(&[]).to_vec();
        session.damage.iter().for_each(|damage| damage.apply(&mut bytes));
        let _ = fs::remove_file(&journal);
        if before.is_some() || !bytes.is_empty() {
            fs::write(&journal, &bytes)?;
        }
        let input = self.directory.join("input");
        fs::write(&input, session.lines.concat())?;
        let mut command = limited(session.limit, &self.path(case.program, ours));
        command.args(&case.arguments).stdin(File::open(&input)?).stderr(Stdio::null());
        if case.program.has_journal() {
            command.arg(&journal);
        }
        let output = command.output()?;
        let journal = fs::read(&journal).ok();
        Ok(Outcome { stdout: output.stdout, status: output.status.code(), journal })
    }

    /// The first session in which the two differ, with both outcomes.
    fn difference(&mut self, case: &Case) -> io::Result<Option<(usize, Outcome, Outcome)>> {
        let mut journal: Option<Vec<u8>> = None;
        for (number, session) in case.sessions.iter().enumerate() {
            let ours = self.session(case, session, journal.as_deref(), true)?;
            let second = self.session(case, session, journal.as_deref(), false)?;
            if ours != second {
                return Ok(Some((number, ours, second)));
            }
            journal = second.journal;
        }
        Ok(None)
    }

    fn differs(&mut self, case: &Case) -> bool {
        matches!(self.difference(case), Ok(Some(_)))
    }

    /// The shortest case that still differs, as far as leaving things out finds it.
    fn shrink(&mut self, case: &Case) -> Case {
        let mut case = case.clone();
        case.sessions = case::shrink(&case.sessions.clone(), |sessions| {
            self.differs(&Case { sessions: sessions.to_vec(), ..case.clone() })
        });
        for number in 0..case.sessions.len() {
            let with = |case: &Case, session: Session| {
                let mut case = case.clone();
                case.sessions[number] = session;
                case
            };
            let Session { damage, limit, lines } = case.sessions[number].clone();
            let damage = case::shrink(&damage, |damage| {
                self.differs(&with(&case, Session { damage: damage.to_vec(), limit, lines: lines.clone() }))
            });
            let lines = case::shrink(&lines, |lines| {
                self.differs(&with(&case, Session { damage: damage.clone(), limit, lines: lines.to_vec() }))
            });
            case.sessions[number] = Session { damage, limit, lines };
        }
        case
    }

    /// Compares one case; a difference is shrunk and printed.
    fn compare(&mut self, case: &Case, name: &str) -> Result<(), String> {
        match self.difference(case) {
            Ok(None) => Ok(()),
            Ok(Some(_)) => {
                let alone = self.alone(case);
                Err(self.report(&alone, name))
            }
            Err(error) => Err(format!("{name}: {error}")),
        }
    }

    /// Of many scripts joined into one, the one that differs on its own, where there is one.
    fn alone(&mut self, case: &Case) -> Case {
        let lines = &case.sessions[0].lines;
        if case.program.has_journal() {
            return case.clone();
        }
        for script in lines.split(|line| line == b"anew\n") {
            let sessions = vec![Session { lines: script.to_vec(), ..Session::default() }];
            let single = Case { sessions, ..case.clone() };
            if self.differs(&single) {
                return single;
            }
        }
        case.clone()
    }

    fn report(&mut self, case: &Case, name: &str) -> String {
        let case = self.shrink(case);
        let Ok(Some((session, ours, second))) = self.difference(&case) else {
            return format!("{name}: a difference that does not come back");
        };
        let mut text = format!("{name}: DIFFERENT in session {}\n{}", session + 1, case.text());
        text.push_str(&format!("--- ours\n{}--- second\n{}", describe(&ours), describe(&second)));
        text
    }
}

/// The program's command; with a limit a write beyond it fails, as on a full disk.
fn limited(limit: Option<u64>, program: &Path) -> Command {
    let Some(limit) = limit else {
        return Command::new(program);
    };
    let mut command = Command::new("bash");
    command.args(["-c", r#"trap '' XFSZ; ulimit -f "$0"; exec "$@""#, &limit.to_string()]).arg(program);
    command
}

/// An outcome for the eye: long lines are cut.
fn describe(outcome: &Outcome) -> String {
    let mut text = String::new();
    for line in outcome.stdout.split_inclusive(|&byte| byte == b'\n') {
        let line = String::from_utf8_lossy(line);
        match line.len() > 200 {
            true => text.push_str(&format!("{}... ({} characters)\n", line.chars().take(80).collect::<String>(), line.len())),
            false => text.push_str(&line),
        }
    }
    text.push_str(&match outcome.status {
        Some(status) => format!("status {status}\n"),
        None => "ended by a signal\n".to_owned(),
    });
    match &outcome.journal {
        Some(journal) if journal.len() > 200 => {
            text.push_str(&format!("journal of {} bytes, {}...\n", journal.len(), case::hex(&journal[..24])));
        }
        Some(journal) => text.push_str(&format!("journal {}\n", case::hex(journal))),
        None => {}
    }
    text
}

/// The stored cases of the program: differences that were found once, and must not come back.
fn compare_stored(bench: &mut Bench, program: Program, stored: &Path) -> Result<u64, String> {
    let mut paths: Vec<PathBuf> = match fs::read_dir(stored) {
        Ok(entries) => entries.filter_map(|entry| Some(entry.ok()?.path())).collect(),
        Err(_) => return Ok(0),
    };
    paths.retain(|path| path.extension().is_some_and(|extension| extension == "case"));
    paths.sort();
    let mut count = 0;
    for path in paths {
        let name = path.display().to_string();
        let text = fs::read_to_string(&path).map_err(|error| format!("{name}: {error}"))?;
        let case = Case::read(&text).ok_or(format!("{name}: not a case"))?;
        if case.program == program {
            bench.compare(&case, &name)?;
            count += 1;
        }
    }
    Ok(count)
}

/// Terms that are good, bad, and in no form.
const TERMS: [[&str; 3]; 22] = [
    ["0", "100", "104"],
    ["0", "100", "103"],
    ["10000", "1", "6"],
    ["10000", "1", "5"],
    ["10001", "1", "100"],
    ["0", "0", "100"],
    ["0", "1", "3600000"],
    ["0", "1", "3600001"],
    ["0", "3599996", "3600000"],
    ["0", "1", "0"],
    ["0", "18446744073709551615", "3600000"],
    ["0", "18446744073709551616", "3600000"],
    ["", "100", "110"],
    ["+0", "100", "110"],
    ["-0", "100", "110"],
    ["0 ", "100", "110"],
    ["000", "0100", "00110"],
    ["x", "100", "110"],
    ["4294967296", "100", "110"],
    ["0", "4294967297", "110"],
    ["0", "100", "4294967406"],
    ["0", "100", "1e3"],
];

/// Lists of arguments, without the journal's path.
fn argument_lists(program: Program, seed: u64) -> Vec<Vec<String>> {
    let mut lists: Vec<Vec<String>> = TERMS.iter().map(|terms| terms.map(str::to_owned).to_vec()).collect();
    let mut rng = Rng::new(seed);
    for _ in 0..40 {
        let (rate, short) = (rng.below(10_002), rng.within(0, 40_000));
        let least = Terms::least_long(rate.min(10_000), short).unwrap_or(3_600_000);
        let long = (least + rng.below(3)).saturating_sub(1);
        lists.push([rate, short, long].map(|number| number.to_string()).to_vec());
    }
    if program == Program::Tablet {
        lists.iter_mut().for_each(|list| list.push("31".into()));
        for number in ["0", "32", "256", "4294967296", "x", "", "-1", "031"] {
            lists.push(["0", "100", "110", number].map(str::to_owned).to_vec());
        }
    }
    lists
}

/// Arguments good and bad: the two must take and refuse the same ones.
fn compare_arguments(bench: &mut Bench, program: Program, seed: u64) -> Result<u64, String> {
    let lists = argument_lists(program, seed);
    let count = lists.len() as u64;
    for arguments in lists {
        let sessions = vec![Session { lines: vec![b"5\n".to_vec()], ..Session::default() }];
        bench.compare(&Case { program, arguments, sessions }, "arguments")?;
    }
    compare_missing(bench, program)?;
    Ok(count)
}

/// With no arguments, or too few, both end with status 1 and say why on one line.
fn compare_missing(bench: &Bench, program: Program) -> Result<(), String> {
    let full = ["0", "100", "110", "3"];
    let needed = if program == Program::Tablet { 4 } else { 3 };
    for count in 0..needed {
        for ours in [true, false] {
            let mut command = Command::new(bench.path(program, ours));
            let output = command.args(&full[..count]).stdin(Stdio::null()).output().map_err(|error| error.to_string())?;
            let lines = output.stderr.iter().filter(|&&byte| byte == b'\n').count();
            if output.status.code() != Some(1) || lines != 1 || !output.stdout.is_empty() {
                let whose = if ours { "ours" } else { "second" };
                return Err(format!("{} ({whose}) with {count} arguments: {output:?}", program.name()));
            }
        }
    }
    Ok(())
}

/// Compares the seeds from `seed` on.
fn compare_random(bench: &mut Bench, program: Program, count: u64, seed: u64, stats: &mut Stats) -> Result<(), String> {
    if program == Program::Rehearse {
        return compare_rehearsals(bench, count, seed, stats);
    }
    for seed in seed..seed + count {
        let case = match program {
            Program::Keeper => generate_keeper::case(seed, LINES, stats),
            _ => generate_tablet::case(seed, LINES, stats),
        };
        bench.compare(&case, &format!("{} seed {seed}", program.name()))?;
    }
    Ok(())
}

/// Rehearsals with the same terms are played by one process, one after another.
fn compare_rehearsals(bench: &mut Bench, count: u64, seed: u64, stats: &mut Stats) -> Result<(), String> {
    let mut next = seed;
    while next < seed + count {
        let end = ((next / generate::GROUP + 1) * generate::GROUP).min(seed + count);
        let terms = generate_rehearse::terms_of(next);
        let mut lines = Vec::new();
        for script in next..end {
            let made = generate_rehearse::script(terms, script, LINES, stats);
            lines.extend(made.map_err(|violation| format!("the second's own account, seed {script}: {}", violation.0))?);
            lines.push(b"anew\n".to_vec());
        }
        stats.sessions += 1;
        let sessions = vec![Session { lines, ..Session::default() }];
        let case = Case { program: Program::Rehearse, arguments: generate::terms_words(terms), sessions };
        bench.compare(&case, &format!("rehearse seeds {next} to {}", end - 1))?;
        next = end;
    }
    Ok(())
}

fn run(arguments: &[String]) -> Result<(), String> {
    let usage = "second-compare OURS SECOND STORED COUNT SEED PROGRAM...";
    let [ours, second, stored, count, seed, programs @ ..] = arguments else {
        return Err(usage.into());
    };
    let (count, seed) = (count.parse().map_err(|_| usage)?, seed.parse().map_err(|_| usage)?);
    let mut bench = Bench::new(ours, second).map_err(|error| error.to_string())?;
    for name in programs {
        let program = Program::from_name(name).ok_or(usage)?;
        let mut stats = Stats::default();
        let stored = compare_stored(&mut bench, program, Path::new(stored))?;
        let lists = compare_arguments(&mut bench, program, seed)?;
        compare_random(&mut bench, program, count, seed, &mut stats)?;
        println!("{name}: same ({stored} stored, {lists} argument lists, {stats})");
    }
    Ok(())
}

fn main() -> ExitCode {
    let arguments: Vec<String> = std::env::args().skip(1).collect();
    match run(&arguments) {
        Ok(()) => ExitCode::SUCCESS,
        Err(text) => {
            println!("{text}");
            ExitCode::FAILURE
        }
    }
}
