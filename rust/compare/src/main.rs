//! `compare FIRST SECOND [--events N] [--seed S]`: runs two programs over generated replay scripts.
//! `compare FIRST SECOND --fuzz N [--corpus FOLDER] [--seed S]`: over N random and damaged ones.
//! With `--options A B` the programs are asked for reasons by these options instead of `--explain` and `--why`, with
//! `--answers` not at all.
//!
//! Exit status: 0 where they agree everywhere (and a run of 200,000 events or more has reached everything that can be
//! reached), 1 where they differ or something was not reached, 2 where the comparison could not be made.

use std::ffi::OsString;
use std::io::{self, Write};
use std::path::Path;
use std::process::ExitCode;
use std::time::{Instant, SystemTime, UNIX_EPOCH};

use compare::comparing::{compare, fuzz, Failure, Options, FULL_RUN};
use compare::fuzz::Corpus;
use compare::program::{Folder, Process};

const USAGE: &str =
    "usage: compare FIRST SECOND [--events N | --fuzz N [--corpus FOLDER]] [--seed S] \
     [--options A B | --answers]   (decimal numbers)";

/// What the command line asks for.
struct Request {
    first: OsString,
    second: OsString,
    options: Options,
    /// The options by which the two programs are asked for reasons, if they are.
    explaining: Option<[String; 2]>,
    /// How many fuzzed scripts, instead of generated ones.
    fuzz: Option<u64>,
    corpus: Corpus,
}

fn main() -> ExitCode {
    let arguments: Vec<OsString> = std::env::args_os().skip(1).collect();
    match read_arguments(&arguments) {
        Ok(request) => match run(&request) {
            Ok(code) => code,
            Err(sentence) => complain(&sentence),
        },
        Err(sentence) => complain(&format!("{sentence}; {USAGE}")),
    }
}

fn read_arguments(arguments: &[OsString]) -> Result<Request, String> {
    let mut options = Options {
        events: FULL_RUN,
        seed: seed_from_clock(),
    };
    let mut programs = Vec::new();
    let mut explaining = Some(["--explain", "--why"].map(str::to_string));
    let mut scripts = None;
    let mut corpus = Corpus::default();
    let mut rest = arguments.iter();
    while let Some(argument) = rest.next() {
        match argument.to_str() {
            Some("--events") => options.events = number("--events", rest.next())?,
            Some("--fuzz") => scripts = Some(number("--fuzz", rest.next())?),
            Some("--corpus") => {
                let folder = rest.next().ok_or("--corpus needs a folder")?;
                corpus = Corpus::of_folder(Path::new(folder))
                    .map_err(|error| format!("{folder:?} can't be read: {error}"))?;
            }
            Some("--seed") => options.seed = number("--seed", rest.next())?,
            Some("--answers") => explaining = None,
            Some("--options") => {
                let mut option = || rest.next().and_then(|option| option.to_str());
                let (Some(one), Some(other)) = (option(), option()) else {
                    return Err("--options needs two options".to_string());
                };
                explaining = Some([one, other].map(str::to_string));
            }
            Some(option) if option.starts_with("--") => {
                return Err(format!("{option} is no option"));
            }
            _ => programs.push(argument.clone()),
        }
    }
    match programs.as_slice() {
        [first, second] => Ok(Request {
            first: first.clone(),
            second: second.clone(),
            options,
            explaining,
            fuzz: scripts,
            corpus,
        }),
        _ => Err("two programs are needed".to_string()),
    }
}

fn number(option: &str, argument: Option<&OsString>) -> Result<u64, String> {
    argument
        .and_then(|argument| argument.to_str())
        .and_then(|text| text.parse().ok())
        .ok_or_else(|| format!("{option} needs a number"))
}

/// A seed that is another one at another time.
fn seed_from_clock() -> u64 {
    SystemTime::now()
        .duration_since(UNIX_EPOCH)
        .map_or(1, |time| time.as_nanos() as u64 % 1_000_000_000)
}

fn run(request: &Request) -> Result<ExitCode, String> {
    let options = &request.options;
    let folder = Folder::new().map_err(|error| format!("no folder for the scripts: {error}"))?;
    let start = |path: &OsString, place: usize| {
        let process = Process::new(path, &folder)
            .map_err(|error| format!("{path:?} can't be run: {error}"))?;
        Ok::<Process, String>(match &request.explaining {
            Some(options) => process.explaining(&options[place]),
            None => process,
        })
    };
    let (one, other) = (start(&request.first, 0)?, start(&request.second, 1)?);
    let begin = Instant::now();
    let seconds = || say(&format!("seconds {:.1}", begin.elapsed().as_secs_f64()));
    let ended = if let Some(scripts) = request.fuzz {
        say(&format!("seed {}, fuzzed scripts {scripts}", options.seed));
        let (seed, corpus) = (options.seed, &request.corpus);
        fuzz(&one, &other, scripts, seed, corpus, folder.path()).map(|ended| {
            say(&format!(
                "run whole {}, ended at a bad line {}, bytes compared {}",
                ended.whole, ended.bad, ended.bytes
            ));
            seconds();
            say("OK: no difference");
            ExitCode::SUCCESS
        })
    } else {
        say(&format!("seed {}, events {}", options.seed, options.events));
        compare(&one, &other, options, folder.path()).map(|coverage| {
            say(coverage.table().trim_end());
            seconds();
            let mut missing = coverage.missing();
            if request.explaining.is_some() {
                missing.extend(coverage.missing_reasons());
            }
            judge(options, &missing)
        })
    };
    match ended {
        Ok(code) => Ok(code),
        Err(Failure::Different(difference)) => {
            say(&difference.to_string());
            say(&format!(
                "FAILED: the programs differ (seed {})",
                options.seed
            ));
            Ok(ExitCode::from(1))
        }
        Err(Failure::NotRun(name, error)) => Err(format!("{name} can't be run: {error}")),
    }
}

/// Whether a run that found no difference is good: a full one must have reached everything.
fn judge(options: &Options, missing: &[String]) -> ExitCode {
    for sentence in missing {
        say(&format!("not reached: {sentence}"));
    }
    if !missing.is_empty() && options.events >= FULL_RUN {
        say(&format!(
            "FAILED: no difference, but {} things were not reached (seed {})",
            missing.len(),
            options.seed
        ));
        return ExitCode::from(1);
    }
    say("OK: no difference");
    ExitCode::SUCCESS
}

/// A line on standard output. Where no one reads it, nothing more can be said.
fn say(line: &str) {
    let _ = writeln!(io::stdout(), "{line}");
}

fn complain(sentence: &str) -> ExitCode {
    let _ = writeln!(io::stderr(), "compare: {sentence}");
    ExitCode::from(2)
}
