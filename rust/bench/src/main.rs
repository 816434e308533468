//! `bench [translations|registers] [ROUNDS]`: the time of a translation and of a register access through the proved library and
//! through plain Rust.

use bench::instructions::{count, ONCE};
use bench::timing::{measure, Timed, Times, COUNTED};
use bench::{cases, registers};
use std::io::{self, Write};
use std::process::ExitCode;

/// The rounds where no number is given.
const ROUNDS: usize = 51;

/// A part of the benchmark.
struct Part {
    /// Its word on the command line.
    word: &'static str,
    /// Compares and times its cases, in so many rounds.
    run: fn(usize) -> Result<(), String>,
    /// The run under callgrind: the accesses of the case at a place once through the side with a symbol.
    once: fn(&str, &str) -> Option<()>,
}

impl Part {
    const fn of<C: Timed>() -> Part {
        Part {
            word: C::PART,
            run: run::<C>,
            once: once::<C>,
        }
    }
}

static PARTS: [Part; 2] = [
    Part::of::<cases::Case>(),
    Part::of::<registers::cases::Case>(),
];

fn main() -> ExitCode {
    let arguments: Vec<String> = std::env::args().skip(1).collect();
    let arguments: Vec<&str> = arguments.iter().map(String::as_str).collect();
    let done = match arguments.as_slice() {
        [ONCE, word, place, symbol] => part(word)
            .and_then(|at| (PARTS[at].once)(place, symbol))
            .map(Ok),
        _ => asked(&arguments).map(|(parts, rounds)| run_all(parts, rounds)),
    };
    match done {
        Some(Ok(())) => ExitCode::SUCCESS,
        Some(Err(why)) => {
            let _ = writeln!(io::stderr(), "bench: {why}");
            ExitCode::from(1)
        }
        None => {
            let words = PARTS.each_ref().map(|part| part.word).join("|");
            let _ = writeln!(io::stderr(), "usage: bench [{words}] [ROUNDS]");
            ExitCode::from(2)
        }
    }
}

/// The place of the part with a word.
fn part(word: &str) -> Option<usize> {
    PARTS.iter().position(|part| part.word == word)
}

/// The parts and the rounds that the arguments ask for.
fn asked(arguments: &[&str]) -> Option<(&'static [Part], usize)> {
    let (parts, rest) = match arguments.first().and_then(|word| part(word)) {
        Some(at) => (&PARTS[at..=at], &arguments[1..]),
        None => (&PARTS[..], arguments),
    };
    let rounds = match rest {
        [] => Some(ROUNDS),
        [rounds] => rounds.parse().ok().filter(|n| *n > 0),
        _ => None,
    };
    rounds.map(|rounds| (parts, rounds))
}

fn once<C: Timed>(place: &str, symbol: &str) -> Option<()> {
    let case = C::at(place.parse().ok()?)?;
    let counted = case.symbols().iter().position(|one| *one == symbol)?;
    case.run(C::SIDES[counted], 1);
    Some(())
}

fn run_all(parts: &[Part], rounds: usize) -> Result<(), String> {
    for (place, part) in parts.iter().enumerate() {
        if place > 0 {
            say("")?;
        }
        (part.run)(rounds)?;
    }
    Ok(())
}

fn run<C: Timed>(rounds: usize) -> Result<(), String> {
    let cases = C::all();
    say(&C::agree(&cases)?)?;
    let counts = instructions(&cases);
    say(&format!(
        "Now timed in {rounds} rounds over all cases, the sides of each in turn."
    ))?;
    let times = measure(&cases, rounds);
    say(C::HEAD)?;
    for (place, case) in cases.iter().enumerate() {
        let counts = counts.as_ref().ok().map(|counts| counts[place]);
        say(&row(case, &times[place], counts))?;
    }
    match counts {
        Ok(_) => Ok(()),
        Err(why) => say(&format!("\nno instructions counted: {why}")),
    }
}

/// The instructions of one access of each case, by each counted side.
fn instructions<C: Timed>(cases: &[C]) -> Result<Vec<[u64; COUNTED]>, String> {
    let program = std::env::current_exe().map_err(|error| error.to_string())?;
    let mut counts = vec![[0; COUNTED]; cases.len()];
    for (place, case) in cases.iter().enumerate() {
        for (side, symbol) in case.symbols().into_iter().enumerate() {
            let all = count(&program, C::PART, place, symbol)? as f64;
            counts[place][side] = (all / case.accesses() as f64).round() as u64;
        }
    }
    Ok(counts)
}

/// A line of the table.
fn row<C: Timed>(case: &C, times: &[Times], counts: Option<[u64; COUNTED]>) -> String {
    let mut row = case.columns();
    for Times { median, least } in times {
        row += &format!("  {median:>5.1} {least:>5.1}");
    }
    let plain = &times[0];
    for side in &times[1..] {
        let (median, least) = (side.median / plain.median, side.least / plain.least);
        row += &format!("  {} {}", ratio(median), ratio(least));
    }
    match counts {
        Some(counts) => counts.iter().for_each(|n| row += &format!("{n:>7}")),
        None => row += &"      -".repeat(COUNTED),
    }
    row
}

/// Four characters of a ratio below 100.
fn ratio(ratio: f64) -> String {
    let places = if ratio < 9.995 { 2 } else { 1 };
    format!("{ratio:>4.places$}")
}

fn say(line: &str) -> Result<(), String> {
    writeln!(io::stdout(), "{line}").map_err(|error| format!("the table can't be written: {error}"))
}
