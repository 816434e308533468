//! The comparison of two programs.

use std::fmt;
use std::io;
use std::path::Path;
use std::time::{Duration, Instant};

use second::hart::Mode;

use crate::coverage::Coverage;
use crate::fuzz::{fuzzed, Corpus};
use crate::generate::{
    bad_script, depths_script, flips_script, guest_script, interrupts_script, long_script,
    numbers_script, script, words_script,
};
use crate::program::{Outcome, Program, Script, Status};
use crate::reasons::REASON;
use crate::scenes::long;
use crate::shrink::shrink;
use crate::word_lines::WORD;

/// A run of this many events must reach everything that can be reached.
pub const FULL_RUN: u64 = 200_000;
/// Events of one script.
pub const SCRIPT_EVENTS: u64 = 2500;
/// How long a script with a difference may be shrunk: some programs are slow, or do not end.
const SHRINKING_TIME: Duration = Duration::from_secs(300);
/// Small bad scripts beside each script.
const BAD_SCRIPTS: u64 = 3;

/// What a run does.
#[derive(Clone, Copy, Debug, PartialEq, Eq)]
pub struct Options {
    /// The least number of events.
    pub events: u64,
    /// The seed of the scripts.
    pub seed: u64,
}

/// Two programs that gave different bytes or ended differently, or both ended wrongly, and the smallest script that shows it.
#[derive(Clone, Debug, PartialEq, Eq)]
pub struct Difference {
    /// The place of the script in the run.
    pub place: u64,
    /// The smallest script.
    pub script: Script,
    /// What the first program gave for it.
    pub first: Outcome,
    /// What the second program gave for it.
    pub second: Outcome,
}

/// Why a run failed.
#[derive(Debug)]
pub enum Failure {
    /// The programs differ.
    Different(Box<Difference>),
    /// A program could not be run.
    NotRun(String, io::Error),
}

/// Runs both programs over the scripts of a seed: at least so many events, and then those that flip every bit of a hart, those
/// with everything that interrupts, words, hypervisor loads and stores, depths of tables and numbers of registers come to and those
/// with the longest lines. Ends at the first difference.
pub fn compare(
    first: &dyn Program,
    second: &dyn Program,
    options: &Options,
    folder: &Path,
) -> Result<Coverage, Failure> {
    let mut coverage = Coverage::default();
    let mut place = 0;
    while coverage.events < options.events {
        let events = (options.events - coverage.events).min(SCRIPT_EVENTS);
        let made = script(options.seed, place, events, folder);
        compare_and_count(first, second, place, made, &mut coverage)?;
        for bad in 0..BAD_SCRIPTS {
            let made = bad_script(options.seed, place * BAD_SCRIPTS + bad, folder);
            compare_and_count(first, second, place, made, &mut coverage)?;
        }
        place += 1;
    }
    for mode in Mode::ALL {
        for make in [flips_script, interrupts_script] {
            let made = make(options.seed, mode, folder);
            compare_and_count(first, second, place, made, &mut coverage)?;
            place += 1;
        }
    }
    for make in [words_script, guest_script, depths_script, numbers_script] {
        let made = make(options.seed, folder);
        compare_and_count(first, second, place, made, &mut coverage)?;
        place += 1;
    }
    for kind in 0..long::COUNT {
        let made = long_script(options.seed, kind, folder);
        compare_and_count(first, second, place, made, &mut coverage)?;
        place += 1;
    }
    Ok(coverage)
}

/// Runs both programs on one script; where they agree, what it reaches is counted.
fn compare_and_count(
    first: &dyn Program,
    second: &dyn Program,
    place: u64,
    (script, reached): (Script, Coverage),
    coverage: &mut Coverage,
) -> Result<(), Failure> {
    let output = compare_on(first, second, place, script)?;
    coverage.add(&reached);
    coverage.read_output(&output);
    Ok(())
}

/// How the scripts of a fuzzing run ended.
#[derive(Clone, Copy, Debug, Default, PartialEq, Eq)]
pub struct Fuzzed {
    /// Scripts run whole.
    pub whole: u64,
    /// Scripts that ended at a bad line.
    pub bad: u64,
    /// Bytes of output compared.
    pub bytes: u64,
}

/// Runs both programs over so many fuzzed scripts of a seed. Ends at the first difference.
pub fn fuzz(
    first: &dyn Program,
    second: &dyn Program,
    scripts: u64,
    seed: u64,
    corpus: &Corpus,
    folder: &Path,
) -> Result<Fuzzed, Failure> {
    let mut ended = Fuzzed::default();
    for place in 0..scripts {
        let script = fuzzed(seed, place, corpus, folder);
        let output = compare_on(first, second, place, script)?;
        ended.bytes += output.len() as u64;
        if ends_with_error(&output) {
            ended.bad += 1;
        } else {
            ended.whole += 1;
        }
    }
    Ok(ended)
}

/// Whether the last line is `error LINE`.
fn ends_with_error(output: &[u8]) -> bool {
    let lines = output.strip_suffix(b"\n").unwrap_or(output);
    let last = lines.rsplit(|byte| *byte == b'\n').next();
    last.is_some_and(|line| line.starts_with(b"error "))
}

/// Whether two programs gave the same, and ended by themselves: with exit status 1 exactly after an `error` line.
fn good(one: &Outcome, other: &Outcome) -> bool {
    let status = i32::from(ends_with_error(&one.output));
    one == other && one.status == Status::Exit(status)
}

/// Runs both programs on one script; the output where they agree.
fn compare_on(
    first: &dyn Program,
    second: &dyn Program,
    place: u64,
    mut script: Script,
) -> Result<Vec<u8>, Failure> {
    script.explained &= first.explains() && second.explains();
    let (one, other) = both(first, second, &script)?;
    if good(&one, &other) {
        return Ok(one.output);
    }
    let begin = Instant::now();
    let lines = shrink(&script.lines, |lines| {
        if begin.elapsed() > SHRINKING_TIME {
            return false;
        }
        let candidate = script.with_lines(lines.to_vec());
        match both(first, second, &candidate) {
            Ok((one, other)) => !good(&one, &other),
            Err(_) => false,
        }
    });
    let mut smallest = script.with_lines(lines);
    let (mut one, mut other) = both(first, second, &smallest)?;
    if good(&one, &other) {
        // It does not show twice: the whole script is all there is.
        smallest = script;
        (one, other) = both(first, second, &smallest)?;
    }
    Err(Failure::Different(Box::new(Difference {
        place,
        script: smallest,
        first: one,
        second: other,
    })))
}

fn both(
    first: &dyn Program,
    second: &dyn Program,
    script: &Script,
) -> Result<(Outcome, Outcome), Failure> {
    let run = |program: &dyn Program| match program.run(script) {
        Ok(outcome) if script.explained => Ok(with_reasons_alone(outcome)),
        Ok(outcome) => Ok(outcome),
        Err(error) => Err(Failure::NotRun(program.name(), error)),
    };
    Ok((run(first)?, run(second)?))
}

/// What a program gave with its reasons, without other explanations: of the lines that begin with `# ` those with `# why: ` and
/// `# word: `.
fn with_reasons_alone(outcome: Outcome) -> Outcome {
    let lines = outcome.output.split_inclusive(|byte| *byte == b'\n');
    let is_kept = |line: &&[u8]| {
        let explains = line.starts_with(b"# ");
        !explains || line.starts_with(REASON) || line.starts_with(WORD)
    };
    let kept: Vec<&[u8]> = lines.filter(is_kept).collect();
    Outcome {
        output: kept.concat(),
        status: outcome.status,
    }
}

impl fmt::Display for Status {
    fn fmt(&self, formatter: &mut fmt::Formatter) -> fmt::Result {
        match self {
            Status::Exit(code) => write!(formatter, "exit status {code}"),
            Status::Broken => write!(formatter, "no exit status (ended by a signal)"),
            Status::TooLong => write!(formatter, "no end within its time"),
        }
    }
}

impl fmt::Display for Difference {
    fn fmt(&self, formatter: &mut fmt::Formatter) -> fmt::Result {
        let way = if self.script.through_input {
            "standard input"
        } else {
            "a file"
        };
        let asked = if self.script.explained {
            ", with reasons"
        } else {
            ""
        };
        let what = if self.first == self.second {
            "both programs end wrongly"
        } else {
            "the programs differ"
        };
        writeln!(
            formatter,
            "{what} in script {}; the smallest script that shows it (from {way}{asked}):",
            self.place
        )?;
        for line in &self.script.lines {
            writeln!(formatter, "    {}", printable(line))?;
        }
        for (name, outcome) in [("first", &self.first), ("second", &self.second)] {
            writeln!(formatter, "the {name} program, {}:", outcome.status)?;
            for line in outcome.output.split(|byte| *byte == b'\n') {
                if !line.is_empty() {
                    writeln!(formatter, "    {}", printable(line))?;
                }
            }
        }
        write!(
            formatter,
            "the first differing byte is number {}",
            self.first_byte()
        )
    }
}

impl Difference {
    /// The place of the first byte that differs, from 0.
    fn first_byte(&self) -> usize {
        let same = self
            .first
            .output
            .iter()
            .zip(&self.second.output)
            .take_while(|(one, other)| one == other);
        same.count()
    }
}

/// How many bytes of a line are printed.
const PRINTED: usize = 1000;

/// A line for people: text as it is, other bytes escaped, and a long one cut.
fn printable(line: &[u8]) -> String {
    let (shown, rest) = line.split_at(line.len().min(PRINTED));
    let text = match std::str::from_utf8(shown) {
        Ok(text) if !text.chars().any(char::is_control) => text.to_string(),
        _ => shown.escape_ascii().to_string(),
    };
    if rest.is_empty() {
        text
    } else {
        format!("{text} .. and {} bytes more", rest.len())
    }
}
