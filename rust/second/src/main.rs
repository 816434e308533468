//! `second [--why] [FILE]`: runs a replay script from a file, or from standard input where no file is named. With `--why` it
//! also writes what the word of each event is, and the reason of each answer that has one.
//!
//! Exit status: 0 after a whole script, 1 after a bad line, 2 where the script can't be read or the answers can't be written.

use std::ffi::OsString;
use std::fs::File;
use std::io::{self, BufWriter, Read, Write};
use std::path::{Path, PathBuf};
use std::process::ExitCode;

use second::script::{run, End, Session, Trouble, Writing};

const USAGE: &str = "usage: second [--why] [FILE]";
const BUFFER: usize = 1 << 16;

fn main() -> ExitCode {
    let arguments: Vec<_> = std::env::args_os().skip(1).collect();
    match arguments.as_slice() {
        [option, rest @ ..] if option == "--why" => run_arguments(Writing::Reasons, rest),
        rest => run_arguments(Writing::Answers, rest),
    }
}

/// Runs the script that the arguments behind the option name.
fn run_arguments(writing: Writing, arguments: &[OsString]) -> ExitCode {
    match arguments {
        [] => finish(writing, io::stdin().lock(), PathBuf::new()),
        [option] if option.to_string_lossy().starts_with('-') => {
            complain(&format!("{option:?} is no file; {USAGE}"));
            ExitCode::from(2)
        }
        [file] => run_file(writing, Path::new(file)),
        _ => {
            complain(&format!("one file at most; {USAGE}"));
            ExitCode::from(2)
        }
    }
}

/// Runs a script from a file. Its `file` lines start from the file's own folder.
fn run_file(writing: Writing, path: &Path) -> ExitCode {
    let file = match File::open(path) {
        Ok(file) => file,
        Err(error) => {
            complain(&format!("the script {path:?} can't be read: {error}"));
            return ExitCode::from(2);
        }
    };
    let folder = path.parent().unwrap_or(Path::new("")).to_path_buf();
    finish(writing, file, folder)
}

/// Runs the script and says how it ended.
fn finish<R: Read>(writing: Writing, input: R, folder: PathBuf) -> ExitCode {
    let mut output = BufWriter::with_capacity(BUFFER, io::stdout().lock());
    let end = run(&mut Session::new(folder), writing, input, &mut output);
    match end {
        Ok(End::Whole) => ExitCode::SUCCESS,
        Ok(End::Bad { line, reason }) => {
            complain(&format!("line {line:x} (hexadecimal): {reason}"));
            ExitCode::from(1)
        }
        Err(Trouble::Input(error)) => {
            // What was answered before stays.
            let _ = output.flush();
            complain(&format!("the script can't be read: {error}"));
            ExitCode::from(2)
        }
        Err(Trouble::Output(error)) => {
            // What is still in the buffer can't be written either: forget it.
            let _ = output.into_parts();
            // A reader that went away needs no sentence.
            if error.kind() != io::ErrorKind::BrokenPipe {
                complain(&format!("the answers can't be written: {error}"));
            }
            ExitCode::from(2)
        }
    }
}

/// A sentence on standard error. Where that can't be written either, nothing more can be said.
fn complain(sentence: &str) {
    let _ = writeln!(io::stderr(), "second: {sentence}");
}
