//! `replay`: runs a replay script through the proved hart model.

mod descriptor;
mod events;
mod explain;
mod fields;
mod forms;
mod guest;
mod happened;
mod input;
mod interrupts;
mod names;
mod paint;
mod pending;
mod reason;
mod registers;
mod run;
mod scene;
mod script;
mod suggest;
mod tree;
mod views;
mod walk;
mod word;
mod writes;

use descriptor::Descriptor;
use explain::{Explainer, Style};
use input::Stop;
use paint::Paint;
use std::ffi::OsString;
use std::fs::File;
use std::io::{self, BufWriter, IsTerminal, Write};
use std::path::{Path, PathBuf};
use std::process::ExitCode;

const HELP: &str = "\
replay: runs a replay script through the proved hart model.

    ./replay [--explain[=tree]] [--] [FILE]     the script of a file; of standard input without one, or with -
    ./replay --help, -h                         this text
    ./replay --version

Setting the scene (numbers are hexadecimal; `#` starts a comment):
    image BASE LENGTH               a new image of zero bytes
    file BASE PATH                  a new image: the bytes of a file
    put ADDRESS VALUE               eight bytes of the image
    hart V P PC                     a new hart
    reg NUMBER VALUE                a stored register holds a value

Events, each answered on standard output (WORD: the instruction's 32 bits; of a trap what mtinst or htinst takes):
    fetch, load, store ADDRESS WIDTH
    read N WORD      write N VALUE WORD      set N VALUE WRITES WORD      clear N VALUE WRITES WORD
    mret, sret, wfi, sfence.vma, hfence.vvma, hfence.gvma WORD
    hlv WIDTH SIGNED ADDRESS WORD      hlvx WIDTH ADDRESS WORD      hsv WIDTH ADDRESS VALUE WORD
    ecall  ebreak
    trap CAUSE VALUE SECOND WORD FLAG
    interrupt                       takes the interrupt that is due, if one is
    show                            the hart, as a script

--explain adds, after each answer, lines that begin with `# ` and say in words what happened and why;
--explain=tree draws each walk as a tree.
Exit status: 0 the script was run whole, 1 a bad line, 2 the script or the output can't be used, or the command line is wrong.
docs/REPLAY.md says more.
";

/// For someone who sees nothing happen.
const AT_TERMINAL: &str =
    "replay: reading a script from the terminal, up to Ctrl-D; ./replay --help says what it may hold";

const VERSION: &str = concat!("replay ", env!("CARGO_PKG_VERSION"), "\n");

enum Request {
    Say(&'static str),
    Run {
        style: Option<Style>,
        file: Option<PathBuf>,
    },
}

fn main() -> ExitCode {
    match request(std::env::args_os().skip(1)) {
        Ok(Request::Say(text)) => {
            let written = Descriptor::output().and_then(|mut out| out.write_all(text.as_bytes()));
            written.map_or_else(|error| unwritten(&error), |()| ExitCode::SUCCESS)
        }
        Ok(Request::Run { style, file }) => replay(style, file.as_deref()),
        Err(why) => fail(&format!("replay: {why}; see ./replay --help"), 2),
    }
}

fn request(arguments: impl Iterator<Item = OsString>) -> Result<Request, String> {
    let (mut style, mut file, mut options) = (None, None, true);
    for argument in arguments {
        let text = argument.as_encoded_bytes();
        match text {
            b"--" if options => options = false,
            b"-h" | b"--help" if options => return Ok(Request::Say(HELP)),
            b"--version" if options => return Ok(Request::Say(VERSION)),
            b"--explain" if options => style = Some(Style::Words),
            b"--explain=tree" if options => style = Some(Style::Tree),
            [b'-', _, ..] if options => {
                return Err(format!("{} is no option", suggest::shown(text)));
            }
            _ if file.is_some() => return Err("more than one file is named".to_owned()),
            _ => file = Some(PathBuf::from(argument)),
        }
    }
    let file = file.filter(|file| file != Path::new("-"));
    Ok(Request::Run { style, file })
}

fn replay(style: Option<Style>, file: Option<&Path>) -> ExitCode {
    let name = file.map_or("standard input".to_owned(), bare_name);
    let folder = file.and_then(Path::parent).unwrap_or(Path::new(""));
    let explainer = style.map(|style| Explainer {
        style,
        paint: Paint::for_output(),
    });
    if file.is_none() && io::stdin().is_terminal() {
        let _ = writeln!(io::stderr(), "{AT_TERMINAL}");
    }
    let mut out = match Descriptor::output() {
        Ok(out) => BufWriter::with_capacity(1 << 16, out),
        Err(error) => return unwritten(&error),
    };
    let ended = match file {
        None => Descriptor::input()
            .map_err(Stop::Script)
            .and_then(|script| run::run(script, folder, explainer, &mut out)),
        Some(path) => File::open(path)
            .map_err(Stop::Script)
            .and_then(|script| run::run(script, folder, explainer, &mut out)),
    };
    let (why, status) = match ended {
        Ok(()) => (None, 0),
        Err(Stop::Bad(line, mistake)) => {
            let (column, sentence) = (mistake.column, mistake.sentence);
            if let Err(error) = writeln!(out, "error {line:x}") {
                return given_up(out, &error);
            }
            (Some(format!("{name}:{line}:{column}: {sentence}")), 1)
        }
        Err(Stop::Script(error)) => (Some(format!("replay: {name} can't be read: {error}")), 2),
        Err(Stop::Answers(error)) => return given_up(out, &error),
    };
    match (out.flush(), why) {
        (Err(error), _) => given_up(out, &error),
        (Ok(()), Some(why)) => fail(&why, status),
        (Ok(()), None) => ExitCode::SUCCESS,
    }
}

/// The script's name without its folders, printable.
fn bare_name(path: &Path) -> String {
    match path.components().next_back() {
        Some(name) => suggest::printable(name.as_os_str().as_encoded_bytes()),
        None => "an empty path".to_owned(),
    }
}

/// The answers can't be written; what is still held of them is given up.
fn given_up<W: Write>(out: BufWriter<W>, error: &io::Error) -> ExitCode {
    let _ = out.into_parts();
    unwritten(error)
}

/// Answers that can't be written. A reader that went away needs no sentence.
fn unwritten(error: &io::Error) -> ExitCode {
    if error.kind() == io::ErrorKind::BrokenPipe {
        return ExitCode::from(2);
    }
    fail(&format!("replay: the answers can't be written: {error}"), 2)
}

/// A sentence on standard error, and the exit status.
fn fail(why: &str, status: u8) -> ExitCode {
    // where standard error is closed too, the status alone has to say it
    let _ = writeln!(io::stderr(), "{why}");
    ExitCode::from(status)
}
