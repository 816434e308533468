//! A program under comparison: a process, or a function in this process.

use std::ffi::OsString;
use std::io::{self, Read, Write};
use std::path::{Path, PathBuf};
use std::process::{Command, ExitStatus, Stdio};
use std::sync::mpsc;
use std::time::Duration;

use second::script::{run_by, Answer, Bad, End, Line, Session, Trouble, Writing};

pub use second::script::Perform;

/// A script and how it is given to a program.
#[derive(Clone, Debug, PartialEq, Eq)]
pub struct Script {
    /// The lines, without their newlines.
    pub lines: Vec<Vec<u8>>,
    /// Whether the last line ends with a newline too.
    pub last_newline: bool,
    /// Whether the program reads it from standard input instead of a file.
    pub through_input: bool,
    /// Whether the program is asked for its reasons too.
    pub explained: bool,
}

impl Script {
    /// The same way of giving it with other lines.
    pub fn with_lines(&self, lines: Vec<Vec<u8>>) -> Script {
        Script { lines, ..*self }
    }

    /// The script's bytes.
    pub fn bytes(&self) -> Vec<u8> {
        let mut bytes = self.lines.join(&b'\n');
        if self.last_newline && !self.lines.is_empty() {
            bytes.push(b'\n');
        }
        bytes
    }
}

/// How a program ended.
#[derive(Clone, Debug, PartialEq, Eq)]
pub enum Status {
    /// With this exit status.
    Exit(i32),
    /// By a signal or in another way without an exit status.
    Broken,
    /// Not at all within the time it was given.
    TooLong,
}

impl From<ExitStatus> for Status {
    fn from(status: ExitStatus) -> Status {
        status.code().map_or(Status::Broken, Status::Exit)
    }
}

/// What a program gave for a script.
#[derive(Clone, Debug, PartialEq, Eq)]
pub struct Outcome {
    /// Its standard output.
    pub output: Vec<u8>,
    /// How it ended.
    pub status: Status,
}

/// A program that runs scripts.
pub trait Program {
    /// Its name, for people.
    fn name(&self) -> String;

    /// Whether it can be asked for its reasons; else it is given no script with `explained`.
    fn explains(&self) -> bool {
        false
    }

    /// Runs a script. An error means that it could not be run at all.
    fn run(&self, script: &Script) -> io::Result<Outcome>;
}

// The folder of the scripts.

/// A folder for scripts and for the files that their `file` lines name. It is removed at the end.
pub struct Folder {
    path: PathBuf,
}

/// The names of the files that scripts may name.
pub const FILES: [&str; 4] = ["table.bin", "odd # name.bin", "empty.bin", "sub/page.bin"];

impl Folder {
    /// A new folder with its files.
    pub fn new() -> io::Result<Folder> {
        let base = std::env::temp_dir();
        for number in 0.. {
            let path = base.join(format!("compare-{}-{number}", std::process::id()));
            match std::fs::create_dir(&path) {
                Ok(()) => {
                    let folder = Folder { path };
                    folder.fill()?;
                    return Ok(folder);
                }
                Err(error) if error.kind() == io::ErrorKind::AlreadyExists && number < 1000 => {}
                Err(error) => return Err(error),
            }
        }
        Err(io::Error::other("no name for a folder is free"))
    }

    fn fill(&self) -> io::Result<()> {
        // A second-stage root for an image at 80000000: leaves of 1 GiB, pointers to itself, and nothing.
        let mut table = Vec::new();
        for index in 0..2048u64 {
            let entry: u64 = match index % 4 {
                0 => 0x2000_00df,
                1 => 0x2000_0001,
                2 => 0x2000_0057,
                _ => 0,
            };
            table.extend(entry.to_le_bytes());
        }
        std::fs::write(self.path.join(FILES[0]), table)?;
        std::fs::write(self.path.join(FILES[1]), vec![0x5a; 5000])?;
        std::fs::write(self.path.join(FILES[2]), [])?;
        std::fs::create_dir(self.path.join("sub"))?;
        std::fs::write(self.path.join(FILES[3]), vec![0xff; 4096])
    }

    /// Where it is.
    pub fn path(&self) -> &Path {
        &self.path
    }
}

impl Drop for Folder {
    fn drop(&mut self) {
        let _ = std::fs::remove_dir_all(&self.path);
    }
}

// A process.

/// How long a process may take for one script.
const TIME_LIMIT: Duration = Duration::from_secs(60);
/// How many bytes of output are read: more than any script asks for.
const OUTPUT_LIMIT: u64 = 1 << 30;

/// A program that is started for each script.
pub struct Process<'a> {
    path: OsString,
    folder: &'a Folder,
    /// The option that asks for reasons.
    option: Option<OsString>,
}

impl<'a> Process<'a> {
    /// The program with this path, or this name in the search path.
    pub fn new(path: &OsString, folder: &'a Folder) -> io::Result<Process<'a>> {
        // A relative path must not depend on the working directory, which is the folder of the scripts.
        let has_folder = Path::new(path).components().count() > 1;
        let path = if has_folder {
            Path::new(path).canonicalize()?.into_os_string()
        } else {
            path.clone()
        };
        Ok(Process {
            path,
            folder,
            option: None,
        })
    }

    /// The same program, which writes its reasons too where it is called with this option.
    pub fn explaining(self, option: &str) -> Process<'a> {
        Process {
            option: Some(OsString::from(option)),
            ..self
        }
    }
}

impl Program for Process<'_> {
    fn name(&self) -> String {
        self.path.to_string_lossy().into_owned()
    }

    fn explains(&self) -> bool {
        self.option.is_some()
    }

    fn run(&self, script: &Script) -> io::Result<Outcome> {
        let bytes = script.bytes();
        let mut command = Command::new(&self.path);
        command
            .current_dir(self.folder.path())
            .stdout(Stdio::piped())
            .stderr(Stdio::null());
        if script.explained {
            command.args(&self.option);
        }
        if script.through_input {
            command.stdin(Stdio::piped());
        } else {
            std::fs::write(self.folder.path().join("script.replay"), &bytes)?;
            command.arg("script.replay").stdin(Stdio::null());
        }
        let mut child = command.spawn()?;
        if let Some(mut input) = child.stdin.take() {
            std::thread::spawn(move || {
                // A program that ends at a bad line does not read the rest.
                let _ = input.write_all(&bytes);
            });
        }
        let (sender, receiver) = mpsc::channel();
        if let Some(output) = child.stdout.take() {
            std::thread::spawn(move || {
                let mut bytes = Vec::new();
                let result = output.take(OUTPUT_LIMIT).read_to_end(&mut bytes);
                let _ = sender.send(result.map(|_| bytes));
            });
        }
        match receiver.recv_timeout(TIME_LIMIT) {
            Ok(output) => {
                let output = output?;
                Ok(Outcome {
                    output,
                    status: child.wait()?.into(),
                })
            }
            Err(_) => {
                let _ = child.kill();
                child.wait()?;
                Ok(Outcome {
                    output: Vec::new(),
                    status: Status::TooLong,
                })
            }
        }
    }
}

// A function in this process.

/// The model itself: what a program in this process does with a line, unless it is altered.
pub fn model(session: &mut Session, line: &Line) -> Result<Answer, Bad> {
    session.perform(line)
}

/// The second program's library, or an altered copy of it, run in this process.
pub struct InProcess<'a> {
    /// Its name.
    pub name: &'static str,
    /// What it does with a line.
    pub perform: Perform,
    /// The folder of the scripts.
    pub folder: &'a Folder,
}

impl Program for InProcess<'_> {
    fn name(&self) -> String {
        self.name.to_string()
    }

    fn explains(&self) -> bool {
        true
    }

    fn run(&self, script: &Script) -> io::Result<Outcome> {
        let mut session = Session::new(self.folder.path().to_path_buf());
        let writing = if script.explained {
            Writing::Reasons
        } else {
            Writing::Answers
        };
        let mut output = Vec::new();
        let bytes = script.bytes();
        let end = run_by(self.perform, &mut session, writing, &bytes[..], &mut output);
        let status = match end {
            Ok(End::Whole) => 0,
            Ok(End::Bad { .. }) => 1,
            Err(Trouble::Input(error) | Trouble::Output(error)) => return Err(error),
        };
        Ok(Outcome {
            output,
            status: Status::Exit(status),
        })
    }
}
