//! Random and damaged scripts: the program, with and without `--explain`, against the second program's library.
//! `compare --fuzz` makes longer runs of the same kind.

use compare::comparing::{fuzz, Failure, Fuzzed};
use compare::fuzz::Corpus;
use compare::program::{model, Folder, InProcess, Outcome, Process, Program, Script};
use std::io;
use std::path::Path;
use std::process::Command;

/// The program with an option that explains, its explanations left out.
struct Explained<'a>(&'a Folder, &'static str);

impl Program for Explained<'_> {
    fn name(&self) -> String {
        format!("replay {}", self.1)
    }

    fn run(&self, script: &Script) -> io::Result<Outcome> {
        let file = self.0.path().join("script.replay");
        std::fs::write(&file, script.bytes())?;
        let output = Command::new(env!("CARGO_BIN_EXE_replay"))
            .current_dir(self.0.path())
            .args([self.1, "script.replay"])
            .output()?;
        let lines = output.stdout.split_inclusive(|byte| *byte == b'\n');
        let answers: Vec<&[u8]> = lines.filter(|line| !line.starts_with(b"# ")).collect();
        Ok(Outcome {
            output: answers.concat(),
            status: output.status.into(),
        })
    }
}

fn run(first: &dyn Program, folder: &Folder, seed: u64) -> Fuzzed {
    let library = InProcess {
        name: "the second program's library",
        perform: model,
        folder,
    };
    let examples = Path::new(env!("CARGO_MANIFEST_DIR")).join("../../examples");
    let corpus = Corpus::of_folder(&examples).unwrap();
    match fuzz(first, &library, 400, seed, &corpus, folder.path()) {
        Ok(ended) => ended,
        Err(Failure::Different(difference)) => panic!("{difference}"),
        Err(Failure::NotRun(name, error)) => panic!("{name}: {error}"),
    }
}

#[test]
fn the_program() {
    let folder = Folder::new().unwrap();
    let process = Process::new(&env!("CARGO_BIN_EXE_replay").into(), &folder).unwrap();
    let ended = run(&process, &folder, 2);
    assert!(ended.whole > 50 && ended.bad > 50, "{ended:?}");
}

#[test]
fn the_program_with_explanations() {
    let folder = Folder::new().unwrap();
    run(&Explained(&folder, "--explain"), &folder, 3);
    run(&Explained(&folder, "--explain=tree"), &folder, 4);
}
