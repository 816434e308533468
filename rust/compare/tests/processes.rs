//! The comparer with real processes: the programs `cat`, `echo`, `true` and `false` stand for programs that run scripts, and
//! the second program itself is compared with itself where it has been built.

use std::ffi::OsString;
use std::path::Path;
use std::process::{Command, Output};

use compare::program::{Folder, Process, Program, Script, Status};

fn compare(arguments: &[&str]) -> Output {
    Command::new(env!("CARGO_BIN_EXE_compare"))
        .args(arguments)
        .output()
        .unwrap()
}

fn said(output: &Output) -> String {
    String::from_utf8_lossy(&output.stdout).into_owned()
}

#[test]
fn two_programs_that_agree() {
    // They print the script itself: nothing is reached by the outputs, but that is asked of full runs only.
    let output = compare(&["cat", "cat", "--events", "3000", "--seed", "5", "--answers"]);
    let text = said(&output);
    assert_eq!(output.status.code(), Some(0), "{text}");
    assert!(text.starts_with("seed 5, events 3000\n"), "{text}");
    assert!(text.ends_with("OK: no difference\n"), "{text}");
}

#[test]
fn two_programs_that_write_different_bytes() {
    let output = compare(&["cat", "true", "--events", "3000", "--seed", "5"]);
    let text = said(&output);
    assert_eq!(output.status.code(), Some(1), "{text}");
    assert!(
        text.contains("FAILED: the programs differ (seed 5)"),
        "{text}"
    );
}

#[test]
fn two_programs_that_end_differently() {
    let output = compare(&["true", "false", "--events", "3000", "--seed", "5"]);
    assert_eq!(output.status.code(), Some(1));
    assert!(said(&output).contains("exit status 1"));
}

#[test]
fn a_program_that_is_not_there() {
    for path in ["./no/such/program", "no-such-program-at-all"] {
        let output = compare(&["true", path, "--events", "10"]);
        assert_eq!(output.status.code(), Some(2));
        let sentence = String::from_utf8_lossy(&output.stderr).into_owned();
        assert!(sentence.contains("can't be run"), "{sentence}");
    }
}

#[test]
fn a_wrong_command_line() {
    for arguments in [
        &[][..],
        &["true"],
        &["true", "true", "true"],
        &["true", "true", "--events"],
        &["true", "true", "--events", "x"],
        &["true", "true", "--seed", "-1"],
        &["true", "true", "--other"],
        &["true", "true", "--options", "--why"],
        &["true", "true", "--fuzz"],
        &["true", "true", "--fuzz", "1", "--corpus"],
        &["true", "true", "--fuzz", "1", "--corpus", "no/such/folder"],
    ] {
        let output = compare(arguments);
        assert_eq!(output.status.code(), Some(2), "{arguments:?}");
        assert!(String::from_utf8_lossy(&output.stderr).contains("usage"));
    }
}

#[test]
fn a_full_run_that_reaches_nothing_fails() {
    // `true` writes nothing, so no answer is ever counted.
    let output = compare(&["true", "true", "--events", "200000", "--seed", "1"]);
    let text = said(&output);
    assert_eq!(output.status.code(), Some(1), "{text}");
    assert!(text.contains("not reached: refusal 4"), "{text}");
    assert!(text.contains("not reached: a list of 35 reads"), "{text}");
    assert!(
        text.contains("not reached: the reason \"mstatus.TW is 1\""),
        "{text}"
    );
    assert!(
        text.contains("not reached: the word \"* is MRET\""),
        "{text}"
    );
    let answers = ["--answers", "--events", "2000", "--seed", "1"];
    let text = said(&compare(&[&["true", "true"][..], &answers].concat()));
    assert!(text.contains("not reached: refusal 4"), "{text}");
    assert!(!text.contains("not reached: the reason"), "{text}");
    assert!(!text.contains("not reached: the word"), "{text}");
}

/// `echo` writes what it is called with.
#[test]
fn reasons_are_asked_for_by_options() {
    let echo = |arguments: &[&str]| {
        let run = ["echo", "echo", "--events", "3000", "--seed", "5"];
        compare(&[&run, arguments].concat())
    };
    assert_eq!(echo(&["--answers"]).status.code(), Some(0));
    assert_eq!(
        echo(&["--options", "--same", "--same"]).status.code(),
        Some(0)
    );
    let text = said(&echo(&[]));
    assert!(text.contains(", with reasons)"), "{text}");
    assert!(text.contains("    --explain"), "{text}");
    assert!(text.contains("    --why"), "{text}");
    let text = said(&echo(&["--options", "--one", "--other"]));
    assert!(text.contains("    --one"), "{text}");
    assert!(text.contains("    --other"), "{text}");
}

#[test]
fn the_option_stands_before_the_script() {
    let folder = Folder::new().unwrap();
    let echo = Process::new(&OsString::from("echo"), &folder).unwrap();
    assert!(!echo.explains());
    let echo = echo.explaining("--why");
    assert!(echo.explains());
    for (explained, through_input, expected) in [
        (false, false, "script.replay\n"),
        (true, false, "--why script.replay\n"),
        (true, true, "--why\n"),
        (false, true, "\n"),
    ] {
        let script = Script {
            lines: Vec::new(),
            last_newline: false,
            through_input,
            explained,
        };
        let output = echo.run(&script).unwrap().output;
        assert_eq!(String::from_utf8(output).unwrap(), expected);
    }
}

#[test]
fn fuzzed_scripts() {
    let examples = Path::new(env!("CARGO_MANIFEST_DIR")).join("../../examples");
    let examples = examples.to_str().unwrap();
    let fuzz = |first, second| {
        let corpus = ["--corpus", examples];
        compare(&[&[first, second, "--fuzz", "40", "--seed", "5"][..], &corpus].concat())
    };
    let output = fuzz("true", "true");
    let text = said(&output);
    assert_eq!(output.status.code(), Some(0), "{text}");
    assert!(
        text.contains("run whole 40, ended at a bad line 0"),
        "{text}"
    );
    // Two programs that agree, but end with status 1 and no error line.
    let output = fuzz("false", "false");
    let text = said(&output);
    assert_eq!(output.status.code(), Some(1), "{text}");
    assert!(text.contains("both programs end wrongly"), "{text}");
    assert_eq!(fuzz("cat", "true").status.code(), Some(1));
}

#[test]
fn scripts_come_from_a_file_or_from_standard_input() {
    let folder = Folder::new().unwrap();
    let cat = Process::new(&OsString::from("cat"), &folder).unwrap();
    for through_input in [false, true] {
        for last_newline in [false, true] {
            let script = Script {
                lines: vec![b"one".to_vec(), b"\xff two".to_vec()],
                last_newline,
                through_input,
                explained: false,
            };
            let outcome = cat.run(&script).unwrap();
            let expected: &[u8] = if last_newline {
                b"one\n\xff two\n"
            } else {
                b"one\n\xff two"
            };
            assert_eq!(outcome.output, expected);
            assert_eq!(outcome.status, Status::Exit(0));
        }
    }
}

#[test]
fn the_second_program_agrees_with_its_library() {
    use compare::comparing::{compare, Failure, Options};
    use compare::program::{model, InProcess};
    let second = Path::new(env!("CARGO_BIN_EXE_compare")).with_file_name("second");
    if !second.exists() {
        // It has not been built: `cargo test --workspace` builds it.
        return;
    }
    let folder = Folder::new().unwrap();
    let process = Process::new(&second.into_os_string(), &folder)
        .unwrap()
        .explaining("--why");
    let library = InProcess {
        name: "the library",
        perform: model,
        folder: &folder,
    };
    let options = Options {
        events: 20_000,
        seed: 11,
    };
    match compare(&process, &library, &options, folder.path()) {
        Ok(coverage) => {
            assert!(coverage.scripts > 10);
            assert!(coverage.reasons.values().sum::<u64>() > 1000);
            let said = coverage.instruction_words.lines;
            assert!(said.values().sum::<u64>() > 1000);
        }
        Err(Failure::Different(difference)) => panic!("{difference}"),
        Err(Failure::NotRun(name, error)) => panic!("{name}: {error}"),
    }
}
