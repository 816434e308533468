//! Runs every example script (`NAME.replay`) through the program and compares its answers with `NAME.out`.
//!
//! The examples lie in the folder `examples` beside the folder of this workspace; REPLAY_EXAMPLES names another one.

use std::path::{Path, PathBuf};
use std::process::Command;

fn folder() -> PathBuf {
    match std::env::var_os("REPLAY_EXAMPLES") {
        Some(folder) => PathBuf::from(folder),
        None => Path::new(env!("CARGO_MANIFEST_DIR")).join("../../examples"),
    }
}

#[test]
fn every_example_gives_its_answers() {
    let folder = folder();
    let entries = std::fs::read_dir(&folder)
        .unwrap_or_else(|error| panic!("the folder of examples {folder:?}: {error}"));
    let mut scripts: Vec<PathBuf> = entries
        .map(|entry| entry.unwrap().path())
        .filter(|path| {
            path.extension()
                .is_some_and(|extension| extension == "replay")
        })
        .collect();
    scripts.sort();
    assert!(!scripts.is_empty(), "no example in {folder:?}");
    for script in scripts {
        let expected = std::fs::read(script.with_extension("out"))
            .unwrap_or_else(|error| panic!("the answers of {script:?}: {error}"));
        let output = Command::new(env!("CARGO_BIN_EXE_second"))
            .arg(&script)
            .output()
            .unwrap();
        let bad = expected
            .split(|byte| *byte == b'\n')
            .any(|line| line.starts_with(b"error "));
        assert_eq!(output.status.code(), Some(i32::from(bad)), "{script:?}");
        assert_eq!(
            String::from_utf8_lossy(&output.stdout),
            String::from_utf8_lossy(&expected),
            "{script:?}"
        );
        assert_eq!(output.stderr.is_empty(), !bad, "{script:?}");
    }
}
