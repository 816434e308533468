//! What tests of explanations share.

use std::io::Write;
use std::process::{Command, Stdio};

/// What the program writes with an option.
pub fn written(option: &str, script: &str) -> String {
    let mut child = Command::new(env!("CARGO_BIN_EXE_replay"))
        .arg(option)
        .stdin(Stdio::piped())
        .stdout(Stdio::piped())
        .spawn()
        .expect("the program starts");
    let mut stdin = child.stdin.take().expect("standard input is a pipe");
    stdin
        .write_all(script.as_bytes())
        .expect("the script is written");
    drop(stdin);
    let output = child.wait_with_output().expect("the program ends").stdout;
    String::from_utf8(output).expect("explanations are text")
}
