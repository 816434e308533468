//! Runs the program itself: standard input and files, exit statuses, sentences, large and odd input.

use std::io::{BufRead, BufReader, Read, Write};
use std::path::PathBuf;
use std::process::{Command, Output, Stdio};
use std::sync::mpsc;
use std::time::Duration;

fn second() -> Command {
    Command::new(env!("CARGO_BIN_EXE_second"))
}

fn through_input(script: &[u8]) -> Output {
    let mut child = second()
        .stdin(Stdio::piped())
        .stdout(Stdio::piped())
        .stderr(Stdio::piped())
        .spawn()
        .unwrap();
    let mut input = child.stdin.take().unwrap();
    let script = script.to_vec();
    let writer = std::thread::spawn(move || {
        // A script that ends at a bad line is not read to its end.
        let _ = input.write_all(&script);
    });
    let output = child.wait_with_output().unwrap();
    writer.join().unwrap();
    output
}

/// A folder of its own for one test.
struct Folder(PathBuf);

impl Folder {
    fn new(name: &str) -> Folder {
        let path = std::env::temp_dir().join(format!("second-{name}-{}", std::process::id()));
        std::fs::create_dir_all(&path).unwrap();
        Folder(path)
    }
}

impl Drop for Folder {
    fn drop(&mut self) {
        let _ = std::fs::remove_dir_all(&self.0);
    }
}

#[test]
fn a_script_from_standard_input() {
    let output = through_input(b"read 300 30002573\nwfi 10500073");
    assert_eq!(output.stdout, b"value a00000000\nok\n");
    assert_eq!(output.stderr, b"");
    assert_eq!(output.status.code(), Some(0));
}

#[test]
fn an_empty_script() {
    let output = through_input(b"");
    assert_eq!(output.stdout, b"");
    assert_eq!(output.status.code(), Some(0));
}

#[test]
fn reasons_are_written_where_they_are_asked_for() {
    let folder = Folder::new("reasons");
    let script = folder.0.join("script");
    std::fs::write(&script, "read 1000 0\nload 0 8\nwfi 10500073\n").unwrap();
    let output = second().arg(&script).output().unwrap();
    assert_eq!(output.stdout, b"refused 5\nfault 5 0 0 0 0\nok\n");
    let reasons: &[u8] = b"refused 5\n# word: 0 does not fit: it is no SYSTEM instruction\n\
        # why: register number 1000 is over fff\nfault 5 0 0 0 0\n\
        # why: the access: 0 is outside the image: page 0 is missing\nok\n# word: 10500073 is WFI\n";
    let output = second().arg("--why").arg(&script).output().unwrap();
    assert_eq!(output.stdout, reasons);
    assert_eq!(output.status.code(), Some(0));
    let input = std::fs::File::open(&script).unwrap();
    let output = second().arg("--why").stdin(input).output().unwrap();
    assert_eq!(output.stdout, reasons);
}

#[test]
fn a_bad_script_ends_with_a_sentence() {
    let output = through_input(b"wfi 0\nnonsense\nwfi 0\n");
    assert_eq!(output.stdout, b"ok\nerror 2\n");
    assert_eq!(output.status.code(), Some(1));
    let sentence = String::from_utf8(output.stderr).unwrap();
    assert!(sentence.starts_with("second: line 2"), "{sentence}");
    assert!(sentence.contains("nonsense"));
}

#[test]
fn starts_and_presses_are_no_words_yet() {
    for line in ["start load 0 8", "press"] {
        let output = through_input(format!("read 300 30002573\n{line}\n").as_bytes());
        assert_eq!(output.stdout, b"value a00000000\nerror 2\n");
        assert_eq!(output.status.code(), Some(1));
    }
}

#[test]
fn bytes_that_are_no_text() {
    let every_byte: Vec<u8> = (0..=255).collect();
    let output = through_input(&every_byte);
    assert_eq!(output.stdout, b"error 1\n");
    assert_eq!(output.status.code(), Some(1));
    let mut random = Vec::new();
    let mut state = 1u64;
    for _ in 0..100_000 {
        state ^= state << 13;
        state ^= state >> 7;
        state ^= state << 17;
        random.push(state as u8);
    }
    let output = through_input(&random);
    assert!(output.stdout.starts_with(b"error "));
    assert_eq!(output.status.code(), Some(1));
}

#[test]
fn a_file_line_starts_from_the_scripts_folder() {
    let folder = Folder::new("files");
    std::fs::create_dir_all(folder.0.join("sub")).unwrap();
    std::fs::write(folder.0.join("sub/image"), [7u8; 4096]).unwrap();
    let script = folder.0.join("script");
    std::fs::write(&script, "file 1000 sub/image\nload 1ff8 8\nload 2000 8\n").unwrap();
    let output = second().arg(&script).output().unwrap();
    assert_eq!(output.stdout, b"address 1ff8\nfault 5 2000 0 0 0\n");
    assert_eq!(output.status.code(), Some(0));
    // From standard input it starts from the working directory.
    let mut child = second()
        .current_dir(folder.0.join("sub"))
        .stdin(Stdio::piped())
        .stdout(Stdio::piped())
        .spawn()
        .unwrap();
    child
        .stdin
        .take()
        .unwrap()
        .write_all(b"file 0 image\nload 0 8\n")
        .unwrap();
    assert_eq!(child.wait_with_output().unwrap().stdout, b"address 0\n");
    // A file without a folder in its name: its folder is the working directory.
    let output = second()
        .current_dir(&folder.0)
        .arg("script")
        .output()
        .unwrap();
    assert_eq!(output.status.code(), Some(0));
}

#[test]
fn a_script_that_cannot_be_read() {
    let folder = Folder::new("unreadable");
    for path in [folder.0.join("missing"), folder.0.clone()] {
        let output = second().arg(&path).output().unwrap();
        assert_eq!(output.status.code(), Some(2));
        assert_eq!(output.stdout, b"");
        let sentence = String::from_utf8(output.stderr).unwrap();
        assert!(sentence.contains("can't be read"), "{sentence}");
    }
}

#[test]
fn a_wrong_command_line() {
    for arguments in [
        &["a", "b"][..],
        &["--explain"],
        &["-"],
        &["--why", "a", "b"],
        &["--why", "--why"],
        &["a", "--why"],
    ] {
        let output = second().args(arguments).output().unwrap();
        assert_eq!(output.status.code(), Some(2));
        assert!(String::from_utf8_lossy(&output.stderr).contains("usage"));
    }
}

#[test]
fn a_reader_that_goes_away() {
    let mut child = second()
        .stdin(Stdio::piped())
        .stdout(Stdio::piped())
        .stderr(Stdio::piped())
        .spawn()
        .unwrap();
    drop(child.stdout.take());
    let mut input = child.stdin.take().unwrap();
    let script = b"show\n".repeat(20_000);
    let _ = input.write_all(&script);
    drop(input);
    let mut sentence = String::new();
    child
        .stderr
        .take()
        .unwrap()
        .read_to_string(&mut sentence)
        .unwrap();
    assert_eq!(child.wait().unwrap().code(), Some(2));
    assert_eq!(sentence, "", "a closed pipe is silent");
}

#[test]
fn many_lines() {
    let lines = 300_000;
    let output = through_input(&b"wfi 0\n".repeat(lines));
    assert_eq!(output.stdout.len(), 3 * lines);
    assert_eq!(output.status.code(), Some(0));
}

#[test]
fn large_images() {
    let output = through_input(
        b"image 0 8000000\nput 7fffff8 1\nload 0 8\nimage 0 10000000\nload 0 8\nimage 0 4000000\nload 0 8\n",
    );
    assert_eq!(output.stdout, b"refused 1\nrefused 1\naddress 0\n");
    assert_eq!(output.status.code(), Some(0));
}

#[test]
fn one_very_long_line() {
    let mut script = vec![b' '; 5_000_000];
    script.extend(b"read 300 0");
    script.extend(vec![b' '; 5_000_000]);
    script.extend(b"# end");
    assert_eq!(through_input(&script).stdout, b"value a00000000\n");
    let output = through_input(&vec![b'f'; 5_000_000]);
    assert_eq!(output.stdout, b"error 1\n");
    assert!(output.stderr.len() < 200);
}

/// The longest line: 16 MiB.
const LONGEST_LINE: usize = 0x100_0000;

#[test]
fn a_line_of_16_mib_is_taken_and_no_longer_one() {
    let line = |length: usize| {
        let mut script = b"wfi 0\nread 300 0".to_vec();
        script.resize(b"wfi 0\n".len() + length, b' ');
        script.extend(b"\nwfi 0\n");
        script
    };
    let output = through_input(&line(LONGEST_LINE));
    assert_eq!(output.stdout, b"ok\nvalue a00000000\nok\n");
    assert_eq!(output.status.code(), Some(0));
    let output = through_input(&line(LONGEST_LINE + 1));
    assert_eq!(output.stdout, b"ok\nerror 2\n");
    assert_eq!(output.status.code(), Some(1));
    let sentence = String::from_utf8(output.stderr).unwrap();
    assert!(sentence.contains("longer than 1000000 bytes"), "{sentence}");
}

/// Runs the program on a script without an end, in 300 MB of memory.
#[cfg(target_os = "linux")]
fn in_little_memory(script: &str) -> Output {
    let command = format!("ulimit -v 300000; {script} | \"$0\" --why");
    let program = env!("CARGO_BIN_EXE_second");
    let shell = Command::new("sh").args(["-c", &command, program]).output();
    shell.unwrap()
}

#[test]
#[cfg(target_os = "linux")]
fn a_script_without_an_end() {
    for (script, expected) in [
        ("cat /dev/zero", "raw image"),
        ("yes '' | tr '\\n' ' '", "longer than"),
        ("{ echo '# x'; yes | tr -d '\\n'; }", "longer than"),
        ("yes '#' | tr -d '\\n'", "longer than"),
    ] {
        let output = in_little_memory(script);
        let number = if script.contains("echo") { 2 } else { 1 };
        let answer = String::from_utf8(output.stdout).unwrap();
        assert_eq!(answer, format!("error {number}\n"), "{script}");
        assert_eq!(output.status.code(), Some(1), "{script}");
        let sentence = String::from_utf8(output.stderr).unwrap();
        assert!(sentence.contains(expected), "{script}: {sentence}");
    }
}

#[test]
fn a_raw_image_is_told_from_a_script() {
    for (script, line) in [
        (&b"\x7fELF\0"[..], 1),
        (b"wfi 0\nload 0 8\0# a comment\n", 2),
        (b"wfi 0 # \0\nwfi 0\n\0", 3),
        (b"file 0 a\0b\n", 1),
    ] {
        let output = through_input(script);
        let error = format!("error {line}\n");
        assert!(output.stdout.ends_with(error.as_bytes()));
        assert_eq!(output.status.code(), Some(1));
        let sentence = String::from_utf8(output.stderr).unwrap();
        assert!(sentence.contains("looks like a raw image"), "{sentence}");
        assert!(sentence.contains("file BASE PATH"), "{sentence}");
    }
    // Behind `#` it is part of a comment, or of a path.
    assert_eq!(through_input(b"wfi 0 # \0\n").status.code(), Some(0));
    let output = through_input(b"file 0 #\0\n");
    assert_eq!(output.stdout, b"error 1\n");
    assert!(String::from_utf8_lossy(&output.stderr).contains("can't be read"));
}

#[test]
fn a_tool_that_waits_for_each_answer_gets_it() {
    let mut child = second()
        .arg("--why")
        .stdin(Stdio::piped())
        .stdout(Stdio::piped())
        .stderr(Stdio::null())
        .spawn()
        .unwrap();
    let mut input = child.stdin.take().unwrap();
    let output = BufReader::new(child.stdout.take().unwrap());
    let (sender, receiver) = mpsc::channel();
    std::thread::spawn(move || {
        for line in output.lines() {
            sender.send(line.unwrap()).unwrap();
        }
    });
    let mut write = |piece: &[u8]| {
        input.write_all(piece).unwrap();
        input.flush().unwrap();
    };
    let answer = || receiver.recv_timeout(Duration::from_secs(10)).ok();
    for _ in 0..3 {
        write(b"read 300 30002073\n");
        assert_eq!(answer().as_deref(), Some("value a00000000"));
        let word = "# word: 30002073 is CSRRS: mstatus (300) read to x0";
        assert_eq!(answer().as_deref(), Some(word));
    }
    // A line in two pieces, with the beginning of another behind it.
    write(b"ecall\nread 10");
    assert_eq!(answer().as_deref(), Some("ok"));
    write(b"00 7\nsh");
    assert_eq!(answer().as_deref(), Some("refused 5"));
    let word = "# word: 7 does not fit: it is no SYSTEM instruction";
    assert_eq!(answer().as_deref(), Some(word));
    assert_eq!(
        answer().as_deref(),
        Some("# why: register number 1000 is over fff")
    );
    write(b"ow\n");
    assert_eq!(answer().as_deref(), Some("hart 0 3 0"));
    // The answer of the last line needs no line feed, only the end.
    write(b"ecall");
    drop(input);
    let rest: Vec<String> = receiver.iter().collect();
    assert_eq!(rest.last().map(String::as_str), Some("ok"));
    assert_eq!(child.wait().unwrap().code(), Some(0));
}
