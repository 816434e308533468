//! The program itself: answers, bad scripts, exit status.

use compare::program::Folder;
use std::io::{BufRead, BufReader, Write};
use std::process::{Child, Command, Output, Stdio};
use std::sync::mpsc;
use std::time::Duration;

fn started(arguments: &[&str]) -> Child {
    Command::new(env!("CARGO_BIN_EXE_replay"))
        .args(arguments)
        .stdin(Stdio::piped())
        .stdout(Stdio::piped())
        .stderr(Stdio::piped())
        .spawn()
        .expect("the program starts")
}

fn replay(arguments: &[&str], script: &[u8]) -> Output {
    let mut child = started(arguments);
    let mut stdin = child.stdin.take().expect("standard input is a pipe");
    // a program that ends at a bad line may close its input first
    let _ = stdin.write_all(script);
    drop(stdin);
    child.wait_with_output().expect("the program ends")
}

fn answers(script: &[u8]) -> String {
    String::from_utf8(replay(&[], script).stdout).expect("answers are text")
}

/// The line that is bad, if any.
fn bad(script: &[u8]) -> Option<String> {
    let output = replay(&[], script);
    let text = String::from_utf8(output.stdout).expect("answers are text");
    let error = text
        .lines()
        .last()
        .and_then(|line| line.strip_prefix("error "));
    assert_eq!(output.status.code(), Some(i32::from(error.is_some())));
    assert_eq!(output.stderr.is_empty(), error.is_none());
    error.map(str::to_owned)
}

#[test]
fn nothing_answers_nothing() {
    assert_eq!(answers(b""), "");
    assert_eq!(answers(b"\n  # a comment\n\r\t\n"), "");
}

#[test]
fn events_are_answered() {
    assert_eq!(answers(b"read 300 0\n"), "value a00000000\n");
    assert_eq!(answers(b"read FFF 0\nread 342 0\n"), "value 0\nvalue 2\n");
    assert_eq!(answers(b"read 1000 0"), "refused 5\n");
    assert_eq!(answers(b"hart 1 1 0\necall\n"), "ok\n");
    assert_eq!(answers(b"load 0 8\n"), "fault 5 0 0 0 0\n");
    assert_eq!(answers(b"load 1 8\n"), "fault 4 1 0 0 0\n");
    assert_eq!(answers(b"hart 7 1 0\nload 0 8\n"), "refused 2\n");
}

/// Every event that takes a word, without it.
const WORDED: [&str; 13] = [
    "read 340",
    "write 340 1",
    "set 340 1 1",
    "clear 340 1 0",
    "mret",
    "sret",
    "wfi",
    "sfence.vma",
    "hfence.vvma",
    "hfence.gvma",
    "hlv 8 1 0",
    "hlvx 4 0",
    "hsv 1 0 0",
];

#[test]
fn a_trap_shows_the_word() {
    for event in WORDED {
        for (word, value) in [
            ("0", "0"),
            ("80000001", "80000001"),
            ("00FFffffFF", "ffffffff"),
        ] {
            // U: each of them traps with cause 2 into M
            let script = format!("hart 0 0 0\nreg 343 7\n{event} {word}\nread 343 0\n");
            let shown = answers(script.as_bytes());
            assert!(shown.ends_with(&format!("\nvalue {value}\n")), "{event}");
        }
    }
    let mtval = |script: &str| answers(format!("{script}read 343 0\n").as_bytes());
    assert_eq!(
        mtval("reg 343 7\nwfi 10500073\nread 1000 1\n"),
        "ok\nrefused 5\nvalue 7\n",
        "what is done or refused looks at no word"
    );
    assert_eq!(
        mtval("hart 0 0 0\nwfi 10500073\necall\n"),
        "ok\nok\nvalue 0\n",
        "an environment call has no word"
    );
}

/// A hart in HS over an image at 80000000, whose guest's stages are Bare, and eight bytes there.
const GUEST: &str = "image 80000000 1000\nput 80000008 fedcba9876543210\nhart 0 1 1000\n";

#[test]
fn hypervisor_loads_and_stores_are_answered() {
    let after = |lines: &str| answers(format!("{GUEST}{lines}").as_bytes());
    assert_eq!(
        after("hlv 1 1 8000000f 0\nhlv 1 0 8000000f 0\nhlv 2 1 8000000e 0\nhlv 4 0 8000000c 0\nhlv 8 0 80000008 0\n"),
        "value fffffffffffffffe\nvalue fe\nvalue fffffffffffffedc\nvalue fedcba98\nvalue fedcba9876543210\n"
    );
    assert_eq!(
        after("hlvx 2 8000000e 0\nhlvx 4 8000000c 0\nhlvx 8 80000008 0\nhlvx 1 80000008 0\n"),
        "value fedc\nvalue fedcba98\nrefused 3\nrefused 3\n"
    );
    assert_eq!(
        after(
            "hsv 1 8000000f 123 0\nhsv 2 8000000a 4567 0\nhlv 8 1 80000008 0\nhsv 3 80000008 0 0\n"
        ),
        "ok\nok\nvalue 23dcba9845673210\nrefused 3\n"
    );
    assert_eq!(
        after("hsv 4 80000008 0 0\nimage 80000000 1000\nhlv 4 1 80000008 0\nhlv 4 1 8000000c 0\n"),
        "ok\nvalue 0\nvalue 0\n",
        "a new image"
    );
    let page = "put 80000000 200000df\nreg 680 8000000000080000\n";
    assert_eq!(
        after(&format!("{page}hsv 1 9 55 0\nhlv 2 0 8 0\nhlv 8 1 40000000 0\n")),
        "ok\nread 2 2 80000000 200000df\nvalue 5510\nread 2 2 80000000 200000df\nvalue 0\nread 2 2 80000008 fedcba9876545510\n"
    );
}

#[test]
fn a_store_into_an_image_from_a_file_leaves_the_file() {
    let folder = Folder::new().expect("a folder is made");
    let image = folder.path().join("image.bin");
    std::fs::write(&image, [0x5a; 0x1000]).expect("the image is written");
    let script = folder.path().join("script.replay");
    let lines =
        "file 0 image.bin\nhart 0 1 0\nhsv 8 8 7 0\nhlv 8 1 8 0\nfile 0 image.bin\nhlv 8 1 8 0\n";
    std::fs::write(&script, lines).expect("the script is written");
    let output = replay(&[script.to_str().expect("the path is text")], b"");
    assert_eq!(output.stdout, b"ok\nvalue 7\nvalue 5a5a5a5a5a5a5a5a\n");
    let bytes = std::fs::read(&image).expect("the image is read");
    assert_eq!(bytes, [0x5a; 0x1000]);
}

#[test]
fn interrupts_are_answered() {
    let pending = "hart 0 0 10\nreg 304 80\nreg 344 80\n";
    let taken = answers(format!("{pending}interrupt\nread 341 0\nread 342 0\n").as_bytes());
    assert_eq!(taken, "ok\nvalue 10\nvalue 8000000000000007\n");
    let shown = answers(b"hart 0 0 10\nreg 344 80\nshow\n");
    assert_eq!(
        answers(b"hart 0 0 10\nreg 344 80\ninterrupt\nshow\n"),
        format!("ok\n{shown}"),
        "none is due"
    );
    assert_eq!(answers(b"reg 303 0\ninterrupt\n"), "refused 2\n");
    assert_eq!(
        answers(b"trap 8000000000000007 0 0 0 0\n"),
        "refused 4\n",
        "interrupts come from pending bits alone"
    );
}

#[test]
fn a_hart_shows_thirty_one_registers() {
    let shown = answers(b"show\n");
    assert_eq!(shown.lines().count(), 1 + 31);
    for line in ["reg 303 444", "reg 304 0", "reg 344 0", "reg 603 0"] {
        assert!(shown.lines().any(|shown| shown == line), "{line}");
    }
}

#[test]
fn what_show_writes_is_a_script() {
    let shown = answers(b"hart 1 1 1234\nreg 200 5\nreg 680 7\nshow\n");
    assert!(shown.starts_with("hart 1 1 1234\nreg 105 0\n"));
    assert_eq!(answers(format!("{shown}show\n").as_bytes()), shown);
}

#[test]
fn a_comment_starts_anywhere_but_in_a_path() {
    assert_eq!(answers(b"read 300 0#\xff\n"), "value a00000000\n");
    assert_eq!(bad(b"file 0#x\n"), Some("1".to_owned()));
    assert_eq!(
        bad(b"file 0 #there-is-no-such-file\n"),
        Some("1".to_owned())
    );
}

#[test]
fn bad_lines_end_the_run() {
    for line in [
        "Load 0 8",
        "load 0",
        "load 0 8 0",
        "load 0x0 8",
        "load 00000000000000000 8",
        "load +1 8",
        "set 300 0 2 0",
        "hlv 8 2 0 0",
        "hlv 8 0 0",
        "hlvx 4 0 0 0",
        "hsv 8 0 0",
        "hlv.d 0 0",
        "ecall 73",
        "ebreak 100073",
        "trap 2 0 0 0 10",
        "put 0 0",
        "reg 100 0",
        "reg e12 0",
        "reg 104 0",
        "reg 144 0",
        "reg 204 0",
        "reg 244 0",
        "reg 604 0",
        "reg 607 0",
        "reg 644 0",
        "reg 645 0",
        "reg 123 0",
        "interrupt 7",
        "file 0",
        "file 0 .",
        "image 0 1000000000000000",
        "\u{feff}show",
        "show\u{b}",
    ] {
        let script = format!("# first\n{line}\nshow\n");
        assert_eq!(bad(script.as_bytes()), Some("2".to_owned()), "{line}");
    }
}

#[test]
fn a_word_has_32_bits_and_stands_alone() {
    let bad = |event, word| bad(format!("{event}{word}\n").as_bytes());
    for event in WORDED {
        for word in [" 0", " ffffffff", " 00000000FFFFFFFF"] {
            assert_eq!(bad(event, word), None, "{event}{word}");
        }
        let longer = [" 100000000", " ffffffffffffffff", " 00000000000000000"];
        for word in ["", " 0 0", " 0x0", " -1"].into_iter().chain(longer) {
            assert_eq!(bad(event, word), Some("1".to_owned()), "{event}{word}");
        }
    }
    let requested = answers(b"trap 15 0 0 ffffffffffffffff 1\n");
    assert_eq!(requested, "ok\n", "a trap request's word is the model's");
}

/// The sentence about a script's first line, without the script's name.
fn sentence(line: &[u8]) -> String {
    let output = replay(&[], line);
    assert_eq!(output.stdout, b"error 1\n");
    let text = String::from_utf8(output.stderr).expect("sentences are text");
    let said = text.strip_prefix("standard input:1:");
    let said = said.and_then(|said| said.strip_suffix('\n'));
    said.unwrap_or_else(|| panic!("{text}")).to_owned()
}

#[test]
fn a_bad_line_is_told_by_its_place_and_what_to_write() {
    for (line, told) in [
        (&b"hart"[..], "6: hart takes V P PC; V is missing"),
        (b"hart 1 1  # no pc", "10: hart takes V P PC; PC is missing"),
        (b"hart 1 1 0 4", "12: hart takes V P PC; `4` is too much"),
        (b"\tebreak 0", "9: ebreak takes no number; `0` is too much"),
        (b"file 0#x", "8: file takes BASE PATH; PATH is missing"),
        (b"load 0x80000000 8", "6: `0x80000000` is no number: numbers are hexadecimal without a prefix, `80000000`"),
        (b"load 8000_0000 8", "6: `8000_0000` is no number: a number's digits stand together, `80000000`"),
        (b"load 00000000000000000 8", "6: `00000000000000000` is no number: it has 17 digits, and 16 are the most"),
        (b"load -1 8", "6: `-1` is no number: a number is 1 to 16 hexadecimal digits"),
        (b"reg mstatsu 0", "5: `mstatsu` is no number: did you mean mstatus, which is 300?"),
        (b"read hgatp 0", "6: `hgatp` is no number: registers go by number: hgatp, which is 680"),
        (b"load satp 8", "6: `satp` is no number: a number is 1 to 16 hexadecimal digits"),
        (b"Load 0 8", "1: `Load` is no word of the language: words are lower case, `load`"),
        (b" lod 0 8", "2: `lod` is no word of the language: did you mean load?"),
        (b"hfence", "1: `hfence` is no word of the language: did you mean hfence.vvma or hfence.gvma?"),
        (b"nonsense", "1: `nonsense` is no word of the language"),
        (b"\xef\xbb\xbfshow", "1: a byte-order mark (bytes ef bb bf) stands before the word: save the script without it"),
        (b"fence", "1: `fence` is no word of the language: did you mean sfence.vma or hfence.vvma or hfence.gvma?"),
        (b"load 80000000,8", "6: `80000000,8` is no number: numbers are separated by blanks, without commas"),
        (b"file 0\t #no-such-file", "9: `#no-such-file` can't be read: No such file or directory (os error 2); its path starts from the working directory"),
        (b"set 300 0 2 0", "11: WRITES is 0 or 1, not 2"),
        (b"wfi 100000000", "5: WORD is the instruction's 32 bits, at most ffffffff, not 100000000"),
        (b"hlv 4 2 0 0", "7: SIGNED is 0 or 1, not 2"),
        (b"hlv 4 01 0", "12: hlv takes WIDTH SIGNED ADDRESS WORD; WORD is missing: the instruction's 32 bits"),
        (b"hlvx 4", "8: hlvx takes WIDTH ADDRESS WORD; ADDRESS is missing"),
        (b"hsv 8 0 7 6eb54073 0", "20: hsv takes WIDTH ADDRESS VALUE WORD; `0` is too much"),
        (b"hsv 8 0 7 100000000", "11: WORD is the instruction's 32 bits, at most ffffffff, not 100000000"),
        (b"HLVX 4 0 0", "1: `HLVX` is no word of the language: words are lower case, `hlvx`"),
        (b"hvl 8 1 0 0", "1: `hvl` is no word of the language: did you mean hlv?"),
        (b"hlv.w 0", "1: `hlv.w` is no word of the language: the width is a number, `hlv 4 1 ADDRESS WORD`"),
        (b"HLV.BU 0", "1: `HLV.BU` is no word of the language: the width is a number, `hlv 1 0 ADDRESS WORD`"),
        (b"hlvx.hu 0", "1: `hlvx.hu` is no word of the language: the width is a number, `hlvx 2 ADDRESS WORD`"),
        (b"hsv.d 0", "1: `hsv.d` is no word of the language: the width is a number, `hsv 8 ADDRESS VALUE WORD`"),
        (b"load.w 0", "1: `load.w` is no word of the language: the width is a number, `load ADDRESS 4`"),
        (b"read.d 0", "1: `read.d` is no word of the language: did you mean read?"),
        (b"hlv.q 0", "1: `hlv.q` is no word of the language: did you mean hlv or hlvx?"),
        (b"clear 300 0 1 123456789abcdef0", "15: WORD is the instruction's 32 bits, at most ffffffff, not 123456789abcdef0"),
        (b"read 300 30002573 0", "19: read takes N WORD; `0` is too much"),
        (b"write 300", "11: write takes N VALUE WORD; VALUE is missing"),
        (b"trap 2 0 0", "12: trap takes CAUSE VALUE SECOND WORD FLAG; WORD is missing"),
        (b"trap 2 0 0 0 10", "14: FLAG is 0 or 1, not 10"),
        (b"put 8 0", "5: the eight bytes at 8 don't lie in the image, which is empty"),
        (b"reg 100 0", "5: sstatus (100) is not stored: it is a view of mstatus (300)"),
        (b"reg e12 0", "5: hgeip (e12) is not stored: it is a constant"),
        (b"reg 104 0", "5: sie (104) is not stored: it is a view of mie (304)"),
        (b"reg 244 0", "5: vsip (244) is not stored: it is a view of mip (344)"),
        (b"reg 645 0", "5: hvip (645) is not stored: it is a view of mip (344)"),
        (b"reg 607 0", "5: hgeie (607) is not stored: it is a constant"),
        (b"reg 123 0", "5: the model has no register 123"),
        (b"read mideleg 0", "6: `mideleg` is no number: registers go by number: mideleg, which is 303"),
        (b"read hvpi 0", "6: `hvpi` is no number: did you mean hvip, which is 645?"),
        (b"interrupt 7", "11: interrupt takes no number; `7` is too much"),
        (b"interupt", "1: `interupt` is no word of the language: did you mean interrupt?"),
        (b"INTERRUPT", "1: `INTERRUPT` is no word of the language: words are lower case, `interrupt`"),
        (b"image 0 1000000000000000", "9: an image of 1000000000000000 bytes is more than this program holds"),
    ] {
        assert_eq!(sentence(line), told, "{}", line.escape_ascii());
    }
}

#[test]
fn a_line_of_an_older_script_is_told_what_it_lacks() {
    for (line, told) in [
        (&b"wfi"[..], "5: wfi takes WORD"),
        (b"\tsfence.vma\r", "13: sfence.vma takes WORD"),
        (b"read 300 # mstatus", "10: read takes N WORD"),
        (b"write 300 0", "13: write takes N VALUE WORD"),
        (b"set 300 8 1", "13: set takes N VALUE WRITES WORD"),
    ] {
        let lacks = "WORD is missing: the instruction's 32 bits, which older scripts lack; with 0 the answers are as they were";
        assert_eq!(sentence(line), format!("{told}; {lacks}"));
    }
}

#[test]
fn a_path_is_shown_without_its_folders_and_printable() {
    let said = sentence(b"file 0 /a-folder/\x1b[31mno\xc2\x85-such-file");
    assert!(
        said.starts_with("8: `\\u{1b}[31mno\\u{85}-such-file` can't be read"),
        "{said}"
    );
    let long = [&b"file 0 /a-folder/"[..], &b"x".repeat(200)].concat();
    let said = sentence(&long);
    assert!(
        said.starts_with(&format!("8: `{}..` can't", "x".repeat(40))),
        "{said}"
    );
}

#[test]
fn an_error_names_the_scripts_file_and_line() {
    let folder = Folder::new().expect("a folder is made");
    let file = folder.path().join("a script.replay");
    std::fs::write(&file, "ecall\n\necall 0\n").expect("the script is written");
    let output = replay(&[file.to_str().expect("the path is text")], b"");
    assert_eq!(output.stdout, b"ok\nerror 3\n");
    let said = String::from_utf8_lossy(&output.stderr).into_owned();
    assert_eq!(
        said,
        "a script.replay:3:7: ecall takes no number; `0` is too much\n"
    );
}

/// Whether the program ends by itself, though its input does not.
fn ends(mut child: Child) -> Option<Output> {
    let open = child.stdin.take();
    let (sender, receiver) = mpsc::channel();
    std::thread::spawn(move || sender.send(child.wait_with_output()));
    let ended = receiver.recv_timeout(Duration::from_secs(20));
    drop(open);
    ended.ok()?.ok()
}

#[test]
fn a_raw_image_is_told_before_its_end() {
    for (bytes, column) in [(&b"\0"[..], 1), (b"wfi \0", 5), (b"\x7fELF\x02\x01\0\0", 7)] {
        let mut child = started(&[]);
        let input = child.stdin.as_mut().expect("standard input is a pipe");
        input.write_all(bytes).expect("the bytes are written");
        let output = ends(child).expect("the program ends");
        assert_eq!(output.stdout, b"error 1\n");
        let said = String::from_utf8_lossy(&output.stderr).into_owned();
        assert!(
            said.starts_with(&format!("standard input:1:{column}: a NUL byte")),
            "{said}"
        );
        assert!(said.contains("`file BASE PATH`"), "{said}");
    }
    assert_eq!(answers(b"wfi 0 # \0\n#\0\nwfi 0\n"), "ok\nok\n");
}

#[test]
fn a_line_has_an_end() {
    let most = 1 << 24;
    let comment = |length| [&b"wfi 0\n#"[..], &b"x".repeat(length - 1), b"\nwfi 0\n"].concat();
    assert_eq!(from_file(&comment(most)).stdout, b"ok\nok\n");
    let output = from_file(&comment(most + 1));
    assert_eq!(output.stdout, b"ok\nerror 2\n");
    let said = String::from_utf8_lossy(&output.stderr).into_owned();
    assert!(
        said.ends_with(":2:16777217: the line has more than 1000000 (hexadecimal) bytes\n"),
        "{said}"
    );
    let mut child = started(&[]);
    let input = child.stdin.as_mut().expect("standard input is a pipe");
    let _ = input.write_all(&b" ".repeat(most + 1));
    assert_eq!(ends(child).expect("the program ends").stdout, b"error 1\n");
}

#[test]
fn whoever_waits_for_an_answer_gets_it() {
    let mut child = started(&[]);
    let mut input = child.stdin.take().expect("standard input is a pipe");
    let output = child.stdout.take().expect("standard output is a pipe");
    let (sender, receiver) = mpsc::channel();
    std::thread::spawn(move || {
        for line in BufReader::new(output).lines() {
            let _ = sender.send(line.expect("answers are text"));
        }
    });
    for (pieces, answer) in [
        (&["read 300 0\n"][..], "value a00000000"),
        (&["read", " 305 0\n"], "value 0"),
        (&["# a comment\nwfi 0\nre"], "ok"),
        (&["ad 300 0\nwf"], "value a00000000"),
        (&["i 0\n"], "ok"),
    ] {
        for piece in pieces {
            input
                .write_all(piece.as_bytes())
                .expect("the script is written");
        }
        let answered = receiver.recv_timeout(Duration::from_secs(20));
        assert_eq!(answered.as_deref(), Ok(answer), "{pieces:?}");
    }
    drop(input);
    assert!(child.wait().expect("the program ends").success());
}

#[test]
fn a_put_lies_whole_in_the_image() {
    assert_eq!(bad(b"image 1000 10\nput 1008 1\n"), None);
    assert_eq!(bad(b"image 1000 10\nput 1009 1\n"), Some("2".to_owned()));
    assert_eq!(bad(b"image 1000 10\nput fff 1\n"), Some("2".to_owned()));
    assert_eq!(
        bad(b"image fffffffffffffff0 20\nput fffffffffffffff8 1\n"),
        None
    );
    assert_eq!(
        bad(b"image fffffffffffffff0 20\nput 0 1\n"),
        Some("2".to_owned())
    );
}

#[test]
fn explanations_are_comments() {
    let script =
        b"hart 1 1 0\nreg 680 8000000000000000\nload 40 8\necall\nread 100 0\nshow\nload 1 3\n";
    let explained = replay(&["--explain"], script).stdout;
    let plain: String = String::from_utf8(explained)
        .expect("answers are text")
        .lines()
        .filter(|line| !line.starts_with("# "))
        .map(|line| format!("{line}\n"))
        .collect();
    assert_eq!(plain, answers(script));
}

#[test]
fn wrong_command_lines_and_unreadable_scripts() {
    for arguments in [&["-x"][..], &["a", "b"], &["there-is-no-such-file"], &["."]] {
        let output = replay(arguments, b"");
        assert_eq!(output.status.code(), Some(2), "{arguments:?}");
        assert!(output.stdout.is_empty());
        assert!(output.stderr.starts_with(b"replay: "));
    }
}

#[test]
fn options() {
    for (arguments, begins) in [
        (&["--help"][..], "replay: runs"),
        (&["-h"], "replay: runs"),
        (&["--explain", "--help"], "replay: runs"),
        (&["--version"], "replay 0."),
        (&[], "ok\n"),
        (&["-"], "ok\n"),
        (&["--"], "ok\n"),
        (&["-", "--"], "ok\n"),
        (&["--", "-"], "ok\n"),
        (&["--explain", "-"], "ok\n# line 1: wfi 0\n"),
        (
            &["--explain=tree", "--", "/dev/stdin"],
            "ok\n# line 1: wfi 0\n",
        ),
    ] {
        let output = replay(arguments, b"wfi 0\n");
        let text = String::from_utf8_lossy(&output.stdout).into_owned();
        assert_eq!(output.status.code(), Some(0), "{arguments:?}");
        assert!(text.starts_with(begins), "{arguments:?}: {text}");
    }
    let output = replay(&["--", "--explain"], b"wfi 0\n");
    assert_eq!(output.status.code(), Some(2), "a file of that name");
}

/// Runs a script from a file; the program may write as much as it likes.
fn from_file(script: &[u8]) -> Output {
    let folder = Folder::new().expect("a folder is made");
    let file = folder.path().join("script.replay");
    std::fs::write(&file, script).expect("the script is written");
    let program = Command::new(env!("CARGO_BIN_EXE_replay"))
        .arg(&file)
        .output();
    program.expect("the program ends")
}

#[test]
fn a_reader_that_goes_away() {
    let mut child = started(&[]);
    drop(child.stdout.take());
    let mut stdin = child.stdin.take().expect("standard input is a pipe");
    let _ = stdin.write_all(&b"show\n".repeat(20_000));
    drop(stdin);
    let output = child.wait_with_output().expect("the program ends");
    assert_eq!(output.status.code(), Some(2));
    assert_eq!(output.stderr, b"", "a closed pipe is silent");
}

/// A descriptor that is open the wrong way round is no empty script and takes no answers.
#[test]
fn descriptors_that_cannot_be_used() {
    let null = |write: bool| {
        let mut options = std::fs::File::options();
        options
            .read(!write)
            .write(write)
            .open("/dev/null")
            .expect("it is opened")
    };
    let run = |stdin: std::fs::File, stdout: std::fs::File| {
        let mut command = Command::new(env!("CARGO_BIN_EXE_replay"));
        let output = command.stdin(stdin).stdout(stdout).output();
        let output = output.expect("the program ends");
        (
            output.status.code(),
            String::from_utf8_lossy(&output.stderr).into_owned(),
        )
    };
    assert_eq!(run(null(false), null(true)), (Some(0), String::new()));
    let (status, said) = run(null(true), null(true));
    assert_eq!(status, Some(2));
    assert!(
        said.starts_with("replay: standard input can't be read"),
        "{said}"
    );
    let (_, said) = run(null(false), null(false));
    assert_eq!(said, "", "an empty script has no answer to write");
    let mut command = Command::new(env!("CARGO_BIN_EXE_replay"));
    let output = command.arg("--version").stdout(null(false)).output();
    let output = output.expect("the program ends");
    assert_eq!(output.status.code(), Some(2));
}

#[cfg(target_os = "linux")]
#[test]
fn answers_that_cannot_be_written() {
    for arguments in [&["/dev/stdin"][..], &["--help"]] {
        let full = std::fs::File::create("/dev/full").expect("it is opened");
        let mut command = Command::new(env!("CARGO_BIN_EXE_replay"));
        command.args(arguments).stdin(Stdio::piped()).stdout(full);
        let mut child = command
            .stderr(Stdio::piped())
            .spawn()
            .expect("the program starts");
        let mut stdin = child.stdin.take().expect("standard input is a pipe");
        let _ = stdin.write_all(b"wfi 0\n");
        drop(stdin);
        let output = child.wait_with_output().expect("the program ends");
        assert_eq!(output.status.code(), Some(2));
        let sentence = String::from_utf8_lossy(&output.stderr);
        assert!(
            sentence.starts_with("replay: the answers can't be written"),
            "{sentence}"
        );
    }
}

#[cfg(unix)]
#[test]
fn a_script_and_an_image_without_the_right_to_read() {
    use std::os::unix::fs::PermissionsExt;
    let folder = Folder::new().expect("a folder is made");
    let closed = folder.path().join("closed");
    std::fs::write(&closed, "show\n").expect("the file is written");
    let mode = std::fs::Permissions::from_mode(0o000);
    std::fs::set_permissions(&closed, mode).expect("its rights are taken");
    if std::fs::File::open(&closed).is_ok() {
        return; // root reads everything
    }
    let path = closed.to_str().expect("the path is text");
    assert_eq!(replay(&[path], b"").status.code(), Some(2));
    assert_eq!(
        bad(format!("file 0 {path}\n").as_bytes()),
        Some("1".to_owned())
    );
}

#[test]
fn images_of_128_mib_and_more() {
    assert_eq!(
        answers(b"image 0 8000000\nput 7fffff8 1\nload 0 8\nimage 0 4000000\nload 3fffff8 8\n"),
        "refused 1\naddress 3fffff8\n"
    );
    assert_eq!(
        bad(b"image 0 8000000\nput 7fffff9 1\n"),
        Some("2".to_owned())
    );
    assert_eq!(bad(b"image 0 40000001\n"), Some("1".to_owned()));
}

#[test]
fn a_million_lines() {
    let lines = 1_000_000;
    let output = from_file(&b"wfi 0\n".repeat(lines));
    assert_eq!(output.status.code(), Some(0));
    assert_eq!(output.stdout, b"ok\n".repeat(lines));
    let bad = [&b"\n".repeat(lines)[..], b"wfi"].concat();
    assert_eq!(from_file(&bad).stdout, b"error f4241\n");
}

#[test]
fn very_long_lines() {
    let blanks = b" ".repeat(5_000_000);
    let line = [&blanks[..], b"read 300 0", &blanks, b"# end"].concat();
    assert_eq!(from_file(&line).stdout, b"value a00000000\n");
    for byte in [b"f", b"0", b"\0"] {
        let output = from_file(&[&b"read "[..], &byte.repeat(5_000_000)].concat());
        assert_eq!(output.stdout, b"error 1\n");
        assert!(output.stderr.len() < 300);
    }
}

#[test]
fn the_readmes_tour_is_what_the_program_writes() {
    let home = concat!(env!("CARGO_MANIFEST_DIR"), "/../../");
    let text = |path| std::fs::read_to_string(format!("{home}{path}")).expect("the file is read");
    let readme = text("README.md");
    let blocks: Vec<&str> = readme
        .split("```text\n")
        .skip(1)
        .filter_map(|after| after.split("```").next())
        .collect();
    let script = "examples/base-80000000.replay";
    assert!(text(script).contains(blocks[0]));
    let explained = replay(&["--explain", &format!("{home}{script}")], b"").stdout;
    assert!(explained.starts_with(blocks[1].as_bytes()));
    assert!(text("examples/deepest-walk.tree").contains(blocks[2]));
}
