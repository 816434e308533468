//! Tests of the script language.

use super::*;

/// The whole output of a script, and whether it ended at a bad line.
fn run_script(script: &[u8]) -> (String, Option<u64>) {
    let mut session = Session::new(PathBuf::new());
    let mut output = Vec::new();
    let end = run(
        &mut session,
        Writing::Answers,
        &mut &script[..],
        &mut output,
    )
    .unwrap();
    let line = match end {
        End::Whole => None,
        End::Bad { line, reason } => {
            assert!(!reason.is_empty());
            Some(line)
        }
    };
    (String::from_utf8(output).unwrap(), line)
}

fn good(script: &str) -> String {
    let (output, bad) = run_script(script.as_bytes());
    assert_eq!(bad, None, "{script}");
    output
}

fn is_bad(line: &[u8]) -> bool {
    let (output, bad) = run_script(line);
    match bad {
        None => false,
        Some(number) => {
            assert_eq!(number, 1);
            assert_eq!(output, "error 1\n");
            true
        }
    }
}

#[test]
fn an_empty_script() {
    assert_eq!(good(""), "");
    assert_eq!(good("\n\n  \n# a comment\n\t# another\n"), "");
}

#[test]
fn the_first_hart_and_show() {
    let shown = "hart 0 3 0\nreg 105 0\nreg 140 0\nreg 141 0\nreg 142 0\nreg 143 0\nreg 180 0\nreg 200 200000000\n\
        reg 205 0\nreg 240 0\nreg 241 0\nreg 242 0\nreg 243 0\nreg 280 0\nreg 300 a00000000\nreg 302 0\nreg 303 444\nreg 304 0\nreg 305 0\n\
        reg 340 0\nreg 341 0\nreg 342 0\nreg 343 0\nreg 344 0\nreg 34a 0\nreg 34b 0\nreg 600 200000000\nreg 602 0\nreg 603 0\nreg 643 0\n\
        reg 64a 0\nreg 680 0\n";
    assert_eq!(good("show"), shown);
    // What show writes is itself a script.
    assert_eq!(good(&format!("{shown}show\n")), shown);
    assert_eq!(
        good("hart 0 1 80000000\nreg 180 5\nhart 0 3 0\nshow"),
        shown
    );
}

#[test]
fn numbers_pass_as_they_are() {
    let output = good("hart ffffffffffffffff 2 fFfFfFfFfFfFfFfF\nreg 300 DEADBEEF\nshow");
    assert!(output.starts_with("hart ffffffffffffffff 2 ffffffffffffffff\n"));
    assert!(output.contains("\nreg 300 deadbeef\n"));
    assert_eq!(
        good("load ffffffffffffffff ffffffffffffffff"),
        "refused 3\n"
    );
    assert_eq!(good("read ffffffffffffffff 0"), "refused 5\n");
    assert_eq!(good("read 0000000000000300 0"), "value a00000000\n");
}

#[test]
fn what_counts_as_a_number() {
    assert_eq!(parse_number(b"0"), Some(0));
    assert_eq!(parse_number(b"ffffffffffffffff"), Some(u64::MAX));
    assert_eq!(
        parse_number(b"0123456789abcdef"),
        Some(0x0123_4567_89ab_cdef)
    );
    assert_eq!(parse_number(b"ABCDEF"), Some(0xab_cdef));
    for bad in [
        &b""[..],
        b"00000000000000000",
        b"10000000000000000",
        b"0x1",
        b"-1",
        b"+1",
        b"1_0",
        b"g",
        b"1h",
        b"\xff",
        b"\xd9\xa1",
        b"1.0",
    ] {
        assert_eq!(parse_number(bad), None, "{}", bad.escape_ascii());
    }
}

#[test]
fn blanks_and_comments() {
    let plain = good("read 300 7");
    for script in [
        "  read   300  7  ",
        "\tread\t300\t7\t",
        "read 300 7\r\n",
        "\r read \r 300 \r7",
        "read 300 7 # comment",
        "read 300 7# comment",
        "read 300 7 #",
        "read 300 7 ## # read 300",
        "# read 300\nread 300 7",
    ] {
        assert_eq!(good(script), plain, "{script:?}");
    }
    assert!(is_bad(b"read# 300 7"));
    assert!(is_bad(b"load 30#0 8"));
}

#[test]
fn a_comment_may_hold_any_bytes() {
    assert_eq!(run_script(b"# \xff\xfe\x00\x01\nread 300 7\n").1, None);
    assert_eq!(run_script(b"read 300 7#\xff").1, None);
}

#[test]
fn bad_lines() {
    for line in [
        &b"unknown"[..],
        b"Load 0 8",
        b"SHOW",
        b"load",
        b"load 0",
        b"load 0 8 0",
        b"load 0 8 x",
        b"load 0x0 8",
        b"load 00000000000000000 8",
        b"fetch 0",
        b"store 0 8 1",
        b"read",
        b"read 300",
        b"read 300 0 0",
        b"write 300",
        b"write 300 0",
        b"write 300 0 1 0",
        b"set 300 0",
        b"set 300 0 1",
        b"set 300 0 2 0",
        b"clear 300 0 2 0",
        b"clear 300 0 ffffffffffffffff 0",
        b"set 300 0 1 1 0",
        b"trap 0 0 0 0",
        b"trap 0 0 0 0 2",
        b"trap 0 0 0 0 0 0",
        b"ecall 0",
        b"ebreak 0",
        b"mret",
        b"sret x",
        b"wfi 0 0",
        b"sfence.vma 0 0",
        b"sfence",
        b"hfence.vvma",
        b"hfence.gvma #0",
        b"interrupt 0",
        b"interrupts",
        b"Interrupt",
        b"hlv",
        b"hlv 1 0 0",
        b"hlv 1 0 0 0 0",
        b"hlv 1 2 0 0",
        b"hlv 1 ffffffffffffffff 0 0",
        b"hlv 1 10 0 0",
        b"hlv 1 0 0 100000000",
        b"HLV 1 0 0 0",
        b"hlv.b 1 0 0 0",
        b"hlvx 2 0",
        b"hlvx 2 0 0 0",
        b"hlvx 2 0 100000000",
        b"hsv 1 0 0",
        b"hsv 1 0 0 0 0",
        b"hsv 1 0 0 100000000",
        b"hsvx 1 0 0 0",
        b"start",
        b"start load",
        b"start load 0",
        b"start load 0 8 0",
        b"start load 0 x",
        b"start load# 0 8",
        b"start 0 8",
        b"start 0 8 load",
        b"start Load 0 8",
        b"start hlv 0 8",
        b"start press 0 8",
        b"Start load 0 8",
        b"starts load 0 8",
        b"press",
        b"press 0",
        b"press # before any start",
        b"show 0",
        b"image 0",
        b"image 0 0 0",
        b"image 0 40000001",
        b"image 0 ffffffffffffffff",
        b"hart 0 0",
        b"hart 0 0 0 0",
        b"reg 300",
        b"reg 300 0 0",
        b"reg 100 0",
        b"reg 104 0",
        b"reg 144 0",
        b"reg 204 0",
        b"reg 244 0",
        b"reg 604 0",
        b"reg 607 0",
        b"reg 644 0",
        b"reg 645 0",
        b"reg e12 0",
        b"reg 0 0",
        b"reg fff 0",
        b"reg 1300 0",
        b"put 0 0",
        b"put 0",
        b"put 0 0 0",
        b"file 0",
        b"file",
        b"file x y",
        b"file 0 \r\t ",
        b"file 0# path",
        b"file 0 no such file",
        b"file 0 .",
        b"file 0 a\0b",
        b"\xff\xfe",
        b"\0",
        b"read\x0b300 0",
        b"\xef\xbb\xbfread 300 0",
    ] {
        assert!(is_bad(line), "{}", line.escape_ascii());
    }
}

#[test]
fn flags_are_numbers() {
    assert_eq!(good("set 340 1 01 0\nread 340 0"), "value 0\nvalue 1\n");
    assert_eq!(good("set 340 1 0000 0\nread 340 0"), "value 0\nvalue 0\n");
    assert_eq!(
        good("image 0 1000\nput 0 80\nhlv 1 01 0 0\nhlv 1 0000 0 0"),
        "value ffffffffffffff80\nvalue 80\n"
    );
}

#[test]
fn a_bad_line_ends_the_run_and_what_was_answered_stays() {
    let (output, line) = run_script(b"read 300 0\n\n# c\nwfi 0\nnonsense\nread 300 0\n");
    assert_eq!(output, "value a00000000\nok\nerror 5\n");
    assert_eq!(line, Some(5));
    let mut script = vec![b'\n'; 0x1f];
    script.extend(b"nonsense");
    assert_eq!(run_script(&script).0, "error 20\n");
}

#[test]
fn images_and_puts() {
    let image = "image 1000 1000\n";
    assert_eq!(
        good(&format!("{image}load 1ff8 8\nload 2000 8")),
        "address 1ff8\nfault 5 2000 0 0 0\n"
    );
    for (address, taken) in [
        ("ff8", false),
        ("ff9", false),
        ("fff", false),
        ("1000", true),
        ("1001", true),
        ("1ff8", true),
        ("1ff9", false),
        ("2000", false),
        ("ffffffffffffffff", false),
    ] {
        let script = format!("{image}put {address} 1");
        assert_eq!(
            run_script(script.as_bytes()).1.is_none(),
            taken,
            "{address}"
        );
    }
    assert_eq!(
        run_script(b"image fffffffffffff000 1000\nput fffffffffffffff8 1").1,
        None
    );
    assert_eq!(
        run_script(b"image fffffffffffffff8 10\nput fffffffffffffffc 1\nload 0 1").0,
        "refused 1\n"
    );
}

#[test]
fn large_images() {
    assert_eq!(good("image 0 4000000\nload 3fffff8 8"), "address 3fffff8\n");
    assert_eq!(good("image 0 4001000\nload 0 8"), "refused 1\n");
    assert_eq!(
        good("image 0 8000000\nput 7fffff8 1\nload 0 8"),
        "refused 1\n"
    );
    assert_eq!(good("image 0 10000000\nload 0 8"), "refused 1\n");
}

#[test]
fn files() {
    let folder = std::env::temp_dir().join(format!("second-script-{}", std::process::id()));
    std::fs::create_dir_all(&folder).unwrap();
    std::fs::write(folder.join("a # name"), [0x11u8; 4096]).unwrap();
    let mut session = Session::new(folder.clone());
    let mut output = Vec::new();
    let script = b"file 2000 \t a # name \r\nload 2000 8\nload 3000 1\nfile 0 missing\n";
    let end = run(
        &mut session,
        Writing::Answers,
        &mut &script[..],
        &mut output,
    )
    .unwrap();
    assert_eq!(session.image.bytes, vec![0x11; 4096]);
    assert_eq!(session.image.base, 0x2000);
    assert!(matches!(end, End::Bad { line: 4, .. }));
    assert_eq!(output, b"address 2000\nfault 5 3000 0 0 0\nerror 4\n");
    std::fs::remove_dir_all(&folder).unwrap();
}

#[test]
fn answers() {
    assert_eq!(
        good("ecall\nebreak\nmret 0\nsret 0\nwfi 0"),
        "ok\nok\nok\nok\nok\n"
    );
    assert_eq!(
        good("hart 0 0 1\necall\nread 300 0\ntrap 0 0 0 0 0"),
        "refused 2\nrefused 2\nrefused 2\n"
    );
    assert_eq!(
        good("trap e 0 0 0 0\ntrap 15 0 0 0 1\ntrap 2 5 0 0 0"),
        "refused 4\nok\nok\n"
    );
    assert_eq!(
        good("hart 1 1 0\nread 680 0\nread 680 0"),
        "value 0\nvalue 0\n"
    );
    assert_eq!(
        good("sfence.vma 0\nhfence.vvma 0\nhfence.gvma 0\nread 340 0\n"),
        "ok\nok\nok\nvalue 0\n"
    );
    assert_eq!(good("read fff 0\nread 1000 0"), "value 0\nrefused 5\n");
}

/// A line of each event that has a WORD, without it.
pub const WITH_WORD: [&str; 15] = [
    "read 300",
    "write 300 0",
    "set 300 0 0",
    "set 300 0 1",
    "clear 300 0 0",
    "clear 300 0 1",
    "mret",
    "sret",
    "wfi",
    "sfence.vma",
    "hfence.vvma",
    "hfence.gvma",
    "hlv 2 1 8",
    "hlvx 8 8",
    "hsv 4 8 5",
];

#[test]
fn a_word_has_at_most_32_bits() {
    for line in WITH_WORD {
        assert!(is_bad(line.as_bytes()), "{line}");
        for (word, parsed) in [
            ("0", 0),
            ("ffffffff", u32::MAX),
            ("FFFFFFFF", u32::MAX),
            ("00000000ffffffff", u32::MAX),
            ("0000000080000000", 1 << 31),
            ("10500073", 0x1050_0073),
        ] {
            let found = parse(format!("{line} {word}").as_bytes()).unwrap();
            assert_eq!(found.and_then(|line| line.word()), Some(parsed), "{line}");
        }
        for word in [
            "100000000",
            "180000000",
            "8000000000000000",
            "ffffffffffffffff",
            "00000000000000000",
            "0x73",
            "x",
            "0 0",
        ] {
            assert!(is_bad(format!("{line} {word}").as_bytes()), "{line} {word}");
        }
    }
}

#[test]
fn the_other_lines_have_no_word() {
    for line in [
        "ecall",
        "ebreak",
        "interrupt",
        "show",
        "fetch 0 4",
        "load 0 8",
        "store 0 8",
        "start store 0 8",
        "press",
        "trap 2 0 0 0 0",
    ] {
        let parsed = parse(line.as_bytes()).unwrap().unwrap();
        assert_eq!(parsed.word(), None);
        assert!(is_bad(format!("{line} 73").as_bytes()), "{line}");
    }
    // The WORD of a trap request is another one: any number, which the model answers.
    assert_eq!(good("trap 15 0 0 ffffffffffffffff 1"), "ok\n");
    assert_eq!(good("trap 2 0 0 100000000 0"), "refused 4\n");
}

/// "Causes 2 and 22 raised by a register access, return, WFI or fence carry the 32-bit instruction word as the value": each of
/// these lines where it traps, into each tval that it can go to, and into no other register.
#[test]
fn the_word_of_a_line_that_traps_is_in_tval() {
    // The tval of M, HS and VS, and what delegates to them.
    let targets = [
        ("343", ""),
        ("143", "reg 302 400004\n"),
        ("243", "reg 302 4\nreg 602 4\n"),
    ];
    // A hart, lines that trap in it, and to how many of these they can go: cause 2 in U, 22 in VU, 2 in VS.
    for (hart, lines, count) in [
        ("hart 0 0 0\n", &WITH_WORD[..13], 2),
        ("hart 0 0 0\n", &["hlvx 2 1", "hlvx 4 8", "hsv 4 8 5"], 2),
        (
            "hart 1 0 0\n",
            &[
                "read 600",
                "write 100 0",
                "set 200 0 0",
                "clear 680 0 1",
                "sret",
                "wfi",
                "sfence.vma",
                "hfence.vvma",
                "hfence.gvma",
                "hlv 8 0 0",
                "hlvx 2 0",
                "hsv 1 0 0",
            ],
            2,
        ),
        (
            "hart 1 1 0\nreg 600 200000300\n",
            &["hlv 8 0 3", "hlvx 2 0", "hsv 1 0 0"],
            2,
        ),
        (
            "hart 1 1 0\nreg 300 a00200000\n",
            &[
                "read 300",
                "write e12 0",
                "set 0 0 1",
                "clear 340 0 0",
                "mret",
                "wfi",
            ],
            3,
        ),
    ] {
        for line in lines {
            for (number, delegation) in &targets[..count] {
                for word in ["80000000", "ffffffff", "deadbeef"] {
                    let output = good(&format!("{hart}{delegation}{line} {word}\nshow"));
                    let mut holding = output.lines().filter(|line| line.ends_with(word));
                    let tval = format!("reg {number} {word}");
                    assert_eq!(holding.next(), Some(tval.as_str()), "{hart}{line}");
                    assert_eq!(holding.next(), None, "{hart}{line}");
                }
            }
        }
    }
}

#[test]
fn an_interrupt_answers_ok_or_refused_2() {
    // None is due: the hart stays as it was, pc too.
    let before = good("hart 1 1 40\nshow");
    let after = good("hart 1 1 40\ninterrupt\nshow");
    assert_eq!(after, format!("ok\n{before}"));
    // One is taken.
    assert_eq!(
        good("hart 1 1 40\nreg 305 1000\nreg 304 80\nreg 344 80\ninterrupt\nread 342 0\nread 341 0\nread 344 0"),
        "ok\nvalue 8000000000000007\nvalue 40\nvalue 80\n"
    );
    // The hart is refused.
    let refused = good("hart 0 3 2\nshow");
    assert_eq!(
        good("hart 0 3 2\ninterrupt\nshow"),
        format!("refused 2\n{refused}")
    );
}

/// The answers of hypervisor loads and stores, with their lists, and the image that a store leaves to the next event.
#[test]
fn hypervisor_loads_and_stores_answer() {
    let scene = "image 80000000 1000\nput 80000000 200000df\nput 80000100 8899aabbccddeeff\n\
        hart 0 1 40\nreg 305 3000\nreg 280 8000000000080000\n";
    let listed = "read 1 2 80000000 200000df\n";
    for (line, answer) in [
        ("hlv 1 1 100 0", "value ffffffffffffffff"),
        ("hlv 1 0 101 0", "value ee"),
        ("hlv 2 1 102 0", "value ffffffffffffccdd"),
        ("hlv 4 0 104 0", "value 8899aabb"),
        ("hlv 8 1 100 0", "value 8899aabbccddeeff"),
        ("hlvx 2 106 0", "value 8899"),
        ("hlvx 4 100 0", "value ccddeeff"),
        ("hsv 4 100 123456789 0", "ok"),
    ] {
        assert_eq!(
            good(&format!("{scene}{line}\nread 141 0")),
            format!("{answer}\n{listed}value 0\n"),
            "{line}"
        );
    }
    // Trapped: 0 or ok, and the list as far as it came; misaligned or refused: none.
    for (line, answer) in [
        ("hlv 8 0 1000 0", format!("value 0\n{listed}")),
        ("hlvx 4 1000 0", format!("value 0\n{listed}")),
        ("hsv 8 1000 1 0", format!("ok\n{listed}")),
        ("hlv 8 0 101 0", "value 0\n".to_string()),
        ("hsv 4 102 1 0", "ok\n".to_string()),
        ("hlv 3 0 100 0", "refused 3\n".to_string()),
        ("hlvx 8 100 0", "refused 3\n".to_string()),
        ("hsv 10 100 1 0", "refused 3\n".to_string()),
    ] {
        let output = good(&format!(
            "{scene}{line}\nhart 0 1 0\nreg 280 8000000000080000\nhlv 8 0 100 0"
        ));
        let after = format!("value 8899aabbccddeeff\n{listed}");
        assert_eq!(output, format!("{answer}{after}"), "{line}");
    }
    // What is stored stays for every later event, until a new image.
    assert_eq!(
        good(&format!("{scene}hsv 2 102 ffff5555 0\nhlv 8 0 100 0\nhsv 1 0 de 0\nhlv 1 0 100 0")),
        format!(
            "ok\n{listed}value 8899aabb5555eeff\n{listed}ok\n{listed}value 0\nread 1 2 80000000 200000de\n"
        )
    );
    assert_eq!(
        good("image 0 1000\nhsv 8 0 5 0\nhlv 8 0 0 0\nimage 0 1000\nhlv 8 0 0 0"),
        "ok\nvalue 5\nvalue 0\n"
    );
    assert_eq!(
        good("hart 0 3 2\nhsv 3 0 0 0\nimage 1 1\nhlv 1 1 0 0"),
        "refused 2\nrefused 2\n"
    );
    assert_eq!(good("image 1 1\nhsv 3 0 0 0"), "refused 1\n");
}

#[test]
fn the_known_replay_as_a_script() {
    let scene = "image 80000000 11000\nput 80004008 20002001\nput 80008000 20002401\nput 80009008 200040D7\n\
        hart 1 1 0\nreg 680 8000000000080004\n";
    assert_eq!(
        good(&format!("{scene}load 40001008 8")),
        "address 80010008\nread 2 2 80004008 20002001\nread 2 1 80008000 20002401\nread 2 0 80009008 200040d7\n"
    );
    assert!(
        good(&format!("{scene}put 80009008 200040C7\nload 40001008 8"))
            .starts_with("fault 15 40001008 10000402 0 1\n")
    );
    let other = good(&format!(
        "{scene}put 80009008 20004057\nload 40001008 8\nstore 40001008 8"
    ));
    assert!(other.starts_with("address 80010008\n"));
    assert!(other.contains("\nfault 17 40001008 10000402 0 1\n"));
}

/// The known replay, ready for its start.
const STEPS: &str =
    "image 80000000 11000\nput 80004008 20002001\nput 80008000 20002401\nput 80009008 200040d7\n\
    hart 1 1 0\nreg 680 8000000000080004\n";

/// Lines after the scene, and what each answers.
fn steps(lines: &[(&str, &str)]) {
    let script: String = lines.iter().map(|(line, _)| format!("{line}\n")).collect();
    let answers = lines.iter().filter(|(_, answer)| !answer.is_empty());
    let expected: String = answers.map(|(_, answer)| format!("{answer}\n")).collect();
    assert_eq!(good(&format!("{STEPS}{script}")), expected);
}

const ROOT_READ: (&str, &str) = ("press", "read 2 2 80004008 20002001\ngoing");
const MIDDLE_READ: (&str, &str) = ("press", "read 2 1 80008000 20002401\ngoing");
const LEAF_READ: (&str, &str) = ("press", "read 2 0 80009008 200040d7\naddress 80010008");

#[test]
fn starts_and_presses_answer() {
    let again = ("press", "address 80010008");
    let start = ("start load 40001008 8", "going");
    steps(&[
        start,
        ROOT_READ,
        MIDDLE_READ,
        LEAF_READ,
        again,
        again,
        start,
        ROOT_READ,
    ]);
    // The last entry settles a fault.
    let fault = "fault 15 40001008 10000402 0 1";
    let leaf = format!("read 2 0 80009008 200040c7\n{fault}");
    steps(&[
        ("put 80009008 200040c7", ""),
        start,
        ROOT_READ,
        MIDDLE_READ,
        ("press", &leaf),
        ("press", fault),
    ]);
    // So does one that leads to an entry outside the image, which isn't shown.
    let outside = "fault 7 40001008 0 0 1";
    let middle = format!("read 2 1 80008000 10000001\n{outside}");
    steps(&[
        ("put 80008000 10000001", ""),
        ("start store 40001008 8", "going"),
        ROOT_READ,
        ("press", &middle),
        ("press", outside),
    ]);
}

#[test]
fn a_start_that_is_finished_at_once() {
    steps(&[
        ("start load 40001009 8", "fault 4 40001009 0 0 1"),
        ("press", "fault 4 40001009 0 0 1"),
        (
            "start fetch 20000000000 4",
            "fault 14 20000000000 8000000000 0 1",
        ),
        ("start fetch 40001008 8", "refused 3"),
        ("press", "refused 3"),
        ("reg 680 0", ""),
        ("start store 80010008 8", "address 80010008"),
        ("press", "address 80010008"),
        ("start store 0 8", "fault 7 0 0 0 1"),
        ("hart 1 3 0", ""),
        ("start load 0 3", "refused 2"),
        ("press", "refused 2"),
        ("image 1 1", ""),
        ("hart 0 3 0", ""),
        ("start load 0 3", "refused 1"),
        ("press", "refused 1"),
        ("image 0 1000", ""),
        ("press", "refused 6"),
    ]);
}

/// "The place keeps the hart it started with; later events do not touch it."
#[test]
fn a_place_keeps_its_hart() {
    steps(&[
        ("start load 40001008 8", "going"),
        ("reg 680 0", ""),
        ROOT_READ,
        ("ecall", "ok"),
        MIDDLE_READ,
        ("hart 1 3 1", ""),
        ("load 40001008 8", "refused 2"),
        LEAF_READ,
        ("press", "address 80010008"),
    ]);
}

/// "The image of a press is the script's image at that moment: `put` between presses is another image of one base and length", and so
/// is what HSV stores.
#[test]
fn the_image_of_a_press() {
    let start = ("start load 40001008 8", "going");
    steps(&[
        start,
        ROOT_READ,
        ("put 80004008 0", ""),
        ("put 80009008 200040d3", ""),
        MIDDLE_READ,
        ("hart 0 1 0", ""),
        ("hsv 1 80009008 d7 0", "ok"),
        LEAF_READ,
        ("put 80009008 0", ""),
        ("press", "address 80010008"),
    ]);
    // Another base, another length, a bad image; then one of the same base and length again, with another leaf.
    steps(&[
        start,
        ROOT_READ,
        ("image 80001000 11000", ""),
        ("press", "refused 6"),
        ("image 80000000 12000", ""),
        ("press", "refused 6"),
        ("image 80000001 12000", ""),
        ("press", "refused 1"),
        ("image 80000000 11000", ""),
        ("put 80008000 200000df", ""),
        ("press", "read 2 1 80008000 200000df\naddress 80001008"),
        ("image 80000000 10000", ""),
        ("press", "refused 6"),
        ("image 0 4001000", ""),
        ("press", "refused 1"),
        ("image 80000000 11000", ""),
        ("press", "address 80001008"),
    ]);
}

#[test]
fn a_start_replaces_the_place() {
    steps(&[
        ("start load 40001008 8", "going"),
        ROOT_READ,
        ("start store 40001008 8", "going"),
        ROOT_READ,
        MIDDLE_READ,
        ("start load 1 2", "fault 4 1 0 0 1"),
        ("press", "fault 4 1 0 0 1"),
        ("start fetch 40001008 4", "going"),
        ROOT_READ,
        MIDDLE_READ,
        (
            "press",
            "read 2 0 80009008 200040d7\nfault 14 40001008 10000402 0 1",
        ),
    ]);
}

#[test]
fn a_closed_output_is_told() {
    struct Closed;
    impl Write for Closed {
        fn write(&mut self, _: &[u8]) -> io::Result<usize> {
            Err(io::Error::from(io::ErrorKind::BrokenPipe))
        }
        fn flush(&mut self) -> io::Result<()> {
            Ok(())
        }
    }
    let mut session = Session::new(PathBuf::new());
    let trouble = run(
        &mut session,
        Writing::Answers,
        &mut &b"wfi 0\n"[..],
        &mut Closed,
    );
    assert!(matches!(trouble, Err(Trouble::Output(_))));
}
