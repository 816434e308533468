//! What `--explain` says, word for word: the examples' explanations and pictures, and lines that no example has.

mod common;

use common::written;
use std::path::{Path, PathBuf};
use std::process::Command;

fn examples() -> PathBuf {
    Path::new(env!("CARGO_MANIFEST_DIR")).join("../../examples")
}

/// The examples beside which there is a file with this ending.
fn with_ending(ending: &str) -> Vec<PathBuf> {
    let files = std::fs::read_dir(examples()).expect("the examples are read");
    let paths = files.map(|file| file.expect("a file is read").path());
    let golden = paths.filter(|path| path.extension().is_some_and(|found| found == ending));
    golden.collect()
}

fn explained(option: &str, script: &Path) -> String {
    let output = Command::new(env!("CARGO_BIN_EXE_replay"))
        .arg(option)
        .arg(script)
        .output();
    String::from_utf8(output.expect("the program ends").stdout).expect("explanations are text")
}

/// The first line that differs, with its place.
fn first_difference(one: &str, other: &str) -> Option<String> {
    let mut lines = one.lines().zip(other.lines()).enumerate();
    let differs = lines.find(|(_, (one, other))| one != other);
    match differs {
        Some((at, (one, other))) => Some(format!("line {}\n{one}\n{other}", at + 1)),
        None => (one != other).then(|| "one is longer".to_owned()),
    }
}

#[test]
fn the_examples() {
    let scripts = with_ending("replay");
    assert!(scripts.len() > 10);
    for script in scripts {
        let golden = script.with_extension("explained");
        let golden = std::fs::read_to_string(&golden).expect("every example has its explanation");
        let difference = first_difference(&explained("--explain", &script), &golden);
        assert_eq!(difference, None, "{}", script.display());
    }
}

#[test]
fn the_pictures() {
    let pictures = with_ending("tree");
    assert!(pictures.len() > 2);
    for picture in pictures {
        let golden = std::fs::read_to_string(&picture).expect("the picture is read");
        let drawn = explained("--explain=tree", &picture.with_extension("replay"));
        let difference = first_difference(&drawn, &golden);
        assert_eq!(difference, None, "{}", picture.display());
    }
}

/// The explanations of a script, without answers and the lines that quote the script.
fn all_lines(script: &str) -> Vec<String> {
    let text = written("--explain", script);
    let lines = text.lines().filter_map(|line| line.strip_prefix("# "));
    lines
        .filter(|line| !line.starts_with("line "))
        .map(str::to_owned)
        .collect()
}

/// The same without what is said about words.
fn lines(script: &str) -> Vec<String> {
    let mut lines = all_lines(script);
    lines.retain(|line| !line.starts_with("word: "));
    lines
}

#[test]
fn writes_that_are_ignored_or_not_stored() {
    assert_eq!(
        lines("reg 180 8000000000000001\nwrite 180 5000000000000000 0\n"),
        [
            "write to satp (180) in M at 0: done, on in M at 4",
            "the write is ignored: MODE is 5, it may hold 0, 8, 9 or a; satp (180) stays 8000000000000001",
        ]
    );
    assert_eq!(
        lines("reg 680 8000000000000004\nwrite 680 5000000000000009 0\n"),
        [
            "write to hgatp (680) in M at 0: done, on in M at 4",
            "hgatp (680) 8000000000000004 becomes 8000000000000008: PPN 4 (address 4000) to 8 (address 8000)",
            "MODE 5 is not stored, it may hold 0, 8, 9 or a: it keeps 8 (Sv39x4)",
            "bit 0 is not stored: it is always 0",
        ]
    );
    assert_eq!(
        lines("set 300 1000 1 0\n"),
        [
            "set of bits in mstatus (300) in M at 0: done, on in M at 4",
            "mstatus (300) stays a00000000",
            "MPP 2 is not stored, it may hold 0, 1 or 3: it keeps 0 (U)",
        ]
    );
    assert_eq!(
        lines("hart 1 1 0\nclear 100 2 1 0\nset 142 1 0 0\n"),
        [
            "clear of bits in sstatus (100), which is vsstatus (200) here, in VS at 0: done, on in VS at 4",
            "vsstatus (200) stays 200000000",
            "set of bits in scause (142), which is vscause (242) here, in VS at 4: done, on in VS at 8",
            "told not to write: it counts as a read",
            "vscause (242) 0: instruction address misaligned",
        ]
    );
}

#[test]
fn an_entry_with_w_and_not_r_is_neither_leaf_nor_pointer() {
    let script = "image 0 1000\nput 0 5\nput 8 d\nhart 0 1 0\nreg 180 8000000000000000\n";
    for (address, flags) in [("0", "V-W-----"), ("40000000", "V-WX----")] {
        let said = lines(&format!("{script}load {address} 8\n"));
        let entry = format!("{flags}, neither a leaf nor a pointer: W without R is reserved");
        assert!(said[1].ends_with(&entry), "{said:?}");
        assert_eq!(said[3], "why: first stage (satp), level 2: W without R");
    }
}

#[test]
fn a_field_that_never_changes_and_bits_by_number() {
    assert_eq!(
        lines("write 300 900000011 0\nwrite 142 d 0\n")[1..],
        [
            "mstatus (300) stays a00000000",
            "UXL 1 is not stored: it is always 2",
            "bits 4, 0 are not stored: they are always 0",
            "write to scause (142) in M at 4: done, on in M at 8",
            "scause (142) 0 becomes d: instruction address misaligned to load page fault",
        ]
    );
}

#[test]
fn a_return_says_where_it_came_from() {
    let line = |script: &str| lines(script)[1].clone();
    assert_eq!(
        line("reg 300 8a00000800\nmret 0\n"),
        "to VS: MPP was 1 and MPV 1; pc from mepc"
    );
    assert_eq!(
        line("reg 300 8a00001800\nmret 0\n"),
        "to M: MPP was 3, with which MPV (1) does not count; pc from mepc"
    );
    assert_eq!(
        line("hart 0 1 0\nreg 600 200000080\nsret 0\n"),
        "to VU: SPP was 0 and SPV 1; pc from sepc"
    );
    assert_eq!(
        line("hart 1 1 0\nreg 200 200000100\nsret 0\n"),
        "to VS: vsstatus.SPP was 1; pc from vsepc"
    );
}

#[test]
fn a_word_stands_before_the_reason_or_last() {
    assert_eq!(
        all_lines("wfi 10500073\n"),
        ["WFI in M at 0: done, on in M at 4", "word: 10500073 is WFI"]
    );
    assert_eq!(
        all_lines("hart 1 0 1000\nreg 302 400000\nreg 105 2000\nwfi 10500073\n"),
        [
            "WFI in VU at 1000: virtual instruction (16) goes to HS at 2000",
            "to HS: medeleg hands it down, hedeleg does not",
            "it wrote hstatus SPV 1, SPVP 0, GVA 0; mstatus SPP 0, SPIE 0, SIE 0; sepc 1000; scause 16; stval 10500073; htval 0; htinst 0",
            "word: 10500073 is WFI",
            "why: WFI is out of reach in VU",
        ]
    );
    assert_eq!(
        all_lines("hart 0 1 0\nwrite 340 0 34051073\n"),
        [
            "write to mscratch (340) in HS at 0: illegal instruction (2) goes to M at 0",
            "to M: medeleg does not hand it down",
            "it wrote mstatus MPV 0, MPP 1, MPIE 0, MIE 0, GVA 0; mepc 0; mcause 2; mtval 34051073; mtval2 0; mtinst 0",
            "word: 34051073 is CSRRW: x10 written to mscratch (340), the old value to x0",
            "why: mscratch (340) is out of reach in HS",
        ]
    );
    assert_eq!(
        all_lines("hart 1 0 0\nreg 302 4\nreg 602 4\nmret ffffffff\n"),
        [
            "MRET in VU at 0: illegal instruction (2) goes to VS at 0",
            "to VS: medeleg and hedeleg hand it down",
            "it wrote vsstatus SPP 0, SPIE 0, SIE 0; vsepc 0; vscause 2; vstval ffffffff",
            "word: ffffffff does not fit: it is no SYSTEM instruction",
            "why: MRET is out of reach in VU",
        ]
    );
    assert_eq!(
        all_lines("read 1000 2573\n"),
        [
            "read of register 1000, which the model does not have, in M at 0: refused as 5: no register number is that large",
            "word: 2573 does not fit: it is CSRRS: register 0 read to x10",
            "why: register number 1000 is over fff",
        ]
    );
}

#[test]
fn events_without_a_word_have_no_line_about_one() {
    let script = "ecall\nebreak\ntrap 2 0 0 0 0\ninterrupt\nload 0 8\nshow\nhart 1 1 0\ntrap 15 0 0 10500073 1\n";
    let said = all_lines(script);
    assert!(!said.iter().any(|line| line.contains("word: ")), "{said:?}");
}

#[test]
fn entries_that_lead_nowhere() {
    let script = "image 0 2000\nput 0 1401\nhart 0 1 0\nreg 180 8000000000000000\n";
    let entry = |put: &str| {
        let said = lines(&format!("{script}{put}\nload 0 8\n"));
        let (_, words) = said[said.len() - 3]
            .split_once(", entry at ")
            .unwrap_or_default();
        words.to_owned()
    };
    assert_eq!(
        entry("put 0 4cf"),
        "0: VRWX--AD, a leaf, but no 1 GiB page begins at 1000"
    );
    assert_eq!(
        entry("put 0 60000000000000cf"),
        "0: VRWX--AD with bits 62:61, a leaf: the 1 GiB page at 0"
    );
    assert_eq!(
        entry("put 0 401\nput 1000 401"),
        "1000: V-------, a pointer, where only a leaf may be"
    );
}

#[test]
fn a_hart_that_is_refused_shows_each_wrong_register() {
    let said = lines("reg 105 3\nreg 302 ffff\nshow\n");
    let line = |name: &str| said.iter().find(|line| line.starts_with(name)).cloned();
    assert_eq!(
        line("stvec").as_deref(),
        Some("stvec (105) 3: BASE 0, MODE 1 (vectored; an interrupt goes to BASE plus 4 times its cause, an exception to BASE), but bit 1 is 1, and may hold 0")
    );
    let medeleg = line("medeleg").unwrap_or_default();
    assert!(
        medeleg.ends_with("store page fault (f), but bit 11 is 1, and may hold 0"),
        "{medeleg}"
    );
}

#[test]
fn interrupt_registers_are_shown_bit_by_bit() {
    let said = lines("reg 303 646\nreg 304 eee\nreg 344 842\nreg 603 40\nshow\n");
    for line in [
        "mideleg (303) 646: hands down SSI, VSSI, VSTI, SEI, VSEI",
        "mie (304) eee: SSI, VSSI, MSI, STI, VSTI, MTI, SEI, VSEI, MEI",
        "mip (344) 842: SSI, VSTI, MEI",
        "hideleg (603) 40: hands down VSTI",
    ] {
        assert!(said.iter().any(|said| said == line), "{line}: {said:?}");
    }
    let said = lines("reg 303 40\nreg 344 1\nreg 603 2\nshow\n");
    for line in [
        "M at 0; the model refuses it as 2: mideleg (303): bit 2 is 0; it may hold 1",
        "mideleg (303) 40: hands down VSTI, but bit 2 is 0, and may hold 1",
        "mie (304) 0",
        "mip (344) 1: but bit 0 is 1, and may hold 0",
        "hideleg (603) 2: hands no interrupt down, but bit 1 is 1, and may hold 0",
    ] {
        assert!(said.iter().any(|said| said == line), "{line}: {said:?}");
    }
}

#[test]
fn harts_whose_interrupt_registers_no_write_stores() {
    for (register, content, field) in [
        ("303", "40", "mideleg (303): bit 2 is 0; it may hold 1"),
        ("303", "c4", "mideleg (303): bit 7 is 1; it may hold 0"),
        (
            "303",
            "8000000000000444",
            "mideleg (303): bit 63 is 1; it may hold 0",
        ),
        ("304", "10", "mie (304): bit 4 is 1; it may hold 0"),
        ("344", "1888", "mip (344): bit 12 is 1; it may hold 0"),
        ("603", "222", "hideleg (603): bit 1 is 1; it may hold 0"),
    ] {
        let said = lines(&format!("reg {register} {content}\ninterrupt\n"));
        assert_eq!(
            said,
            [
                "interrupt in M at 0: refused as 2: no hart can be in this state".to_owned(),
                format!("why: {field}"),
            ]
        );
    }
}

#[test]
fn bits_that_a_write_to_an_interrupt_register_leaves() {
    assert_eq!(
        lines(
            "write 303 ff 0\nreg 344 880\nwrite 344 77f 0\nreg 344 800\nclear 344 802 1 0\nwrite 607 2 0\n"
        ),
        [
            "write to mideleg (303) in M at 0: done, on in M at 4",
            "mideleg (303) 444 becomes 466: SSI 0 to 1, STI 0 to 1",
            "VSEI 0 is not stored: it is always 1",
            "bits 7, 4:3, 0 are not stored: they are always 0",
            "write to mip (344) in M at 4: done, on in M at 8",
            "mip (344) 880 becomes aa6: SSI 0 to 1, VSSI 0 to 1, STI 0 to 1, SEI 0 to 1",
            "MSI 1, MTI 0, MEI 0 are not stored: they come in with the hart",
            "VSTI 1, VSEI 1 are not stored: hvip (645) alone writes them",
            "bits 8, 4, 0 are not stored: they are always 0",
            "clear of bits in mip (344) in M at 8: done, on in M at c",
            "mip (344) stays 800",
            "MEI 0 is not stored: it comes in with the hart",
            "write to hgeie (607) in M at c: done, on in M at 10",
            "hgeie (607) stays 0",
            "bit 1 is not stored: it is always 0",
        ]
    );
}

#[test]
fn views_say_where_their_bits_are_kept_and_what_their_gate_shuts_off() {
    let script = "reg 303 466\nreg 344 600\nwrite 144 222 0\nwrite 104 222 0\nread 144 0\n";
    assert_eq!(
        lines(script),
        [
            "write to sip (144) in M at 0: done, on in M at 4",
            "sip (144) 0 becomes 2: SSI 0 to 1",
            "it is kept in mip (344): 600 becomes 602",
            "STI 1, SEI 1 are not stored: mip (344) alone writes them",
            "write to sie (104) in M at 4: done, on in M at 8",
            "sie (104) 0 becomes 22: SSI 0 to 1, STI 0 to 1",
            "it is kept in mie (304): 0 becomes 22",
            "SEI 1 is not stored: bit 9 of mideleg (303) is 0",
            "read of sip (144) in M at 8: done, on in M at c",
            "sip (144) 2: SSI",
            "SEI is not shown: bit 9 of mideleg (303) is 0",
        ]
    );
    let script =
        "hart 1 1 0\nreg 603 40\nreg 304 404\nwrite 104 222 0\nread 104 0\nset 144 22 1 0\n";
    assert_eq!(
        lines(script),
        [
            "write to sie (104), which is vsie (204) here, in VS at 0: done, on in VS at 4",
            "vsie (204) 0 becomes 20: STI 0 to 1",
            "it is kept in mie (304): 404 becomes 444, VSTI 0 to 1",
            "SSI 1, SEI 1 are not stored: bits 2, 10 of hideleg (603) are 0",
            "read of sie (104), which is vsie (204) here, in VS at 4: done, on in VS at 8",
            "vsie (204) 20: STI",
            "SSI, SEI are not shown: bits 2, 10 of hideleg (603) are 0",
            "set of bits in sip (144), which is vsip (244) here, in VS at 8: done, on in VS at c",
            "vsip (244) stays 0",
            "SSI 1 is not stored: bit 2 of hideleg (603) is 0",
            "STI 1 is not stored: hvip (645) alone writes it",
        ]
    );
    let script = "hart 0 1 0\nwrite 645 444 0\nwrite 644 0 0\nwrite 604 4 0\nwrite 100 2 0\n";
    assert_eq!(
        lines(script),
        [
            "write to hvip (645) in HS at 0: done, on in HS at 4",
            "hvip (645) 0 becomes 444: VSSI 0 to 1, VSTI 0 to 1, VSEI 0 to 1",
            "it is kept in mip (344): 0 becomes 444",
            "write to hip (644) in HS at 4: done, on in HS at 8",
            "hip (644) 444 becomes 440: VSSI 1 to 0",
            "it is kept in mip (344): 444 becomes 440",
            "VSTI 0, VSEI 0 are not stored: hvip (645) alone writes them",
            "write to hie (604) in HS at 8: done, on in HS at c",
            "hie (604) 0 becomes 4: VSSI 0 to 1",
            "it is kept in mie (304): 0 becomes 4",
            "write to sstatus (100) in HS at c: done, on in HS at 10",
            "sstatus (100) 200000000 becomes 200000002: SIE 0 to 1",
            "it is kept in mstatus (300): a00000000 becomes a00000002",
        ]
    );
}

#[test]
fn an_interrupt_says_which_why_and_where() {
    let scene = "reg 303 666\nreg 603 444\nreg 304 eee\nreg 305 2001\nreg 105 3000\nreg 205 4001\n";
    let taken = |mode: &str, more: &str| lines(&format!("hart {mode}\n{scene}{more}interrupt\n"));
    assert_eq!(
        taken("1 1 1000", "reg 344 2aa\n"),
        [
            "interrupt in VS at 1000: machine software interrupt (3) goes to M at 200c",
            "pending and enabled: supervisor software (1), machine software (3), supervisor timer (5), machine timer (7), supervisor external (9)",
            "to M: mideleg does not hand it down",
            "it comes before machine timer (7): the order is b, 3, 7, 9, 1, 5, a, 2, 6",
            "it comes before supervisor external (9), supervisor software (1), supervisor timer (5): M comes before HS, and HS before VS",
            "mtvec (305) is vectored: pc is its base 2000 plus 4 times 3",
            "it wrote mstatus MPV 1, MPP 1, MPIE 0, MIE 0, GVA 0; mepc 1000; mcause 8000000000000003; mtval 0; mtval2 0; mtinst 0",
            "why: interrupt 3 goes to M, bit 3 of mideleg is 0; VS is below M",
        ]
    );
    assert_eq!(
        taken("0 1 1000", "reg 300 a00000002\nreg 344 660\nreg 304 640\n"),
        [
            "interrupt in HS at 1000: supervisor external interrupt (9) goes to HS at 3000",
            "pending and enabled: VS timer (6), supervisor external (9), VS external (a); pending, not enabled: supervisor timer (5)",
            "to HS: mideleg hands it down, hideleg does not",
            "VS external (a), VS timer (6) would go to VS: HS is outside the guest",
            "stvec (105) is direct: pc is its base 3000",
            "it wrote hstatus SPV 0, GVA 0; mstatus SPP 1, SPIE 1, SIE 0; sepc 1000; scause 8000000000000009; stval 0; htval 0; htinst 0",
            "why: interrupt 9 goes to HS, bit 9 of hideleg is 0; mstatus.SIE is 1",
        ]
    );
    assert_eq!(
        taken("1 0 1000", "reg 344 444\n"),
        [
            "interrupt in VU at 1000: VS external interrupt (a) goes to VS at 4024",
            "pending and enabled: VS software (2), VS timer (6), VS external (a)",
            "to VS: mideleg and hideleg hand it down, as supervisor external interrupt (9)",
            "it comes before VS software (2), VS timer (6): the order is b, 3, 7, 9, 1, 5, a, 2, 6",
            "vstvec (205) is vectored: pc is its base 4000 plus 4 times 9",
            "it wrote vsstatus SPP 0, SPIE 0, SIE 0; vsepc 1000; vscause 8000000000000009; vstval 0",
            "why: interrupt a goes to VS, bit 10 of hideleg is 1; VU is below VS",
        ]
    );
}

#[test]
fn no_interrupt_says_what_waits() {
    assert_eq!(
        lines("interrupt\nreg 344 808\ninterrupt\n"),
        [
            "interrupt in M at 0: none is due, on in M at 0",
            "why: no interrupt is pending",
            "interrupt in M at 0: none is due, on in M at 0",
            "pending, not enabled: machine software (3), machine external (b)",
            "why: no pending interrupt is enabled",
        ]
    );
    let scene = "hart 0 3 40\nreg 303 646\nreg 603 4\nreg 344 666\nreg 304 266\n";
    assert_eq!(
        lines(&format!("{scene}interrupt\n")),
        [
            "interrupt in M at 40: none is due, on in M at 40",
            "pending and enabled: supervisor software (1), VS software (2), supervisor timer (5), VS timer (6), supervisor external (9); pending, not enabled: VS external (a)",
            "supervisor timer (5) would go to M: mstatus.MIE is 0",
            "supervisor external (9), supervisor software (1), VS timer (6) would go to HS: M is above HS",
            "VS software (2) would go to VS: M is outside the guest",
            "why: interrupt 5 would go to M, bit 5 of mideleg is 0; mstatus.MIE is 0",
        ]
    );
}

/// The reason of an `interrupt` in each mode, for one interrupt of each level, with the bit that may let it through clear and set.
#[test]
fn the_reasons_of_interrupts() {
    let reason = |mode: &str, scene: &str| {
        let said = lines(&format!("hart {mode} 0\n{scene}interrupt\n"));
        let why = said.last().and_then(|line| line.strip_prefix("why: "));
        why.unwrap_or_default().to_owned()
    };
    let (machine, supervisor, guest) = (
        "reg 344 80\nreg 304 80\n",
        "reg 344 40\nreg 304 40\n",
        "reg 344 40\nreg 304 40\nreg 603 40\n",
    );
    let enabled = "reg 300 a0000000a\nreg 200 200000002\n";
    for (mode, scene, clear, set) in [
        (
            "0 3",
            machine,
            "would go to M, bit 7 of mideleg is 0; mstatus.MIE is 0",
            "goes to M, bit 7 of mideleg is 0; mstatus.MIE is 1",
        ),
        (
            "0 1",
            machine,
            "goes to M, bit 7 of mideleg is 0; HS is below M",
            "",
        ),
        (
            "0 0",
            machine,
            "goes to M, bit 7 of mideleg is 0; U is below M",
            "",
        ),
        (
            "1 1",
            machine,
            "goes to M, bit 7 of mideleg is 0; VS is below M",
            "",
        ),
        (
            "1 0",
            machine,
            "goes to M, bit 7 of mideleg is 0; VU is below M",
            "",
        ),
        (
            "0 3",
            supervisor,
            "would go to HS, bit 6 of hideleg is 0; M is above HS",
            "",
        ),
        (
            "0 1",
            supervisor,
            "would go to HS, bit 6 of hideleg is 0; mstatus.SIE is 0",
            "goes to HS, bit 6 of hideleg is 0; mstatus.SIE is 1",
        ),
        (
            "0 0",
            supervisor,
            "goes to HS, bit 6 of hideleg is 0; U is below HS",
            "",
        ),
        (
            "1 1",
            supervisor,
            "goes to HS, bit 6 of hideleg is 0; VS is below HS",
            "",
        ),
        (
            "1 0",
            supervisor,
            "goes to HS, bit 6 of hideleg is 0; VU is below HS",
            "",
        ),
        (
            "0 3",
            guest,
            "would go to VS, bit 6 of hideleg is 1; M is outside the guest",
            "",
        ),
        (
            "0 1",
            guest,
            "would go to VS, bit 6 of hideleg is 1; HS is outside the guest",
            "",
        ),
        (
            "0 0",
            guest,
            "would go to VS, bit 6 of hideleg is 1; U is outside the guest",
            "",
        ),
        (
            "1 1",
            guest,
            "would go to VS, bit 6 of hideleg is 1; vsstatus.SIE is 0",
            "goes to VS, bit 6 of hideleg is 1; vsstatus.SIE is 1",
        ),
        (
            "1 0",
            guest,
            "goes to VS, bit 6 of hideleg is 1; VU is below VS",
            "",
        ),
    ] {
        let number = if scene == machine { 7 } else { 6 };
        let told = |reason: &str| format!("interrupt {number} {reason}");
        assert_eq!(reason(mode, scene), told(clear));
        let set = if set.is_empty() { clear } else { set };
        assert_eq!(reason(mode, &format!("{scene}{enabled}")), told(set));
    }
}

#[test]
fn a_cause_register_names_an_interrupt() {
    let script = "reg 342 8000000000000007\nread 342 0\nwrite 342 d 0\nwrite 342 8000000000000000 0\nreg 242 8000000000000005\nread 242 0\n";
    let said = lines(script);
    let said: Vec<&str> = said.iter().map(String::as_str).collect();
    assert_eq!(
        [said[1], said[3], said[5], said[7]],
        [
            "mcause (342) 8000000000000007: machine timer interrupt",
            "mcause (342) 8000000000000007 becomes d: machine timer interrupt to load page fault",
            "mcause (342) d becomes 8000000000000000: load page fault to no cause",
            "vscause (242) 8000000000000005: supervisor timer interrupt",
        ]
    );
}

/// A hart in HS whose guest has both stages on: leaves of 1 GiB with these rights, and two bytes at machine address 80005008.
fn guest(first: u64, second: u64) -> String {
    format!(
        "image 80000000 6000\nput 80000028 {:x}\nput 80004008 {:x}\nput 80005008 80ff\n\
         hart 0 1 1000\nreg 280 8000000000140004\nreg 680 8000000000080000\nreg 600 200000100\nreg 105 2000\nreg 302 a0a0f0\n",
        0x2000_0000 | second,
        0x5000_0000 | first
    )
}

/// What is said of an event beside the entries read for it.
fn without_entries(script: &str) -> Vec<String> {
    let mut said = lines(script);
    said.retain(|line| !line.starts_with("first stage, ") && !line.starts_with("second stage"));
    said
}

#[test]
fn a_hypervisor_load_says_what_it_reached() {
    let script = guest(0xcf, 0xdf);
    assert_eq!(
        all_lines(&format!("{script}hlv 2 1 40005008 64054573\n")),
        [
            "HLV in HS at 1000: done, on in HS at 1004",
            "load of 2 bytes at 40005008 as VS, by SPVP; both stages are on",
            "second stage for guest physical 140004008, the guest entry at level 2:",
            "second stage, level 2, entry at 80000028: VRWXU-AD, a leaf: the 1 GiB page at 80000000",
            "first stage, level 2, entry at 80004008 (guest physical 140004008): VRWX--AD, a leaf: the 1 GiB page at guest physical 140000000",
            "second stage for guest physical 140005008, the access:",
            "second stage, level 2, entry at 80000028: VRWXU-AD, a leaf: the 1 GiB page at 80000000",
            "it reaches machine address 80005008: 80ff there, sign-extended to ffffffffffff80ff",
            "word: 64054573 is HLV.H: x10 loaded from the address in x10",
        ]
    );
    let ended = |event: &str| without_entries(&format!("{script}{event}\n"))[1..].to_vec();
    assert_eq!(
        ended("hlv 1 0 40005009 0"),
        [
            "load of 1 byte at 40005009 as VS, by SPVP; both stages are on",
            "it reaches machine address 80005009: 80 there, zero-extended to 80",
        ]
    );
    assert_eq!(
        ended("hlv 8 1 40005008 0")[1],
        "it reaches machine address 80005008: 80ff there"
    );
    assert_eq!(
        ended("hlvx 4 40005008 0"),
        [
            "load of 4 bytes at 40005008 as VS, by SPVP, with X in place of R; both stages are on",
            "it reaches machine address 80005008: 80ff there, zero-extended to 80ff",
        ]
    );
}

#[test]
fn a_hypervisor_store_says_what_it_wrote_over() {
    let script = guest(0xdf, 0xdf) + "reg 600 200000000\n";
    let said = without_entries(&format!(
        "{script}hsv 2 40005008 123 0\nhsv 8 40005008 5500 0\nreg 280 0\nreg 680 0\nhsv 1 80005009 ffff 0\n"
    ));
    assert_eq!(
        said,
        [
            "HSV in HS at 1000: done, on in HS at 1004",
            "store of 2 bytes at 40005008 as VU, by SPVP; both stages are on",
            "it reaches machine address 80005008: 123 stored there, it held 80ff",
            "HSV in HS at 1004: done, on in HS at 1008",
            "store of 8 bytes at 40005008 as VU, by SPVP; both stages are on",
            "it reaches machine address 80005008: 5500 stored there, it held 123",
            "HSV in HS at 1008: done, on in HS at 100c",
            "store of 1 byte at 80005009 as VU, by SPVP; no stage is on",
            "it reaches machine address 80005009: ff stored there, it held 55",
        ]
    );
}

#[test]
fn a_hypervisor_load_that_faults_says_why_and_where_it_went() {
    assert_eq!(
        without_entries(&format!("{}hlv 8 1 40005008 0\n", guest(0xcf, 0xd9))),
        [
            "HLV in HS at 1000: load guest-page fault (15) goes to HS at 2000",
            "load of 8 bytes at 40005008 as VS, by SPVP; both stages are on",
            "load guest-page fault (15): value 40005008, second value 50001002 (a guest physical address, shifted right by 2), word 3000 (the hart's own read of a guest entry)",
            "to HS: medeleg hands it down",
            "it wrote hstatus SPV 0, GVA 1; mstatus SPP 1, SPIE 0, SIE 0; sepc 1000; scause 15; stval 40005008; htval 50001002; htinst 3000",
            "why: second stage for the guest entry at 140004008, level 2: a read of a guest entry needs R",
        ]
    );
    let in_machine_mode = guest(0xcf, 0xcf).replace("hart 0 1", "hart 0 3");
    assert_eq!(
        without_entries(&format!("{in_machine_mode}hsv 4 40005008 0 0\n")),
        [
            "HSV in M at 1000: store guest-page fault (17) goes to M at 0",
            "store of 4 bytes at 40005008 as VS, by SPVP; both stages are on",
            "store guest-page fault (17): value 40005008, second value 50001002 (a guest physical address, shifted right by 2), word 3000 (the hart's own read of a guest entry)",
            "to M: a trap from M stays there",
            "it wrote mstatus MPV 0, MPP 3, MPIE 0, MIE 0, GVA 1; mepc 1000; mcause 17; mtval 40005008; mtval2 50001002; mtinst 3000",
            "why: second stage for the guest entry at 140004008, level 2: the second stage needs U",
        ]
    );
}

/// The reasons of hypervisor loads and stores, beside those that translations have too.
#[test]
fn the_reasons_of_hypervisor_loads_and_stores() {
    let reason = |scene: &str, event: &str| {
        let said = lines(&format!("{scene}{event} 0\n"));
        let why = said.last().and_then(|line| line.strip_prefix("why: "));
        why.unwrap_or_default().to_owned()
    };
    let first = "first stage (vsatp), level 2";
    let second = "second stage for the access at 140005008, level 2";
    for (scene, event, why) in [
        (
            guest(0xc7, 0xdf),
            "hlvx 4 40005008",
            format!("{first}: HLVX needs X"),
        ),
        (
            guest(0xcf, 0xd7),
            "hlvx 4 40005008",
            format!("{second}: HLVX needs X"),
        ),
        (
            guest(0xc3, 0xd3) + "reg 300 a00080000\n",
            "hlvx 4 40005008",
            format!("{first}: HLVX needs X"),
        ),
        (
            guest(0xc9, 0xdf),
            "hlv 1 1 40005008",
            format!("{first}: a load needs R, or X with vsstatus.MXR or mstatus.MXR"),
        ),
        (
            guest(0xc9, 0xdf) + "reg 200 200080000\n",
            "hlv 1 1 40005008",
            String::new(),
        ),
        (
            guest(0xcb, 0xdf),
            "hsv 1 40005008 0",
            format!("{first}: a store needs W"),
        ),
        (
            guest(0xcf, 0x5f),
            "hsv 1 40005008 0",
            format!("{second}: a store needs D"),
        ),
        (
            guest(0xdf, 0xdf),
            "hlvx 2 40005008",
            format!("{first}: supervisor mode needs vsstatus.SUM on a U page"),
        ),
        (
            guest(0xdf, 0xdf) + "reg 300 a00040000\n",
            "hlv 2 1 40005008",
            format!("{first}: supervisor mode needs vsstatus.SUM on a U page"),
        ),
        (
            guest(0xcf, 0xdf) + "reg 600 200000000\n",
            "hsv 2 40005008 0",
            format!("{first}: user mode needs U"),
        ),
        (
            guest(0xcf, 0xdf),
            "hsv 4 40005006 0",
            "the access: 40005006 is not a multiple of 4".to_owned(),
        ),
        (
            guest(0xcf, 0xdf),
            "hlv 4 1 40006000",
            "the access: 80006000 is outside the image: page 80006000 is missing".to_owned(),
        ),
        (
            guest(0xcf, 0xdf),
            "hlvx 8 1",
            "HLVX has width 2 or 4, not 8".to_owned(),
        ),
        (
            guest(0xcf, 0xdf),
            "hlvx 0 0",
            "width 0 is none of 1, 2, 4 and 8".to_owned(),
        ),
        (
            "hart 1 1 0\n".to_owned(),
            "hlv 10 1 1",
            "width 10 is none of 1, 2, 4 and 8".to_owned(),
        ),
        (
            "hart 1 1 0\n".to_owned(),
            "hlv 8 1 1",
            "HLV is out of reach in VS".to_owned(),
        ),
        (
            "hart 1 0 0\nreg 600 200000200\n".to_owned(),
            "hlvx 4 0",
            "HLVX is out of reach in VU".to_owned(),
        ),
        (
            "hart 1 0 0\n".to_owned(),
            "hsv 4 0 0",
            "HSV is out of reach in VU".to_owned(),
        ),
        (
            "hart 0 0 0\n".to_owned(),
            "hsv 4 1 0",
            "hstatus.HU is 0".to_owned(),
        ),
        (
            "hart 0 0 0\nreg 600 200000200\n".to_owned(),
            "hlv 4 1 1",
            "the access: 1 is not a multiple of 4".to_owned(),
        ),
        (
            "hart 0 0 2\n".to_owned(),
            "hlv 3 1 1",
            "pc 2 is not a multiple of 4".to_owned(),
        ),
        (
            "image 1 0\nhart 1 0 0\n".to_owned(),
            "hsv 3 1 1",
            "the image's base 1 is not a multiple of 1000".to_owned(),
        ),
    ] {
        assert_eq!(reason(&scene, event), why, "{scene}{event}");
    }
}

#[test]
fn a_hypervisor_load_is_drawn_before_its_trap() {
    let script = guest(0xc9, 0xdf);
    let drawn = written("--explain=tree", &format!("{script}hlv 1 1 40005008 0\n"));
    let said = "\
# HLV in HS at 1000: load page fault (d) goes to HS at 2000
# load of 1 byte at 40005008 as VS, by SPVP; both stages are on
# ├─ first stage, vsatp: virtual 40005008
# │  └─ level 2: table guest physical 140004000, entry 1 at guest physical 140004008
# │     ├─ second stage, hgatp: guest physical 140004008, the guest entry
# │     │  └─ level 2: table 80000000, entry 5 at 80000028: VRWXU-AD, a leaf: the 1 GiB page at 80000000
# │     └─ machine 80004008: V--X--AD, a leaf: the 1 GiB page at guest physical 140000000; a load needs R, or X with vsstatus.MXR or mstatus.MXR
# └─ load page fault (d): value 40005008
# to HS: medeleg hands it down
# it wrote ";
    assert!(drawn.contains(said), "{drawn}");
}

#[test]
fn a_guest_entry_outside_the_image_stands_in_the_picture() {
    let script = "image 1000 4000\nhart 1 1 0\nreg 680 8000000000000004\nreg 280 8000000000000000\nput 4000 200000df\nstore 0 8\n";
    let drawn = written("--explain=tree", script);
    assert!(
        drawn.contains("└─ machine 80000000: outside the image\n"),
        "{drawn}"
    );
}

#[test]
fn a_missing_page_is_named() {
    let script = "image 1000 1000\nput 1000 2401\nhart 0 1 0\nreg 180 8000000000000001\nload 0 8\n";
    let said = lines(script);
    let why = "why: first stage (satp), level 1: the entry at 9000 is outside the image: page 9000 is missing";
    assert_eq!(said.last().map(String::as_str), Some(why));
    let said = lines("image 1000 1000\nload 2468 8\n");
    let why = "why: the access: 2468 is outside the image: page 2000 is missing";
    assert_eq!(said.last().map(String::as_str), Some(why));
}

#[test]
fn the_languages_page_shows_what_the_program_writes() {
    let page = Path::new(env!("CARGO_MANIFEST_DIR")).join("../../docs/REPLAY.md");
    let page = std::fs::read_to_string(page).expect("the page is read");
    for script in [
        "hart 1 1 1000\nreg 302 400\nreg 105 2000\necall\nwrite 180 5000000000000000 18051073\n",
        "reg 300 a00001000\nwfi 30200073\n",
        "hart 1 0 1000\nreg 205 4001\nreg 603 40\nreg 304 40\nreg 344 40\ninterrupt\n",
        "image 80000000 5000\nput 80000010 200000df\nput 80004010 80\nhart 0 1 1000\nreg 680 8000000000080000\nhlv 1 1 80004010 60054573\n",
    ] {
        let sample = format!("```text\n{}```\n", written("--explain", script));
        assert!(page.contains(&sample), "{sample}");
    }
}
