//! Tests of what is said about words: each row of the tables, and each of its edges.

use super::*;
use crate::registers::ROWS;
use crate::script::parse;
use crate::script::tests::WITH_WORD;

/// What is said about the word of a line.
fn said(line: &str) -> String {
    let parsed = parse(line.as_bytes()).unwrap_or_else(|bad| panic!("{line}: {}", bad.0));
    let explanation = parsed.and_then(|line| Explanation::of(&line));
    explanation.map_or("nothing".to_string(), |word| word.to_string())
}

/// A word, the instruction that it is, events that it fits and some that it does not.
fn check(word: u32, instruction: &str, fitting: &[&str], others: &[&str]) {
    for event in fitting {
        let expected = format!("{word:x} is {instruction}");
        assert_eq!(said(&format!("{event} {word:x}")), expected, "{event}");
    }
    for event in others {
        let expected = format!("{word:x} does not fit: it is {instruction}");
        assert_eq!(said(&format!("{event} {word:x}")), expected, "{event}");
    }
}

const OTHER_SYSTEM: &str = "a SYSTEM instruction that the model has no event for";
const NO_SYSTEM: &str = "no SYSTEM instruction";

/// A word that fits these of the events and no other.
fn fits_alone(word: u32, instruction: &str, fitting: &[&str]) {
    let others = WITH_WORD
        .into_iter()
        .filter(|event| !fitting.contains(event));
    check(word, instruction, fitting, &others.collect::<Vec<_>>());
}

#[test]
fn instructions_that_are_one_word() {
    for (word, instruction, fitting) in [
        (0x73, "ECALL", &[][..]),
        (0x10_0073, "EBREAK", &[]),
        (0x3020_0073, "MRET", &["mret"]),
        (0x1020_0073, "SRET", &["sret"]),
        (0x1050_0073, "WFI", &["wfi"]),
    ] {
        fits_alone(word, instruction, fitting);
        // Another bit, and it is none of them.
        for bit in (7..12).chain(15..20).chain([26, 30, 31]) {
            fits_alone(word ^ (1 << bit), OTHER_SYSTEM, &[]);
        }
    }
}

#[test]
fn fences() {
    for (function, name, space, event) in [
        (0x09, "SFENCE.VMA", "ASID", "sfence.vma"),
        (0x11, "HFENCE.VVMA", "ASID", "hfence.vvma"),
        (0x31, "HFENCE.GVMA", "VMID", "hfence.gvma"),
    ] {
        let fence = function << 25 | 0x73;
        for (operands, text) in [
            (0, format!("all addresses, all {space}s")),
            (10 << 15, format!("the address in x10, all {space}s")),
            (11 << 20, format!("all addresses, the {space} in x11")),
            (
                1 << 15 | 16 << 20,
                format!("the address in x1, the {space} in x16"),
            ),
            (
                31 << 15 | 31 << 20,
                format!("the address in x31, the {space} in x31"),
            ),
        ] {
            fits_alone(fence | operands, &format!("{name}: {text}"), &[event]);
        }
        // Bits 11:7 are not 0.
        for bit in 7..12 {
            fits_alone(fence | 1 << bit, OTHER_SYSTEM, &[]);
        }
    }
    // As a register's number 120 it is no access.
    let text = "SFENCE.VMA: all addresses, all ASIDs";
    check(0x1200_0073, text, &[], &["read 120", "write 120 0"]);
    // Bits 31:25 are none of the three.
    for function in [0x01, 0x0b, 0x19, 0x39, 0x71] {
        fits_alone(function << 25 | 0x73, OTHER_SYSTEM, &[]);
    }
}

#[test]
fn writes() {
    check(
        0x1805_1073,
        "CSRRW: x10 written to satp (180), the old value to x0",
        &["write 180 5", "write 180 5000000000000000", "write 180 0"],
        &["write 280 5", "read 180", "set 180 5 1", "clear 180 5 1"],
    );
    // x0 is 0.
    check(
        0x3000_15f3,
        "CSRRW: x0 written to mstatus (300), the old value to x11",
        &["write 300 0"],
        &[
            "write 300 1",
            "write 300 8000000000000000",
            "write 301 0",
            "read 300",
            "set 300 0 0",
            "set 300 0 1",
        ],
    );
    check(
        0x300f_d573,
        "CSRRWI: 1f written to mstatus (300), the old value to x10",
        &["write 300 1f"],
        &[
            "write 300 0",
            "write 300 1e",
            "write 300 3f",
            "write 300 10000001f",
            "write 340 1f",
            "set 300 1f 1",
            "clear 300 1f 1",
        ],
    );
    check(
        0x3400_5073,
        "CSRRWI: 0 written to mscratch (340), the old value to x0",
        &["write 340 0"],
        &["write 340 1", "read 340", "set 340 0 0", "clear 340 0 0"],
    );
}

#[test]
fn sets_and_clears() {
    check(
        0x1000_a073,
        "CSRRS: the bits of x1 set in sstatus (100), the old value to x0",
        &["set 100 2 1", "set 100 0 1", "set 100 ffffffffffffffff 1"],
        &["set 100 2 0", "set 104 2 1", "clear 100 2 1", "read 100"],
    );
    check(
        0x100f_64f3,
        "CSRRSI: the bits of 1e set in sstatus (100), the old value to x9",
        &["set 100 1e 1"],
        &[
            "set 100 1e 0",
            "set 100 1f 1",
            "set 100 10000001e 1",
            "set 200 1e 1",
            "clear 100 1e 1",
            "write 100 1e",
        ],
    );
    check(
        0x600f_bff3,
        "CSRRC: the bits of x31 cleared in hstatus (600), the old value to x31",
        &["clear 600 9 1", "clear 600 0 1"],
        &["clear 600 9 0", "clear 602 9 1", "set 600 9 1", "read 600"],
    );
    check(
        0x6004_f0f3,
        "CSRRCI: the bits of 9 cleared in hstatus (600), the old value to x1",
        &["clear 600 9 1"],
        &[
            "clear 600 8 1",
            "clear 600 9 0",
            "clear 601 9 1",
            "set 600 9 1",
            "write 600 9",
        ],
    );
}

/// A set or clear of no bits reads, whatever VALUE is.
#[test]
fn reads() {
    for (word, name, own, other) in [
        (0x3000_2573, "CSRRS", "set", "clear"),
        (0x3000_6573, "CSRRSI", "set", "clear"),
        (0x3000_3573, "CSRRC", "clear", "set"),
        (0x3000_7573, "CSRRCI", "clear", "set"),
    ] {
        let text = format!("{name}: mstatus (300) read to x10");
        check(word, &text, &["read 300"], &["read 340", "sret"]);
        for value in ["0", "1", "ffffffffffffffff"] {
            check(
                word,
                &text,
                &[&format!("{own} 300 {value} 0")],
                &[
                    &format!("{own} 300 {value} 1"),
                    &format!("{own} 301 {value} 0"),
                    &format!("{other} 300 {value} 0"),
                    &format!("{other} 300 {value} 1"),
                    &format!("write 300 {value}"),
                ],
            );
        }
    }
}

/// The values of bits 14:12, with S 0 and with S 5, which is another number than VALUE: the events that fit, and no others.
#[test]
fn accesses_by_bits_14_to_12() {
    for (function, with_0, with_5) in [
        (0, &[][..], &[][..]),
        (1, &["write 300 0"], &["write 300 0"]),
        (2, &["read 300", "set 300 0 0"], &["set 300 0 1"]),
        (3, &["read 300", "clear 300 0 0"], &["clear 300 0 1"]),
        (4, &[], &[]),
        (5, &["write 300 0"], &[]),
        (6, &["read 300", "set 300 0 0"], &[]),
        (7, &["read 300", "clear 300 0 0"], &[]),
    ] {
        for (s, expected) in [(0, with_0), (5, with_5)] {
            let word = 0x3000_0073 | function << 12 | s << 15;
            let fits = |event: &&str| !said(&format!("{event} {word:x}")).contains("not fit");
            let fitting: Vec<&str> = WITH_WORD.into_iter().filter(fits).collect();
            assert_eq!(fitting, expected, "{word:x}");
        }
    }
}

/// "a register access fits only with its own N", and no word has an N over fff.
#[test]
fn another_number() {
    let (read, write) = (0x3000_2073, 0x3005_1073);
    let read_text = "CSRRS: mstatus (300) read to x0";
    let write_text = "CSRRW: x10 written to mstatus (300), the old value to x0";
    let others = (0..64).map(|bit| 0x300 ^ (1u64 << bit));
    for number in others {
        check(read, read_text, &[], &[&format!("read {number:x}")]);
        check(write, write_text, &[], &[&format!("write {number:x} 5")]);
    }
}

/// Each number with its name, and each S and D.
#[test]
fn registers_and_operands() {
    for number in 0..0x1000 {
        let row = ROWS.iter().find(|row| row.number == number);
        let register = match row {
            Some(row) => format!("{} ({number:x})", row.name),
            None => format!("register {number:x}"),
        };
        let text = format!("CSRRC: {register} read to x0");
        let word = (number as u32) << 20 | 0x3073;
        check(word, &text, &[&format!("read {number:x}")], &[]);
    }
    for s in 0..32 {
        let d = 31 - s;
        let rest = format!("written to mscratch (340), the old value to x{d}");
        let word = 0x3400_1073 | s << 15 | d << 7;
        check(word, &format!("CSRRW: x{s} {rest}"), &["write 340 0"], &[]);
        let text = format!("CSRRWI: {s:x} {rest}");
        check(word | 0x4000, &text, &[&format!("write 340 {s:x}")], &[]);
    }
}

#[test]
fn other_system_instructions() {
    for word in [
        // Bits 14:12 are 4, and it is no hypervisor load or store.
        0x3000_4073,
        0xffff_cff3,
        // They are 0, and it is none of the table.
        0x0020_0073,
        0x7020_0073,
        0x0010_0173,
        0xffff_8ff3,
    ] {
        fits_alone(word, OTHER_SYSTEM, &[]);
    }
}

/// Lines of hypervisor loads and stores, without their word: two addresses for each width, and of a store two values.
const GUEST_EVENTS: [&str; 36] = [
    "hlv 1 0 0",
    "hlv 1 0 80",
    "hlv 1 1 0",
    "hlv 1 1 80",
    "hlv 2 0 0",
    "hlv 2 0 80",
    "hlv 2 1 0",
    "hlv 2 1 80",
    "hlv 4 0 0",
    "hlv 4 0 80",
    "hlv 4 1 0",
    "hlv 4 1 80",
    "hlv 8 0 0",
    "hlv 8 0 80",
    "hlv 8 1 0",
    "hlv 8 1 80",
    "hlvx 1 0",
    "hlvx 2 0",
    "hlvx 2 80",
    "hlvx 4 0",
    "hlvx 4 80",
    "hlvx 8 0",
    "hsv 1 0 0",
    "hsv 1 0 5",
    "hsv 1 80 0",
    "hsv 1 80 5",
    "hsv 2 0 0",
    "hsv 2 80 5",
    "hsv 4 0 0",
    "hsv 4 80 5",
    "hsv 8 0 0",
    "hsv 8 0 5",
    "hsv 8 80 0",
    "hsv 8 80 5",
    "hlv 3 1 0",
    "hsv 0 0 0",
];

/// A word that fits exactly those of these and of the other events that `fits` says.
fn fits_guest(word: u32, instruction: &str, fits: impl Fn(&str) -> bool) {
    let events = GUEST_EVENTS.into_iter().chain(WITH_WORD);
    let (fitting, others): (Vec<&str>, Vec<&str>) = events.partition(|event| fits(event));
    assert!(!fitting.is_empty(), "{instruction}");
    check(word, instruction, &fitting, &others);
}

/// The bits of a hypervisor load or store.
fn guest(function: u32, t: u32, s: u32, d: u32) -> u32 {
    function << 25 | t << 20 | s << 15 | 4 << 12 | d << 7 | 0x73
}

#[test]
fn hypervisor_loads() {
    for (function, kind, name, events) in [
        (0x30, 0, "HLV.B", &["hlv 1 1 "][..]),
        (0x30, 1, "HLV.BU", &["hlv 1 0 "]),
        (0x32, 0, "HLV.H", &["hlv 2 1 "]),
        (0x32, 1, "HLV.HU", &["hlv 2 0 "]),
        (0x32, 3, "HLVX.HU", &["hlvx 2 "]),
        (0x34, 0, "HLV.W", &["hlv 4 1 "]),
        (0x34, 1, "HLV.WU", &["hlv 4 0 "]),
        (0x34, 3, "HLVX.WU", &["hlvx 4 "]),
        (0x36, 0, "HLV.D", &["hlv 8 1 ", "hlv 8 0 "]),
    ] {
        for d in [0, 1, 10, 31] {
            let begins = |event: &str| events.iter().any(|of| event.starts_with(of));
            for s in [1, 10, 16, 31] {
                let text = format!("{name}: x{d} loaded from the address in x{s}");
                fits_guest(guest(function, kind, s, d), &text, begins);
            }
            // x0 is 0.
            let text = format!("{name}: x{d} loaded from the address in x0");
            fits_guest(guest(function, kind, 0, d), &text, |event| {
                begins(event) && event.ends_with(" 0")
            });
        }
    }
    // As the manual's table has them, from x10 to x11.
    for (word, name) in [
        (0x6005_45f3, "HLV.B"),
        (0x6015_45f3, "HLV.BU"),
        (0x6405_45f3, "HLV.H"),
        (0x6415_45f3, "HLV.HU"),
        (0x6435_45f3, "HLVX.HU"),
        (0x6805_45f3, "HLV.W"),
        (0x6815_45f3, "HLV.WU"),
        (0x6835_45f3, "HLVX.WU"),
        (0x6c05_45f3, "HLV.D"),
    ] {
        let text = format!("{name}: x11 loaded from the address in x10");
        check(word, &text, &[], &["wfi", "read 640"]);
    }
}

#[test]
fn hypervisor_stores() {
    for (function, name, event) in [
        (0x31, "HSV.B", "hsv 1 "),
        (0x33, "HSV.H", "hsv 2 "),
        (0x35, "HSV.W", "hsv 4 "),
        (0x37, "HSV.D", "hsv 8 "),
    ] {
        for (t, s) in [(0, 0), (0, 10), (11, 0), (11, 10), (31, 16), (3, 31)] {
            let text = format!("{name}: x{t} stored at the address in x{s}");
            fits_guest(guest(function, t, s, 0), &text, |line| {
                let rest = line.strip_prefix(event);
                rest.is_some_and(|rest| {
                    let (address, value) = rest.split_once(' ').unwrap();
                    (s != 0 || address == "0") && (t != 0 || value == "0")
                })
            });
        }
        // Bits 11:7 are not 0.
        for bit in 7..12 {
            fits_alone(guest(function, 5, 6, 0) | 1 << bit, OTHER_SYSTEM, &[]);
        }
    }
    fits_alone(0x6eb5_4073, "HSV.D: x11 stored at the address in x10", &[]);
}

/// Of bits 14:12 being 4 with other bits 31:20 it is none of them.
#[test]
fn what_is_no_hypervisor_load_or_store() {
    for (function, kinds) in [
        (0x30, vec![0, 1]),
        (0x32, vec![0, 1, 3]),
        (0x34, vec![0, 1, 3]),
        (0x36, vec![0]),
    ] {
        for kind in (0..32).filter(|kind| !kinds.contains(kind)) {
            fits_alone(guest(function, kind, 10, 11), OTHER_SYSTEM, &[]);
        }
    }
    for function in (0..128).filter(|function| !(0x30..0x38).contains(function)) {
        fits_alone(guest(function, 0, 10, 0), OTHER_SYSTEM, &[]);
    }
    // With bits 14:12 other than 4 they are what they were.
    let text = "HFENCE.GVMA: the address in x10, all VMIDs";
    fits_alone(guest(0x31, 0, 10, 0) & !(7 << 12), text, &["hfence.gvma"]);
    let text = "CSRRW: x10 written to hip (644), the old value to x0";
    fits_alone(guest(0x32, 4, 10, 0) ^ 5 << 12, text, &[]);
}

/// Bits 6:0 are not 73.
#[test]
fn no_system_instructions() {
    for word in [0, u32::MAX, 1 << 31, 0x13, 0x3, 0x1073_0000, 0x7300] {
        fits_alone(word, NO_SYSTEM, &[]);
    }
    for word in [0x73, 0x3020_0073, 0x1200_0073, 0x3000_2073, 0x6c05_45f3] {
        for bit in 0..7 {
            fits_alone(word ^ (1 << bit), NO_SYSTEM, &[]);
        }
    }
}

#[test]
fn events_without_a_word() {
    for line in [
        "ecall",
        "ebreak",
        "interrupt",
        "show",
        "trap 2 0 0 73 0",
        "load 0 8",
        "hart 0 3 0",
    ] {
        assert_eq!(said(line), "nothing");
    }
}

/// The word is written without leading zeros, however it was read.
#[test]
fn the_word_itself() {
    assert_eq!(said("mret 0000000030200073"), "30200073 is MRET");
    let other = "abcdef does not fit: it is no SYSTEM instruction";
    assert_eq!(said("wfi 00ABCDEF"), other);
}
