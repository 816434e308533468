//! Tests of the reasons: each text once, by scripts whose last line has it.

use std::path::PathBuf;

use super::*;
use crate::script::{parse, run, Answer, Bad, Line, Session, Writing};
use crate::stepping::{press, start};
use crate::walk::{Access, PLACES};

/// The reason of the last line of a script, whose lines are separated by `;`. That of a translation is also the second engine's.
fn why(script: &str) -> String {
    let mut session = Session::new(PathBuf::new());
    let mut last = Answer::Nothing;
    for line in script.split(';') {
        let told = |Bad(why)| format!("{line:?} of {script:?}: {why}");
        if let Some(parsed) = parse(line.as_bytes()).map_err(told).unwrap() {
            last = session.perform(&parsed).map_err(told).unwrap();
            if let Line::Translate(access) = parsed {
                assert_eq!(why_by_presses(&session, &access), last.reason(), "{script}");
            }
        }
    }
    let reason = last.reason();
    reason.map_or("none".to_string(), |reason| reason.to_string())
}

/// The reason of an access by a start and presses.
fn why_by_presses(session: &Session, access: &Access) -> Option<Reason> {
    let image = &session.image;
    let place = start(&session.hart, image, access);
    let last = (0..PLACES).fold(place, |place, _| press(&place, image).place);
    assert!(last.end().is_some());
    last.reason()
}

fn check(cases: &[(&str, &str)]) {
    for (script, expected) in cases {
        assert_eq!(why(script), *expected, "{script}");
    }
}

#[test]
fn a_hart_is_refused() {
    check(&[
        (
            "hart 1 3 0;wfi 0",
            "V 1 and privilege 3 are none of the five modes",
        ),
        (
            "hart ffffffffffffffff 12 1;wfi 0",
            "V ffffffffffffffff and privilege 12 are none of the five modes",
        ),
        ("hart 0 1 6;ecall", "pc 6 is not a multiple of 4"),
        (
            "hart 0 1 0;reg 300 a00020000;ebreak",
            "mstatus (300): MPRV is 1; outside M it may hold 0",
        ),
        (
            "reg 300 a00001000;read 300 0",
            "mstatus (300): MPP is 2; it may hold 0, 1 or 3",
        ),
        (
            "reg 300 900000000;mret 0",
            "mstatus (300): UXL is 1; it may hold 2",
        ),
        (
            "reg 300 e00000000;sret 0",
            "mstatus (300): SXL is 3; it may hold 2",
        ),
        (
            "reg 200 0;load 0 8",
            "vsstatus (200): UXL is 0; it may hold 2",
        ),
        (
            "reg 600 0;trap 3 0 0 0 0",
            "hstatus (600): VSXL is 0; it may hold 2",
        ),
        (
            "reg 180 ffffffffffffffff;sfence.vma 0",
            "satp (180): MODE is f; it may hold 0, 8, 9 or a",
        ),
        (
            "reg 280 b000000000000000;hfence.vvma 0",
            "vsatp (280): MODE is b; it may hold 0, 8, 9 or a",
        ),
        (
            "reg 680 1000000000000000;hfence.gvma 0",
            "hgatp (680): MODE is 1; it may hold 0, 8, 9 or a",
        ),
        (
            "reg 34a 1;reg 305 7;wfi 0",
            "mtvec (305): bit 1 is 1; it may hold 0",
        ),
        (
            "reg 602 8000000000000200;reg 680 3;write 0 0 0",
            "hedeleg (602): bit 9 is 1; it may hold 0",
        ),
        (
            "reg 303 0;interrupt",
            "mideleg (303): bit 2 is 0; it may hold 1",
        ),
        (
            "reg 303 404;wfi 0",
            "mideleg (303): bit 6 is 0; it may hold 1",
        ),
        (
            "reg 303 3ff;wfi 0",
            "mideleg (303): bit 0 is 1; it may hold 0",
        ),
        (
            "reg 303 266;wfi 0",
            "mideleg (303): bit 10 is 0; it may hold 1",
        ),
        (
            "reg 303 1444;reg 304 1;wfi 0",
            "mideleg (303): bit 12 is 1; it may hold 0",
        ),
        (
            "reg 304 1eee;reg 344 1;wfi 0",
            "mie (304): bit 12 is 1; it may hold 0",
        ),
        (
            "reg 344 8000000000000000;interrupt",
            "mip (344): bit 63 is 1; it may hold 0",
        ),
        (
            "reg 603 2;reg 643 1;read 0 0",
            "hideleg (603): bit 1 is 1; it may hold 0",
        ),
    ]);
}

/// Every reason that an interrupt can have: by mode, level and the three enable bits.
#[test]
fn an_interrupt_is_taken_or_none_is_due() {
    let modes = [
        ("0 0", "U"),
        ("0 1", "HS"),
        ("0 3", "M"),
        ("1 0", "VU"),
        ("1 1", "VS"),
    ];
    // mstatus with MIE or SIE alone, vsstatus with SIE.
    let enabled = [
        "reg 300 a00000008",
        "reg 300 a00000002",
        "reg 200 200000002",
    ];
    let levels = [
        // 9 with mideleg's bit clear, 9 with it set, 10 with hideleg's bit set.
        ("reg 344 200", "9", "M, bit 9 of mideleg is 0"),
        ("reg 344 200;reg 303 644", "9", "HS, bit 9 of hideleg is 0"),
        ("reg 344 400;reg 603 400", "a", "VS, bit 10 of hideleg is 1"),
    ];
    // What is said in each mode with the level's own bit 0 and with it 1, from U to VS.
    let said = [
        [
            ["U is below M", "U is below M"],
            ["HS is below M", "HS is below M"],
            ["mstatus.MIE is 0", "mstatus.MIE is 1"],
            ["VU is below M", "VU is below M"],
            ["VS is below M", "VS is below M"],
        ],
        [
            ["U is below HS", "U is below HS"],
            ["mstatus.SIE is 0", "mstatus.SIE is 1"],
            ["M is above HS", "M is above HS"],
            ["VU is below HS", "VU is below HS"],
            ["VS is below HS", "VS is below HS"],
        ],
        [
            ["U is outside the guest", "U is outside the guest"],
            ["HS is outside the guest", "HS is outside the guest"],
            ["M is outside the guest", "M is outside the guest"],
            ["VU is below VS", "VU is below VS"],
            ["vsstatus.SIE is 0", "vsstatus.SIE is 1"],
        ],
    ];
    for (place, (registers, number, level)) in levels.into_iter().enumerate() {
        for ((mode, _), words) in modes.into_iter().zip(said[place]) {
            for (on, words) in words.into_iter().enumerate() {
                let bit = if on == 1 { enabled[place] } else { "" };
                let goes = match words.ends_with('1') || words.contains("below") {
                    true => "goes",
                    false => "would go",
                };
                assert_eq!(
                    why(&format!(
                        "hart {mode} 0;reg 304 eee;{registers};{bit};interrupt"
                    )),
                    format!("interrupt {number} {goes} to {level}; {words}")
                );
            }
        }
    }
}

#[test]
fn the_interrupt_that_is_named() {
    check(&[
        (
            "hart 0 0 0;reg 304 eee;interrupt",
            "no interrupt is pending",
        ),
        (
            "hart 0 0 0;reg 304 eec;reg 344 2;interrupt",
            "no pending interrupt is enabled",
        ),
        (
            "hart 0 0 0;reg 304 eee;reg 344 eee;interrupt",
            "interrupt b goes to M, bit 11 of mideleg is 0; U is below M",
        ),
        (
            "hart 0 1 0;reg 304 eee;reg 344 88;interrupt",
            "interrupt 3 goes to M, bit 3 of mideleg is 0; HS is below M",
        ),
        (
            "hart 1 1 0;reg 304 eee;reg 344 444;interrupt",
            "interrupt a goes to HS, bit 10 of hideleg is 0; VS is below HS",
        ),
        // HS's 6 is before VS's 2, whose bit of mip is said, not what is written.
        (
            "hart 1 0 0;reg 304 eee;reg 344 44;reg 603 4;interrupt",
            "interrupt 6 goes to HS, bit 6 of hideleg is 0; VU is below HS",
        ),
        (
            "hart 1 0 0;reg 304 4;reg 344 44;reg 603 4;interrupt",
            "interrupt 2 goes to VS, bit 2 of hideleg is 1; VU is below VS",
        ),
        // In M with MIE=0 the first by level is M's, even if HS's 9 stands before its 5 in the order.
        (
            "reg 304 eee;reg 344 220;reg 303 644;interrupt",
            "interrupt 5 would go to M, bit 5 of mideleg is 0; mstatus.MIE is 0",
        ),
        (
            "hart 0 3 2;reg 344 2;interrupt",
            "pc 2 is not a multiple of 4",
        ),
        (
            "trap 800000000000000b 0 0 0 0",
            "the model has no cause 800000000000000b",
        ),
    ]);
}

#[test]
fn an_image_is_refused() {
    check(&[
        (
            "image 1 4000001;load 0 3",
            "the image has 4000001 bytes; it may have at most 4000000",
        ),
        (
            "image 801 fff;load 0 3",
            "the image's base 801 is not a multiple of 1000",
        ),
        (
            "image 0 8;load 0 3",
            "the image's length 8 is not a multiple of 1000",
        ),
        (
            "image fffffffffffff000 2000;fetch 0 3",
            "the image ends at 10000000000001000; it may end at most at 100000000000000",
        ),
    ]);
}

#[test]
fn the_hart_comes_before_the_image_and_the_image_before_the_access() {
    check(&[
        (
            "hart 0 3 2;image 1 1;fetch 0 3",
            "pc 2 is not a multiple of 4",
        ),
        (
            "image 100000000000000 1000;fetch 0 3",
            "the image ends at 100000000001000; it may end at most at 100000000000000",
        ),
        ("hart 0 3 2;read 1000 0", "pc 2 is not a multiple of 4"),
        ("hart 0 3 2;trap e 0 0 0 0", "pc 2 is not a multiple of 4"),
    ]);
}

#[test]
fn an_access_is_refused() {
    check(&[
        ("load 0 10", "width 10 is none of 1, 2, 4 and 8"),
        ("fetch 1 0", "width 0 is none of 1, 2, 4 and 8"),
        ("fetch 1 8", "a fetch has width 4, not 8"),
        (
            "fetch fffffffffffffffe 4",
            "a fetch's address is a multiple of 4; fffffffffffffffe is not",
        ),
        ("hlv 3 0 0 0", "width 3 is none of 1, 2, 4 and 8"),
        ("hlvx 10 0 0", "width 10 is none of 1, 2, 4 and 8"),
        ("hsv 0 0 0 0", "width 0 is none of 1, 2, 4 and 8"),
        ("hlvx 1 0 0", "HLVX has width 2 or 4, not 1"),
        ("hart 1 1 0;hlvx 8 3 0", "HLVX has width 2 or 4, not 8"),
        (
            "hart 0 3 2;image 1 1;hlvx 8 3 0",
            "pc 2 is not a multiple of 4",
        ),
        (
            "hart 1 0 0;image 801 fff;hsv 3 0 0 0",
            "the image's base 801 is not a multiple of 1000",
        ),
    ]);
}

#[test]
fn a_trap_request_is_refused() {
    check(&[
        ("trap e 1 1 1 1", "the model has no cause e"),
        ("trap 8 1 1 1 1", "cause 8 arises in U and VU alone"),
        ("trap 9 1 1 1 1", "cause 9 arises in HS alone"),
        ("trap a 1 1 1 1", "cause a arises in VS alone"),
        ("hart 0 1 0;trap b 1 1 1 1", "cause b arises in M alone"),
        ("trap 16 1 1 1 1", "cause 16 arises with V=1 alone"),
        ("trap b 1f 1 1 1", "the value of cause b is 0, not 1f"),
        ("trap b 0 1 1 1", "cause b has no second value"),
        ("trap 2 1 0 1 1", "cause 2 has no instruction word"),
        ("trap 2 1 0 0 1", "cause 2 has the flag clear"),
        ("hart 1 0 0;trap 16 1 0 0 1", "cause 16 has the flag clear"),
        ("trap 17 1 1 1 0", "cause 17 has the flag set"),
        (
            "hart 1 0 0;trap f 1 0 0 0",
            "with V=1 cause f has the flag set",
        ),
        ("trap 17 1 1 1 1", "none"),
    ]);
}

#[test]
fn an_access_to_a_register_is_refused_or_traps() {
    check(&[
        ("read 1000 0", "register number 1000 is over fff"),
        ("read fff 0", "the model has no register fff"),
        ("hart 1 0 0;write e12 0 0", "hgeip (e12) is read-only"),
        ("hart 1 0 0;read e12 0", "hgeip (e12) is out of reach in VU"),
        (
            "hart 0 0 0;read 100 0",
            "sstatus (100) is out of reach in U",
        ),
        (
            "hart 0 1 0;set 34b 0 0 0",
            "mtval2 (34b) is out of reach in HS",
        ),
        (
            "hart 1 1 0;clear 280 0 1 0",
            "vsatp (280) is out of reach in VS",
        ),
        (
            "hart 0 1 0;reg 300 a00100000;read 180 0",
            "mstatus.TVM is 1",
        ),
        (
            "hart 0 1 0;reg 300 a00100000;read 680 0",
            "mstatus.TVM is 1",
        ),
        (
            "hart 1 1 0;reg 600 200100000;read 180 0",
            "hstatus.VTVM is 1",
        ),
        ("read 300 0", "none"),
        ("hart 1 1 0;read 604 0", "hie (604) is out of reach in VS"),
        ("hart 1 1 0;read 204 0", "vsie (204) is out of reach in VS"),
        (
            "hart 1 0 0;write 104 0 0",
            "sie (104) is out of reach in VU",
        ),
        ("hart 0 1 0;read 344 0", "mip (344) is out of reach in HS"),
        ("hart 0 0 0;read 607 0", "hgeie (607) is out of reach in U"),
        ("hart 1 1 0;write 144 0 0", "none"),
        ("write 607 1 0", "none"),
    ]);
}

#[test]
fn an_instruction_traps() {
    let every_bit = "reg 300 a00700000;reg 600 200700000";
    for (mode, instruction, expected) in [
        ("0 1", "mret 0", "MRET is out of reach in HS"),
        ("0 0", "sret 0", "SRET is out of reach in U"),
        ("1 0", "sret 0", "SRET is out of reach in VU"),
        ("0 1", "sret 0", "mstatus.TSR is 1"),
        ("1 1", "sret 0", "hstatus.VTSR is 1"),
        ("0 0", "wfi 0", "mstatus.TW is 1"),
        ("0 0", "sfence.vma 0", "SFENCE.VMA is out of reach in U"),
        ("0 1", "sfence.vma 0", "mstatus.TVM is 1"),
        ("1 1", "sfence.vma 0", "hstatus.VTVM is 1"),
        ("1 1", "hfence.vvma 0", "HFENCE.VVMA is out of reach in VS"),
        ("1 0", "hfence.gvma 0", "HFENCE.GVMA is out of reach in VU"),
        ("0 1", "hfence.gvma 0", "mstatus.TVM is 1"),
        ("0 1", "hfence.vvma 0", "none"),
        ("0 3", "wfi 0", "none"),
        ("1 1", "ecall", "none"),
        ("1 1", "ebreak", "none"),
        ("1 1", "trap 2 0 0 0 0", "none"),
    ] {
        assert_eq!(
            why(&format!("hart {mode} 0;{every_bit};{instruction}")),
            expected
        );
    }
    check(&[
        ("hart 1 0 0;wfi 0", "WFI is out of reach in VU"),
        ("hart 1 1 0;reg 600 200200000;wfi 0", "hstatus.VTW is 1"),
        ("hart 1 0 0;hlv 1 0 0 0", "HLV is out of reach in VU"),
        ("hart 1 1 0;hlv 8 1 3 0", "HLV is out of reach in VS"),
        ("hart 1 0 0;hlvx 4 0 0", "HLVX is out of reach in VU"),
        (
            "hart 1 1 0;reg 600 200000200;hlvx 2 0 0",
            "HLVX is out of reach in VS",
        ),
        ("hart 1 0 0;hsv 2 1 0 0", "HSV is out of reach in VU"),
        ("hart 1 1 0;hsv 4 0 0 0", "HSV is out of reach in VS"),
        ("hart 0 0 0;hlv 1 0 0 0", "hstatus.HU is 0"),
        ("hart 0 0 0;hlvx 4 3 0", "hstatus.HU is 0"),
        (
            "hart 0 0 0;reg 600 200000100;hsv 8 0 0 0",
            "hstatus.HU is 0",
        ),
    ]);
}

/// A hypervisor load or store: the parts of V=1, the rights in its own words, and none where it is done.
#[test]
fn a_hypervisor_access_faults() {
    let first = format!("hart 0 1 0;reg 280 {ROOT}");
    let second = format!("hart 0 3 0;reg 680 {ROOT}");
    let both = format!("hart 0 1 0;reg 280 8000000000000000;reg 680 {ROOT}");
    for (hart, entry, access, expected) in [
        (&first, "200000df", "hlv 8 1 1001 0", "the access: 1001 is not a multiple of 8"),
        (&first, "200000df", "hsv 2 3 0 0", "the access: 3 is not a multiple of 2"),
        (
            &first,
            "200000df",
            "hlvx 4 4000 0",
            "the access: 80004000 is outside the image: page 80004000 is missing",
        ),
        (
            &first,
            "0",
            "hlv 1 0 4000000000 0",
            "first stage (vsatp): bits 63:39 of 4000000000 are not all equal to bit 38",
        ),
        (&first, "0", "hlv 1 0 0 0", "first stage (vsatp), level 2: V is 0"),
        (&first, "200000cf", "hlv 1 0 0 0", "first stage (vsatp), level 2: user mode needs U"),
        (
            &first,
            "20000059",
            "hlv 1 1 0 0",
            "first stage (vsatp), level 2: a load needs R, or X with vsstatus.MXR or mstatus.MXR",
        ),
        (&first, "200000d7", "hlvx 2 0 0", "first stage (vsatp), level 2: HLVX needs X"),
        (&first, "20000053", "hsv 1 0 0 0", "first stage (vsatp), level 2: a store needs D"),
        (&first, "200000d3", "hsv 1 0 0 0", "first stage (vsatp), level 2: a store needs W"),
        (
            &first,
            "10000001",
            "hsv 8 8 0 0",
            "first stage (vsatp), level 1: the entry at 40000000 is outside the image: page 40000000 is missing",
        ),
        (
            &second,
            "0",
            "hlv 1 0 20000000000 0",
            "second stage for the access at 20000000000: bits 63:41 of 20000000000 are not all 0",
        ),
        (
            &second,
            "20000059",
            "hlv 1 0 7 0",
            "second stage for the access at 7, level 2: a load needs R, or X with mstatus.MXR",
        ),
        (&second, "200000d7", "hlvx 4 8 0", "second stage for the access at 8, level 2: HLVX needs X"),
        (&second, "200000cf", "hlvx 4 8 0", "second stage for the access at 8, level 2: the second stage needs U"),
        (&second, "200000d3", "hsv 4 8 0 0", "second stage for the access at 8, level 2: a store needs W"),
        (
            &both,
            "20000059",
            "hlvx 4 10 0",
            "second stage for the guest entry at 0, level 2: a read of a guest entry needs R",
        ),
        (&both, "0", "hsv 4 10 0 0", "second stage for the guest entry at 0, level 2: V is 0"),
        (&first, "200000df", "hlv 8 0 1000 0", "none"),
        (&second, "200000df", "hlvx 4 1000 0", "none"),
        (&second, "200000df", "hsv 4 1000 0 0", "none"),
    ] {
        let tables = format!("put 80000000 {entry}");
        assert_eq!(walked(hart, &tables, access), expected, "{access} {entry}");
    }
    let supervisor = format!("{first};reg 600 200000100");
    assert_eq!(
        walked(&supervisor, "put 80000000 200000df", "hlvx 4 0 0"),
        "first stage (vsatp), level 2: supervisor mode needs vsstatus.SUM on a U page"
    );
}

/// An image at 80000000 of four pages, in which each entry of `tables` is put.
fn walked(hart: &str, tables: &str, access: &str) -> String {
    why(&format!("image 80000000 4000;{hart};{tables};{access}"))
}

/// An Sv39 or Sv39x4 root at 80000000.
const ROOT: &str = "8000000000080000";

#[test]
fn the_access_itself_faults() {
    check(&[
        ("load 1003 4", "the access: 1003 is not a multiple of 4"),
        (
            "load 80001238 8",
            "the access: 80001238 is outside the image: page 80001000 is missing",
        ),
        (
            "image 0 1000;hart 1 1 0;fetch ffffffffffffffec 4",
            "the access: ffffffffffffffec is outside the image: page fffffffffffff000 is missing",
        ),
    ]);
}

#[test]
fn the_first_stage_faults() {
    let supervisor = format!("hart 0 1 0;reg 180 {ROOT}");
    let user = format!("hart 0 0 0;reg 180 {ROOT}");
    for (hart, entry, access, expected) in [
        (&supervisor, "0", "load 0 8", "V is 0"),
        (&supervisor, "5", "load 0 8", "W without R"),
        (
            &supervisor,
            "40000000000001",
            "load 0 8",
            "a bit of 63:54 is set",
        ),
        (&supervisor, "41", "load 0 8", "a pointer with A"),
        (&supervisor, "81", "load 0 8", "a pointer with D"),
        (&supervisor, "11", "load 0 8", "a pointer with U"),
        (&supervisor, "47", "load 0 8", "none"),
        (
            &supervisor,
            "407",
            "load 0 8",
            "a large leaf whose low PPN is not 0",
        ),
        (&supervisor, "7", "load 0 8", "A is 0"),
        (&supervisor, "47", "store 0 8", "a store needs D"),
        (&user, "c7", "store 0 8", "user mode needs U"),
        (
            &supervisor,
            "df",
            "fetch 0 4",
            "supervisor mode may not fetch from a U page",
        ),
        (
            &supervisor,
            "df",
            "store 0 8",
            "supervisor mode needs mstatus.SUM on a U page",
        ),
        (
            &supervisor,
            "c9",
            "load 0 8",
            "a load needs R, or X with mstatus.MXR",
        ),
        (&supervisor, "c3", "store 0 8", "a store needs W"),
        (&supervisor, "c7", "fetch 0 4", "a fetch needs X"),
    ] {
        // The page of such a leaf begins at 0, outside the image.
        let expected = match expected {
            "none" => "the access: 0 is outside the image: page 0 is missing".to_string(),
            rule => format!("first stage (satp), level 2: {rule}"),
        };
        let text = walked(hart, &format!("put 80000000 {entry}"), access);
        assert_eq!(text, expected, "{entry} {access}");
    }
    assert_eq!(
        walked(
            &supervisor,
            "put 80000000 20000401;put 80001000 20000801",
            "load 0 1"
        ),
        "first stage (satp), level 0: V is 0"
    );
    assert_eq!(
        walked(
            &supervisor,
            "put 80000000 20000401;put 80001000 20000801;put 80002ff8 1",
            "load 1ff000 1"
        ),
        "first stage (satp), level 0: a pointer at level 0"
    );
    assert_eq!(
        walked(&supervisor, "put 80000000 20001401", "load 200000 1"),
        "first stage (satp), level 1: the entry at 80005008 is outside the image: page 80005000 is missing"
    );
    assert_eq!(
        walked(&supervisor, "put 80000000 0", "load 4000000000 8"),
        "first stage (satp): bits 63:39 of 4000000000 are not all equal to bit 38"
    );
}

#[test]
fn the_first_stage_of_a_guest_faults() {
    let guest = format!("hart 1 1 0;reg 280 {ROOT}");
    for (entry, access, expected) in [
        ("0", "load 0 8", ", level 2: V is 0"),
        (
            "df",
            "load 0 8",
            ", level 2: supervisor mode needs vsstatus.SUM on a U page",
        ),
        (
            "c9",
            "load 0 8",
            ", level 2: a load needs R, or X with vsstatus.MXR or mstatus.MXR",
        ),
        (
            "0",
            "load 8000000000000000 8",
            ": bits 63:39 of 8000000000000000 are not all equal to bit 38",
        ),
    ] {
        let text = walked(&guest, &format!("put 80000000 {entry}"), access);
        assert_eq!(text, format!("first stage (vsatp){expected}"));
    }
    // From M by MPRV the effective mode counts.
    let text = walked(
        &format!("hart 0 3 0;reg 300 8a00020000;reg 280 {ROOT}"),
        "put 80000000 c7",
        "load 0 8",
    );
    assert_eq!(text, "first stage (vsatp), level 2: user mode needs U");
}

#[test]
fn the_second_stage_faults() {
    let alone = format!("hart 1 1 0;reg 680 {ROOT}");
    let both = format!("{alone};reg 280 8000000000000001");
    let access = "second stage for the access at 8";
    let guest_entry = "second stage for the guest entry at 1000";
    for (hart, part, entry, expected) in [
        (&alone, access, "0", "V is 0"),
        (&alone, access, "cf", "the second stage needs U"),
        (
            &alone,
            access,
            "d9",
            "a load needs R, or X with mstatus.MXR",
        ),
        (&both, guest_entry, "0", "V is 0"),
        (&both, guest_entry, "cf", "the second stage needs U"),
        (&both, guest_entry, "d9", "a read of a guest entry needs R"),
    ] {
        let text = walked(hart, &format!("put 80000000 {entry}"), "load 8 8");
        assert_eq!(text, format!("{part}, level 2: {expected}"));
    }
    assert_eq!(
        walked(&alone, "put 80000000 0", "load 20000000008 8"),
        "second stage for the access at 20000000008: bits 63:41 of 20000000008 are not all 0"
    );
    assert_eq!(
        walked(
            &format!("{alone};reg 280 8000000020000000"),
            "put 80000000 0",
            "load 0 1"
        ),
        "second stage for the guest entry at 20000000000: bits 63:41 of 20000000000 are not all 0"
    );
    assert_eq!(
        walked(&both, "put 80000000 20001401", "load 8 8"),
        "second stage for the guest entry at 1000, level 1: \
         the entry at 80005000 is outside the image: page 80005000 is missing"
    );
    // The guest's own entry outside: the address is the machine's.
    assert_eq!(
        walked(&both, "put 80000000 100000df", "load 8 8"),
        "first stage (vsatp), level 2: the entry at 40001000 is outside the image: page 40001000 is missing"
    );
}

/// Levels and bits are those of the register's MODE.
#[test]
fn the_reasons_of_each_depth() {
    for (mode, top, first, second) in [("8", 2, 39, 41), ("9", 3, 48, 50), ("a", 4, 57, 59)] {
        let root = format!("{mode}000000000080000");
        let empty = "put 80000000 0";
        let satp = format!("hart 0 1 0;reg 180 {root}");
        let vsatp = format!("hart 1 1 0;reg 280 {root}");
        let hgatp = format!("hart 1 1 0;reg 680 {root}");
        for (hart, part) in [
            (&satp, "first stage (satp)"),
            (&vsatp, "first stage (vsatp)"),
            (&hgatp, "second stage for the access at 8"),
        ] {
            assert_eq!(
                walked(hart, empty, "load 8 8"),
                format!("{part}, level {top}: V is 0")
            );
            assert_eq!(
                walked(hart, "put 80000000 4df", "load 8 8"),
                format!("{part}, level {top}: a large leaf whose low PPN is not 0")
            );
        }
        let address = 1u64 << (first - 1);
        for (hart, part) in [(&satp, "satp"), (&vsatp, "vsatp")] {
            assert_eq!(
                walked(hart, empty, &format!("load {address:x} 8")),
                format!(
                    "first stage ({part}): bits 63:{first} of {address:x} are not all equal to bit {}",
                    first - 1
                )
            );
        }
        let address = 1u64 << second;
        assert_eq!(
            walked(&hgatp, empty, &format!("load {address:x} 8")),
            format!(
                "second stage for the access at {address:x}: bits 63:{second} of {address:x} are not all 0"
            )
        );
    }
    let both = format!(
        "hart 1 1 0;reg 680 9{};reg 280 a000004000000000",
        &ROOT[1..]
    );
    assert_eq!(
        walked(&both, "put 80000000 0", "load 0 1"),
        "second stage for the guest entry at 4000000000000: bits 63:50 of 4000000000000 are not all 0"
    );
}

/// A press has the reason of its own refusal, or that of the end, when it is settled and afterwards.
#[test]
fn a_press_is_refused_or_ended() {
    let scene = format!("image 80000000 4000;hart 0 1 0;reg 180 {ROOT};put 80000000 20000401");
    let started = format!("{scene};start load 8 8");
    let fault = "first stage (satp), level 1: V is 0";
    let bad_image = "the image's base 80000001 is not a multiple of 1000";
    let width = "width 3 is none of 1, 2, 4 and 8";
    let misaligned = "the access: 9 is not a multiple of 8";
    for (lines, expected) in [
        ("", "none"),
        (";press", "none"),
        (";press;press", fault),
        (";press;press;press", fault),
        (";press;image 80000001 4000;press", bad_image),
        (
            ";press;image 0 4000;press",
            "the image's base 0 is not 80000000, the place's",
        ),
        (
            ";press;press;image 80001000 5000;press",
            "the image's base 80001000 is not 80000000, the place's",
        ),
        (
            ";image 80000000 5000;press",
            "the image's length 5000 is not 4000, the place's",
        ),
        (
            ";press;press;image 80000000 0;press",
            "the image's length 0 is not 4000, the place's",
        ),
        (
            ";press;put 80001000 200000d1;press",
            "first stage (satp), level 1: a pointer with A",
        ),
        (";put 80000000 200000cf;press;press", "none"),
        (";start load 8 3", width),
        (";start load 8 3;press", width),
        (";start load 8 3;image 80000001 0;press", bad_image),
        (";start load 9 8", misaligned),
        (";start load 9 8;press", misaligned),
        (
            ";hart 0 1 2;start load 8 8;hart 0 1 0;press",
            "pc 2 is not a multiple of 4",
        ),
        (";image 80000001 4000;start load 8 8", bad_image),
    ] {
        assert_eq!(why(&format!("{started}{lines}")), expected, "{lines}");
    }
}

/// These arise of places that no start made.
#[test]
fn a_place_is_refused() {
    for (bad, expected) in [
        (
            BadPlace::Count {
                count: 36,
                limit: PLACES,
            },
            "the place lists 24 reads; it may list at most 23",
        ),
        (
            BadPlace::Stage(0x10),
            "the place's stage 10 is neither 1 nor 2",
        ),
        (
            BadPlace::Level {
                stage: 2,
                level: 12,
                depth: 5,
            },
            "level c of stage 2 is not below its depth 5",
        ),
    ] {
        let refusal = Refusal::Place(bad);
        assert_eq!(
            (refusal.number(), refusal.to_string().as_str()),
            (6, expected)
        );
    }
}

#[test]
fn the_reason_of_a_press_stands_behind_the_entry_shown() {
    let script = b"image 80000000 1000\nhart 0 1 0\nreg 180 8000000000080000\nstart load 0 8\npress\npress\npress 0\n";
    let mut output = Vec::new();
    let mut session = Session::new(PathBuf::new());
    run(&mut session, Writing::Reasons, &script[..], &mut output).unwrap();
    assert_eq!(
        String::from_utf8(output).unwrap(),
        "going\nread 1 2 80000000 0\nfault d 0 0 0 0\n# why: first stage (satp), level 2: V is 0\n\
         fault d 0 0 0 0\n# why: first stage (satp), level 2: V is 0\nerror 7\n"
    );
}

#[test]
fn a_word_and_a_reason_stand_behind_their_answer_and_its_reads() {
    let script = b"image 80000000 1000\nhart 0 1 0\nreg 180 8000000000080000\nload 0 8\nread 300 30002573\nwfi 73\nread 1000 0\necall\nnonsense\n";
    let written = |writing| {
        let mut output = Vec::new();
        let mut session = Session::new(PathBuf::new());
        run(&mut session, writing, &script[..], &mut output).unwrap();
        String::from_utf8(output).unwrap()
    };
    assert_eq!(
        written(Writing::Answers),
        "fault d 0 0 0 0\nread 1 2 80000000 0\nvalue 0\nok\nrefused 5\nok\nerror 9\n"
    );
    assert_eq!(
        written(Writing::Reasons),
        "fault d 0 0 0 0\nread 1 2 80000000 0\n# why: first stage (satp), level 2: V is 0\n\
         value 0\n# word: 30002573 is CSRRS: mstatus (300) read to x10\n# why: mstatus (300) is out of reach in HS\n\
         ok\n# word: 73 does not fit: it is ECALL\n\
         refused 5\n# word: 0 does not fit: it is no SYSTEM instruction\n# why: register number 1000 is over fff\n\
         ok\nerror 9\n"
    );
}
