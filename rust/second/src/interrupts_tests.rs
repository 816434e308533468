//! Tests of the interrupts, worked out from the request's words.

use super::*;
use crate::bits::with_bit;
use crate::hart::BadHart;
use crate::registers::{HSTATUS_GVA, MPIE, MSTATUS_GVA, SPIE, SPVP};
use crate::trap::target;

const BIT_63: u64 = 0x8000_0000_0000_0000;
const LEVELS: [Target; 3] = [Target::M, Target::Hs, Target::Vs];

/// A hart at 1000 in which nothing is pending and everything is enabled. No tvec is vectored.
fn hart(mode: Mode) -> Hart {
    let mut hart = Hart::new(0, 0, 0x1000).in_mode(mode);
    hart.mie = 0xeee;
    hart.mtvec = 0x3000;
    hart.stvec = 0x2000;
    hart.vstvec = 0x1100;
    hart
}

/// The hart with these three enable bits: mstatus.MIE, mstatus.SIE and vsstatus.SIE.
fn with_enables(mut hart: Hart, [mie, sie, vs_sie]: [bool; 3]) -> Hart {
    hart.mstatus = with_bit(with_bit(hart.mstatus, MIE, mie), SIE, sie);
    hart.vsstatus = with_bit(hart.vsstatus, SIE, vs_sie);
    hart
}

/// All eight settings of three bits.
fn three_bits() -> impl Iterator<Item = [bool; 3]> {
    (0..8).map(|setting| [setting & 1 == 1, setting & 2 == 2, setting & 4 == 4])
}

/// The hart with each of mideleg's and hideleg's three bits set as told.
fn with_delegation(mut hart: Hart, down: [bool; 3], further: [bool; 3]) -> Hart {
    for (position, on) in [1, 5, 9].into_iter().zip(down) {
        hart.mideleg = with_bit(hart.mideleg, position, on);
    }
    for (position, on) in [2, 6, 10].into_iter().zip(further) {
        hart.hideleg = with_bit(hart.hideleg, position, on);
    }
    hart
}

/// Where each number goes: 3, 7 and 11 always to M; 1, 5 and 9 to M or, by mideleg, to HS; 2, 6 and 10 to HS or, by hideleg, to VS.
fn level_by_hand(hart: &Hart, number: u32) -> Target {
    match number {
        3 | 7 | 11 => Target::M,
        1 | 5 | 9 if hart.mideleg & (1 << number) == 0 => Target::M,
        1 | 5 | 9 => Target::Hs,
        _ if hart.hideleg & (1 << number) == 0 => Target::Hs,
        _ => Target::Vs,
    }
}

/// Whether a level's interrupts are let through, by the request's table of modes.
fn passes_by_hand(level: Target, mode: Mode, [mie, sie, vs_sie]: [bool; 3]) -> bool {
    // In the order U, HS, M, VU, VS.
    let by_mode = match level {
        Target::M => [true, true, mie, true, true],
        Target::Hs => [true, sie, false, true, true],
        Target::Vs => [false, false, false, true, vs_sie],
    };
    let place = Mode::ALL.iter().position(|other| *other == mode).unwrap();
    by_mode[place]
}

/// Of the interrupts that are pending and enabled, the first that passes, by going through the levels and the order.
fn due_by_hand(hart: &Hart, mode: Mode, enables: [bool; 3]) -> Option<(u32, Target)> {
    for level in LEVELS {
        for number in [11, 3, 7, 9, 1, 5, 10, 2, 6] {
            let wanted = hart.mip & hart.mie & (1 << number) != 0;
            if wanted
                && level_by_hand(hart, number) == level
                && passes_by_hand(level, mode, enables)
            {
                return Some((number, level));
            }
        }
    }
    None
}

/// The interrupt that was taken and its level, from the event itself.
fn taken(outcome: &Outcome) -> Option<(u32, Target)> {
    match (outcome.ending, outcome.reason) {
        (Ending::Trapped(_, target), Some(Reason::Interrupt(Why::Taken(due)))) => {
            assert_eq!(due.level, target);
            assert!(due.rule.passes());
            Some((due.number, due.level))
        }
        (Ending::Done, Some(Reason::Interrupt(why))) => {
            assert!(!matches!(why, Why::Taken(_)));
            None
        }
        other => panic!("{other:?}"),
    }
}

#[test]
fn a_hart_that_fails_check_2_is_refused() {
    let mut bad = hart(Mode::U);
    bad.mip = 0x800;
    bad.pc = 0x1002;
    assert_eq!(interrupt(&bad), refused_hart(&bad, BadHart::Pc(0x1002)));
    assert_eq!(interrupt(&bad).ending, Ending::Refused(2));
    assert_eq!(interrupt(&bad).hart, bad);
    bad.pc = 0x1000;
    bad.mip = 0x1800;
    assert_eq!(interrupt(&bad).ending, Ending::Refused(2), "bit 12 of mip");
    bad.mip = 0x800;
    assert_eq!(taken(&interrupt(&bad)), Some((11, Target::M)));
}

#[test]
fn none_is_pending() {
    for mode in Mode::ALL {
        for enables in three_bits() {
            let before = with_enables(hart(mode), enables);
            let outcome = interrupt(&before);
            assert_eq!(outcome.hart, before);
            assert_eq!(outcome.ending, Ending::Done);
            assert_eq!(outcome.reason, Some(Reason::Interrupt(Why::NonePending)));
        }
    }
}

#[test]
fn none_that_is_pending_is_enabled() {
    for mode in Mode::ALL {
        for (mie, mip) in [(0, 0xeee), (0x888, 0x666), (0x6ee, 0x800)] {
            let mut before = with_enables(hart(mode), [true; 3]);
            [before.mie, before.mip] = [mie, mip];
            let outcome = interrupt(&before);
            assert_eq!(outcome.hart, before);
            assert_eq!(outcome.ending, Ending::Done);
            assert_eq!(outcome.reason, Some(Reason::Interrupt(Why::NoneEnabled)));
        }
    }
}

/// Each interrupt alone: in each mode, with each delegation and each setting of the enable bits.
#[test]
fn each_interrupt_alone() {
    for mode in Mode::ALL {
        for enables in three_bits() {
            for delegated in [false, true] {
                for number in ORDER {
                    let before = with_enables(hart(mode), enables);
                    let mut before = with_delegation(before, [delegated; 3], [delegated; 3]);
                    before.mip = 1 << number;
                    before.mie = 1 << number;
                    let level = level_by_hand(&before, number);
                    let passes = passes_by_hand(level, mode, enables);
                    let outcome = interrupt(&before);
                    assert_eq!(taken(&outcome), passes.then_some((number, level)));
                    assert_eq!(outcome.hart != before, passes);
                    let rule = match (level, mode) {
                        (Target::M, Mode::M) => Rule::Enable(enables[0]),
                        (Target::Hs, Mode::Hs) => Rule::Enable(enables[1]),
                        (Target::Vs, Mode::Vs) => Rule::Enable(enables[2]),
                        _ if passes => Rule::Always(mode),
                        _ => Rule::Never(mode),
                    };
                    let found = Interrupt {
                        number,
                        level,
                        rule,
                    };
                    let why = match passes {
                        true => Why::Taken(found),
                        false => Why::Waits(found),
                    };
                    assert_eq!(outcome.reason, Some(Reason::Interrupt(why)));
                }
            }
        }
    }
}

/// All pairs, in each mode, with each delegation and each setting of the enable bits.
#[test]
fn the_first_of_two_is_taken() {
    for mode in Mode::ALL {
        for enables in three_bits() {
            for down in three_bits() {
                for further in three_bits() {
                    let scene = with_enables(hart(mode), enables);
                    let scene = with_delegation(scene, down, further);
                    for one in ORDER {
                        for other in ORDER {
                            let mut before = scene;
                            before.mip = (1 << one) | (1 << other);
                            let expected = due_by_hand(&before, mode, enables);
                            let found = match decide(&before, mode) {
                                Why::Taken(due) => Some((due.number, due.level)),
                                _ => None,
                            };
                            assert_eq!(found, expected, "{mode:?} {before:x?}");
                        }
                    }
                }
            }
        }
    }
}

/// With all nine pending and each taken one cleared in turn, they come by level and then in the manual's order.
#[test]
fn all_nine_one_after_the_other() {
    for (mode, down, further, expected) in [
        // 1, 5 and 9 stay with M; 2, 6 and 10 are HS's.
        (
            Mode::U,
            [false; 3],
            [false; 3],
            &[11, 3, 7, 9, 1, 5, 10, 2, 6][..],
        ),
        // 9 goes to HS, behind M's 1 and 5 and before HS's 10 and 6; 2 goes to VS, where U does not take it.
        (
            Mode::U,
            [false, false, true],
            [true, false, false],
            &[11, 3, 7, 1, 5, 9, 10, 6],
        ),
        // The same in VU, where 2 comes last.
        (
            Mode::Vu,
            [false, false, true],
            [true, false, false],
            &[11, 3, 7, 1, 5, 9, 10, 6, 2],
        ),
        // 10 goes to VS, behind HS's 2 and 6.
        (
            Mode::Vs,
            [true; 3],
            [false, false, true],
            &[11, 3, 7, 9, 1, 5, 2, 6, 10],
        ),
        // In M nothing but M's.
        (Mode::M, [true, false, true], [false; 3], &[11, 3, 7, 5]),
    ] {
        let mut before = with_delegation(hart(mode), down, further);
        before = with_enables(before, [true; 3]);
        before.mip = 0xeee;
        let mut found = Vec::new();
        while let Some((number, _)) = taken(&interrupt(&before)) {
            found.push(number);
            before.mip &= !(1 << number);
        }
        assert_eq!(found, expected, "{mode:?}");
    }
}

/// One that is pending or enabled alone does not keep another from being taken.
#[test]
fn pending_and_enabled_are_both_needed() {
    let mut before = hart(Mode::Hs);
    [before.mip, before.mie] = [0x880, 0x088];
    assert_eq!(taken(&interrupt(&before)), Some((7, Target::M)));
}

/// The one that is said to wait is the first by level, then in the order.
#[test]
fn the_first_that_waits() {
    for (mode, mip, mideleg, hideleg, number, level, rule) in [
        (
            Mode::M,
            0x44c,
            0x444,
            0x444,
            3,
            Target::M,
            Rule::Enable(false),
        ),
        (
            Mode::M,
            0x666,
            0x666,
            0x444,
            9,
            Target::Hs,
            Rule::Never(Mode::M),
        ),
        (
            Mode::Hs,
            0x464,
            0x666,
            0x404,
            5,
            Target::Hs,
            Rule::Enable(false),
        ),
        (
            Mode::U,
            0x044,
            0x444,
            0x444,
            2,
            Target::Vs,
            Rule::Never(Mode::U),
        ),
        (
            Mode::Vs,
            0x440,
            0x444,
            0x444,
            10,
            Target::Vs,
            Rule::Enable(false),
        ),
    ] {
        let mut before = hart(mode);
        [before.mip, before.mideleg, before.hideleg] = [mip, mideleg, hideleg];
        let expected = Why::Waits(Interrupt {
            number,
            level,
            rule,
        });
        assert_eq!(decide(&before, mode), expected);
    }
}

#[test]
fn into_m_it_writes_these_and_nothing_else() {
    for mode in Mode::ALL {
        for mie in [false, true] {
            if mode == Mode::M && !mie {
                continue;
            }
            for number in [11, 3, 7, 9, 1, 5] {
                let mut before = hart(mode);
                before.mip = 1 << number;
                before.mstatus = with_bit(before.mstatus, MIE, mie);
                before.mstatus = with_bit(before.mstatus, MPIE, !mie);
                before.mstatus = with_bit(before.mstatus, MSTATUS_GVA, true);
                [before.mtval, before.mtval2, before.mtinst] = [1, 2, 3];
                let mut expected = before;
                expected.v = 0;
                expected.privilege = 3;
                expected.pc = 0x3000;
                expected.mepc = 0x1000;
                expected.mcause = BIT_63 + number;
                [expected.mtval, expected.mtval2, expected.mtinst] = [0, 0, 0];
                expected.mstatus = 0xa_0000_0000
                    | (u64::from(mode.v()) << 39)
                    | (mode.privilege() << 11)
                    | (u64::from(mie) << 7);
                assert_eq!(interrupt(&before).hart, expected);
            }
        }
    }
}

/// SPVP is written from VU and VS and kept from U and HS, as by a trap.
#[test]
fn into_hs_it_writes_these_and_nothing_else() {
    for mode in [Mode::U, Mode::Hs, Mode::Vu, Mode::Vs] {
        for sie in [false, true] {
            if mode == Mode::Hs && !sie {
                continue;
            }
            for spvp in [false, true] {
                for number in [9, 1, 5, 10, 2, 6] {
                    let mut before = hart(mode);
                    before.mideleg = 0x666;
                    before.mip = 1 << number;
                    before.mstatus = with_bit(before.mstatus, SIE, sie);
                    before.mstatus = with_bit(before.mstatus, SPIE, !sie);
                    before.hstatus = with_bit(before.hstatus, SPVP, spvp);
                    before.hstatus = with_bit(before.hstatus, HSTATUS_GVA, true);
                    [before.stval, before.htval, before.htinst] = [1, 2, 3];
                    let supervisor = matches!(mode, Mode::Hs | Mode::Vs);
                    let mut expected = before;
                    expected.v = 0;
                    expected.privilege = 1;
                    expected.pc = 0x2000;
                    expected.sepc = 0x1000;
                    expected.scause = BIT_63 + number;
                    [expected.stval, expected.htval, expected.htinst] = [0, 0, 0];
                    expected.mstatus =
                        0xa_0000_0000 | (u64::from(supervisor) << 8) | (u64::from(sie) << 5);
                    let new_spvp = if mode.v() { supervisor } else { spvp };
                    expected.hstatus =
                        0x2_0000_0000 | (u64::from(mode.v()) << 7) | (u64::from(new_spvp) << 8);
                    assert_eq!(interrupt(&before).hart, expected);
                }
            }
        }
    }
}

/// "Into VS, causes 10, 2, 6 are written as 9, 1, 5 with the interrupt bit set."
#[test]
fn into_vs_it_writes_these_and_nothing_else() {
    for mode in [Mode::Vu, Mode::Vs] {
        for sie in [false, true] {
            if mode == Mode::Vs && !sie {
                continue;
            }
            for (number, cause) in [(10, BIT_63 + 9), (2, BIT_63 + 1), (6, BIT_63 + 5)] {
                let mut before = hart(mode);
                before.hideleg = 0x444;
                before.mip = 1 << number;
                before.vsstatus = with_bit(before.vsstatus, SIE, sie);
                before.vsstatus = with_bit(before.vsstatus, SPIE, !sie);
                before.vstval = 1;
                let mut expected = before;
                expected.privilege = 1;
                expected.pc = 0x1100;
                expected.vsepc = 0x1000;
                expected.vscause = cause;
                expected.vstval = 0;
                expected.vsstatus =
                    0x2_0000_0000 | (u64::from(mode == Mode::Vs) << 8) | (u64::from(sie) << 5);
                let outcome = interrupt(&before);
                assert_eq!(outcome.hart, expected);
                assert_eq!(
                    outcome.ending,
                    Ending::Trapped(Trap::plain(cause), Target::Vs)
                );
                assert_eq!(taken(&outcome), Some((number, Target::Vs)));
            }
        }
    }
}

/// "Vectored tvec now adds 4 times the written cause, wrapping, for interrupts only."
#[test]
fn a_vectored_tvec_adds_4_times_the_written_cause() {
    let from_vu = |mip, tvec| {
        let mut before = hart(Mode::Vu);
        [before.mideleg, before.hideleg] = [0x666, 0x444];
        before.mip = mip;
        [before.mtvec, before.stvec, before.vstvec] = [tvec; 3];
        assert!(before.checked_mode().is_some());
        interrupt(&before).hart.pc
    };
    for (mip, tvec, pc) in [
        (0x800, 0x3001, 0x302c),
        (0x008, 0x3001, 0x300c),
        (0x080, 0x3001, 0x301c),
        (0x200, 0x3001, 0x3024),
        (0x002, 0x3001, 0x3004),
        (0x020, 0x3001, 0x3014),
        // VS's, by what is written: 9, 1 and 5.
        (0x400, 0x3001, 0x3024),
        (0x004, 0x3001, 0x3004),
        (0x040, 0x3001, 0x3014),
        // Not vectored.
        (0x800, 0x3000, 0x3000),
        (0x200, 0x3000, 0x3000),
        (0x400, 0x3000, 0x3000),
        // Wrapping.
        (0x800, 0xffff_ffff_ffff_fff1, 0x1c),
        (0x200, 0xffff_ffff_ffff_fffd, 0x20),
        (0x400, 0xffff_ffff_ffff_fffd, 0x20),
        (0x004, 0xffff_ffff_ffff_fffd, 0),
        (0x004, 0xffff_ffff_ffff_fff9, 0xffff_ffff_ffff_fffc),
    ] {
        assert_eq!(from_vu(mip, tvec), pc, "{mip:x} {tvec:x}");
    }
    // Into HS, 10, 2 and 6 keep their numbers.
    let mut before = hart(Mode::U);
    before.stvec = 0x3001;
    before.mip = 0x400;
    assert_eq!(interrupt(&before).hart.pc, 0x3028);
}

/// Exceptions' delegation registers have no say in an interrupt, and the other way round.
#[test]
fn medeleg_and_hedeleg_have_no_say() {
    let mut before = hart(Mode::Vu);
    before.mip = 0x800;
    [before.medeleg, before.hedeleg] = [0xf0_b7ff, 0xb1ff];
    assert_eq!(taken(&interrupt(&before)), Some((11, Target::M)));
    before.mip = 0x002;
    assert_eq!(taken(&interrupt(&before)), Some((1, Target::M)));
    [before.medeleg, before.hedeleg] = [0, 0];
    [before.mideleg, before.hideleg] = [0x666, 0x444];
    assert_eq!(taken(&interrupt(&before)), Some((1, Target::Hs)));
    assert_eq!(target(&before, Mode::Vu, 9), Target::M);
}

/// mip is not changed by taking one: taken into M with MIE=0 it waits, and is due again after MRET.
#[test]
fn a_taken_interrupt_stays_pending() {
    let mut before = hart(Mode::Vs);
    before.mip = 0x80;
    let outcome = interrupt(&before);
    assert_eq!(outcome.hart.mip, 0x80);
    let waiting = interrupt(&outcome.hart);
    assert_eq!((taken(&waiting), waiting.hart), (None, outcome.hart));
    let back = crate::returns::mret(&outcome.hart, 0).hart;
    assert_eq!((back.pc, back.checked_mode()), (0x1000, Some(Mode::Vs)));
    assert_eq!(taken(&interrupt(&back)), Some((7, Target::M)));
}
