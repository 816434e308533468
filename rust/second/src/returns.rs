//! Returns: MRET and SRET. Each has its instruction word, for where it traps.

use crate::bits::{bit, with_bit};
use crate::hart::{Hart, Mode};
use crate::registers::{mpp, with_mpp, MIE, MPIE, MPRV, MPV, SIE, SPIE, SPP, SPV, TSR, VTSR};
use crate::trap::{
    done, forbidden, illegal, refused_hart, virtual_instruction, Control, Forbidden, Outcome,
    Raised,
};

/// MRET: "M only, else 2".
pub fn mret(hart: &Hart, word: u32) -> Outcome {
    let mode = match hart.check() {
        Ok(mode) => mode,
        Err(bad) => return refused_hart(hart, bad),
    };
    if mode != Mode::M {
        let raised = illegal(Forbidden::Instruction("MRET", mode));
        return forbidden(hart, mode, raised, word);
    }
    done(return_from_m(hart))
}

/// "pc = mepc, privilege = MPP, V = MPV unless MPP=3 (then 0); MIE=MPIE, MPIE=1, MPP=0, MPV=0; MPRV=0 if MPP was not 3."
fn return_from_m(hart: &Hart) -> Hart {
    let old = hart.mstatus;
    let mut after = *hart;
    after.pc = hart.mepc;
    after.mstatus = with_bit(after.mstatus, MIE, bit(old, MPIE));
    after.mstatus = with_bit(after.mstatus, MPIE, true);
    after.mstatus = with_mpp(after.mstatus, 0);
    after.mstatus = with_bit(after.mstatus, MPV, false);
    if mpp(old) != 3 {
        after.mstatus = with_bit(after.mstatus, MPRV, false);
    }
    after.in_mode(Mode::from_mpp(mpp(old), bit(old, MPV)))
}

/// SRET.
pub fn sret(hart: &Hart, word: u32) -> Outcome {
    let mode = match hart.check() {
        Ok(mode) => mode,
        Err(bad) => return refused_hart(hart, bad),
    };
    match sret_trap(hart, mode) {
        Some(raised) => forbidden(hart, mode, raised, word),
        None if mode.v() => done(return_within_guest(hart)),
        None => done(return_from_hs(hart)),
    }
}

/// "SRET with V=0: U gives 2, HS with TSR=1 gives 2"; "SRET in VU, or in VS with VTSR=1: 22".
fn sret_trap(hart: &Hart, mode: Mode) -> Option<Raised> {
    let out_of_reach = Forbidden::Instruction("SRET", mode);
    match mode {
        Mode::U => Some(illegal(out_of_reach)),
        Mode::Hs if bit(hart.mstatus, TSR) => Some(illegal(Forbidden::Bit(Control::Tsr))),
        Mode::Vu => Some(virtual_instruction(out_of_reach)),
        Mode::Vs if bit(hart.hstatus, VTSR) => {
            Some(virtual_instruction(Forbidden::Bit(Control::Vtsr)))
        }
        Mode::Hs | Mode::M | Mode::Vs => None,
    }
}

/// "else pc=sepc, V=SPV, privilege=SPP, SPV=0, SPP=0, SIE=SPIE, SPIE=1, MPRV=0."
fn return_from_hs(hart: &Hart) -> Hart {
    let mut after = *hart;
    after.pc = hart.sepc;
    after.hstatus = with_bit(after.hstatus, SPV, false);
    after.mstatus = with_bit(after.mstatus, SPP, false);
    after.mstatus = with_bit(after.mstatus, SIE, bit(hart.mstatus, SPIE));
    after.mstatus = with_bit(after.mstatus, SPIE, true);
    after.mstatus = with_bit(after.mstatus, MPRV, false);
    after.in_mode(Mode::below_machine(
        bit(hart.hstatus, SPV),
        bit(hart.mstatus, SPP),
    ))
}

/// "else as above within vsstatus and vsepc, V=1, MPRV untouched."
fn return_within_guest(hart: &Hart) -> Hart {
    let mut after = *hart;
    after.pc = hart.vsepc;
    after.vsstatus = with_bit(after.vsstatus, SPP, false);
    after.vsstatus = with_bit(after.vsstatus, SIE, bit(hart.vsstatus, SPIE));
    after.vsstatus = with_bit(after.vsstatus, SPIE, true);
    after.in_mode(Mode::below_machine(true, bit(hart.vsstatus, SPP)))
}

#[cfg(test)]
mod tests {
    use super::*;
    use crate::hart::BadHart;
    use crate::reasons::Reason;
    use crate::trap::{Ending, Trap};

    const WORD: u32 = 0x9020_00f3;

    /// MRET with that word.
    fn mret(hart: &Hart) -> Outcome {
        super::mret(hart, WORD)
    }

    /// SRET with that word.
    fn sret(hart: &Hart) -> Outcome {
        super::sret(hart, WORD)
    }

    fn cause(outcome: Outcome) -> Option<u64> {
        match outcome.ending {
            Ending::Trapped(trap, _) => {
                let value = u64::from(WORD);
                let expected = Trap {
                    value,
                    ..Trap::plain(trap.cause)
                };
                assert_eq!(trap, expected);
                assert_eq!(outcome.hart.mtval, value);
                Some(trap.cause)
            }
            Ending::Done => None,
            Ending::Refused(number) => panic!("refused {number}"),
        }
    }

    fn hart(mode: Mode) -> Hart {
        let mut hart = Hart::new(0, 0, 0x40).in_mode(mode);
        hart.mepc = 0x3330;
        hart.sepc = 0x1110;
        hart.vsepc = 0x2220;
        hart
    }

    fn mode_of(hart: &Hart) -> Mode {
        hart.checked_mode().expect("the hart passes check 2")
    }

    #[test]
    fn mret_outside_m_is_illegal_also_with_v() {
        for mode in [Mode::U, Mode::Hs, Mode::Vu, Mode::Vs] {
            let outcome = mret(&hart(mode));
            assert_eq!(cause(outcome), Some(2));
            let rule = Forbidden::Instruction("MRET", mode);
            assert_eq!(outcome.reason, Some(Reason::Forbidden(rule)));
        }
    }

    #[test]
    fn mret_follows_mpp_and_mpv() {
        for mpv in [false, true] {
            for (mpp, expected) in [
                (0, Mode::below_machine(mpv, false)),
                (1, Mode::below_machine(mpv, true)),
                (3, Mode::M),
            ] {
                for mprv in [false, true] {
                    for mpie in [false, true] {
                        let mut before = hart(Mode::M);
                        before.mstatus = with_mpp(before.mstatus, mpp);
                        before.mstatus = with_bit(before.mstatus, MPV, mpv);
                        before.mstatus = with_bit(before.mstatus, MPRV, mprv);
                        before.mstatus = with_bit(before.mstatus, MPIE, mpie);
                        before.mstatus = with_bit(before.mstatus, MIE, !mpie);
                        before.mstatus = with_bit(before.mstatus, SPP, true);
                        let outcome = mret(&before);
                        assert_eq!(outcome.ending, Ending::Done);
                        let mut after = before.in_mode(expected);
                        after.pc = 0x3330;
                        after.mstatus = 0xa_0000_0180
                            | (u64::from(mpie) << 3)
                            | (u64::from(mprv && mpp == 3) << 17);
                        assert_eq!(outcome.hart, after);
                        assert_eq!(mode_of(&outcome.hart), expected);
                    }
                }
            }
        }
    }

    #[test]
    fn known_replay_mpp_3_with_mpv_1_stays_in_m() {
        let mut before = hart(Mode::M);
        before.mstatus = with_bit(with_mpp(before.mstatus, 3), MPV, true);
        let after = mret(&before).hart;
        assert_eq!(mode_of(&after), Mode::M);
        assert!(!bit(after.mstatus, MPV));
    }

    #[test]
    fn sret_with_v_0_follows_spp_and_spv() {
        for mode in [Mode::Hs, Mode::M] {
            for spv in [false, true] {
                for spp in [false, true] {
                    for spie in [false, true] {
                        let mut before = hart(mode);
                        before.hstatus = with_bit(before.hstatus, SPV, spv);
                        before.hstatus = with_bit(before.hstatus, 8, true);
                        before.mstatus = with_bit(before.mstatus, SPP, spp);
                        before.mstatus = with_bit(before.mstatus, SPIE, spie);
                        before.mstatus = with_bit(before.mstatus, SIE, !spie);
                        before.mstatus = with_bit(before.mstatus, MPRV, mode == Mode::M);
                        before.vsstatus = with_bit(before.vsstatus, SPP, !spp);
                        let outcome = sret(&before);
                        assert_eq!(outcome.ending, Ending::Done);
                        let expected = Mode::below_machine(spv, spp);
                        let mut after = before.in_mode(expected);
                        after.pc = 0x1110;
                        after.hstatus = 0x2_0000_0100;
                        after.mstatus = 0xa_0000_0020 | (u64::from(spie) << 1);
                        assert_eq!(outcome.hart, after);
                        assert_eq!(mode_of(&outcome.hart), expected);
                    }
                }
            }
        }
    }

    #[test]
    fn sret_in_vs_stays_within_the_guest() {
        for spp in [false, true] {
            for spie in [false, true] {
                let mut before = hart(Mode::Vs);
                before.hstatus = with_bit(before.hstatus, SPV, true);
                before.mstatus = with_bit(before.mstatus, SPP, !spp);
                before.mstatus = with_bit(before.mstatus, TSR, true);
                before.vsstatus = with_bit(before.vsstatus, SPP, spp);
                before.vsstatus = with_bit(before.vsstatus, SPIE, spie);
                before.vsstatus = with_bit(before.vsstatus, SIE, !spie);
                let outcome = sret(&before);
                assert_eq!(outcome.ending, Ending::Done);
                let mut after = before.in_mode(Mode::below_machine(true, spp));
                after.pc = 0x2220;
                after.vsstatus = 0x2_0000_0020 | (u64::from(spie) << 1);
                assert_eq!(outcome.hart, after);
            }
        }
    }

    #[test]
    fn sret_traps() {
        for tsr in [false, true] {
            for vtsr in [false, true] {
                for mode in Mode::ALL {
                    let mut before = hart(mode);
                    before.mstatus = with_bit(before.mstatus, TSR, tsr);
                    before.hstatus = with_bit(before.hstatus, VTSR, vtsr);
                    let expected = match mode {
                        Mode::U => Some(2),
                        Mode::Hs => tsr.then_some(2),
                        Mode::M => None,
                        Mode::Vu => Some(22),
                        Mode::Vs => vtsr.then_some(22),
                    };
                    let outcome = sret(&before);
                    assert_eq!(cause(outcome), expected, "{mode:?} {tsr} {vtsr}");
                    let rule = match mode {
                        Mode::Hs => Forbidden::Bit(Control::Tsr),
                        Mode::Vs => Forbidden::Bit(Control::Vtsr),
                        _ => Forbidden::Instruction("SRET", mode),
                    };
                    let reason = expected.map(|_| Reason::Forbidden(rule));
                    assert_eq!(outcome.reason, reason);
                    if expected.is_some() {
                        assert_eq!(outcome.hart.mepc, 0x40);
                    }
                }
            }
        }
    }

    #[test]
    fn a_hart_that_fails_check_2_is_refused() {
        let mut bad = hart(Mode::Hs);
        bad.mstatus |= 1 << 17;
        let refused = refused_hart(&bad, BadHart::MprvOutsideM);
        assert_eq!(mret(&bad), refused);
        assert_eq!(sret(&bad), refused);
    }
}
