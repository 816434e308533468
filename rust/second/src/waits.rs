//! WFI and the fences. "WFI and fences that don't trap only move pc." Each has its instruction word, for where it traps.

use crate::bits::bit;
use crate::hart::{Hart, Mode};
use crate::registers::{TVM, TW, VTVM, VTW};
use crate::trap::{
    forbidden, illegal, only_moves_on, refused_hart, virtual_instruction, Control, Forbidden,
    Outcome, Raised,
};

/// WFI.
pub fn wfi(hart: &Hart, word: u32) -> Outcome {
    wait_or_fence(hart, word, wfi_trap)
}

/// SFENCE.VMA.
pub fn sfence_vma(hart: &Hart, word: u32) -> Outcome {
    wait_or_fence(hart, word, sfence_vma_trap)
}

/// HFENCE.VVMA.
pub fn hfence_vvma(hart: &Hart, word: u32) -> Outcome {
    wait_or_fence(hart, word, |_, mode| hfence_trap("HFENCE.VVMA", mode))
}

/// HFENCE.GVMA.
pub fn hfence_gvma(hart: &Hart, word: u32) -> Outcome {
    wait_or_fence(hart, word, hfence_gvma_trap)
}

/// The common part: check 2, then the trap that the instruction's own rule gives, else pc moves on.
fn wait_or_fence(hart: &Hart, word: u32, trap: fn(&Hart, Mode) -> Option<Raised>) -> Outcome {
    let mode = match hart.check() {
        Ok(mode) => mode,
        Err(bad) => return refused_hart(hart, bad),
    };
    match trap(hart, mode) {
        Some(raised) => forbidden(hart, mode, raised, word),
        None => only_moves_on(hart),
    }
}

/// "WFI: M goes on; TW=1 elsewhere gives 2; then U gives 2, VU gives 22, VS gives 22 if VTW=1."
fn wfi_trap(hart: &Hart, mode: Mode) -> Option<Raised> {
    if mode == Mode::M {
        return None;
    }
    if bit(hart.mstatus, TW) {
        return Some(illegal(Forbidden::Bit(Control::Tw)));
    }
    let out_of_reach = Forbidden::Instruction("WFI", mode);
    match mode {
        Mode::U => Some(illegal(out_of_reach)),
        Mode::Vu => Some(virtual_instruction(out_of_reach)),
        Mode::Vs if bit(hart.hstatus, VTW) => {
            Some(virtual_instruction(Forbidden::Bit(Control::Vtw)))
        }
        Mode::Vs | Mode::Hs | Mode::M => None,
    }
}

/// "SFENCE.VMA: U 2; HS with TVM=1 2; VU 22; VS with VTVM=1 22."
fn sfence_vma_trap(hart: &Hart, mode: Mode) -> Option<Raised> {
    let out_of_reach = Forbidden::Instruction("SFENCE.VMA", mode);
    match mode {
        Mode::U => Some(illegal(out_of_reach)),
        Mode::Hs if bit(hart.mstatus, TVM) => Some(illegal(Forbidden::Bit(Control::Tvm))),
        Mode::Vu => Some(virtual_instruction(out_of_reach)),
        Mode::Vs if bit(hart.hstatus, VTVM) => {
            Some(virtual_instruction(Forbidden::Bit(Control::Vtvm)))
        }
        Mode::Hs | Mode::M | Mode::Vs => None,
    }
}

/// "HFENCE.VVMA and HFENCE.GVMA: U 2; V=1 always 22".
fn hfence_trap(name: &'static str, mode: Mode) -> Option<Raised> {
    let out_of_reach = Forbidden::Instruction(name, mode);
    match mode {
        Mode::U => Some(illegal(out_of_reach)),
        Mode::Vu | Mode::Vs => Some(virtual_instruction(out_of_reach)),
        Mode::Hs | Mode::M => None,
    }
}

/// "GVMA in HS with TVM=1 2".
fn hfence_gvma_trap(hart: &Hart, mode: Mode) -> Option<Raised> {
    match mode {
        Mode::Hs if bit(hart.mstatus, TVM) => Some(illegal(Forbidden::Bit(Control::Tvm))),
        _ => hfence_trap("HFENCE.GVMA", mode),
    }
}

#[cfg(test)]
mod tests {
    use super::*;
    use crate::bits::with_bit;
    use crate::hart::BadHart;
    use crate::reasons::Reason;
    use crate::trap::{Ending, Trap};

    /// The bits that the four may trap by, in the order of a setting.
    const BITS: [Control; 4] = [Control::Tvm, Control::Tw, Control::Vtvm, Control::Vtw];

    const WORD: u32 = 0xf2a5_8073;

    /// A trap: its cause, and the place in the setting of the bit that it is by.
    type Expected = Option<(u64, Option<usize>)>;

    /// Runs one of them in every mode with every setting of the four trap bits and compares the cause and the reason.
    fn check(
        name: &'static str,
        event: fn(&Hart, u32) -> Outcome,
        expected: fn(Mode, [bool; 4]) -> Expected,
    ) {
        for mode in Mode::ALL {
            for setting in 0..16u32 {
                let [tvm, tw, vtvm, vtw] = [0, 1, 2, 3].map(|at| (setting >> at) & 1 == 1);
                let mut before = Hart::new(0, 0, 0x40).in_mode(mode);
                before.mstatus = with_bit(before.mstatus, TVM, tvm);
                before.mstatus = with_bit(before.mstatus, TW, tw);
                before.hstatus = with_bit(before.hstatus, VTVM, vtvm);
                before.hstatus = with_bit(before.hstatus, VTW, vtw);
                let outcome = event(&before, WORD);
                match expected(mode, [tvm, tw, vtvm, vtw]) {
                    Some((cause, bit)) => {
                        let trap = Trap {
                            value: u64::from(WORD),
                            ..Trap::plain(cause)
                        };
                        let rule = match bit {
                            Some(place) => Forbidden::Bit(BITS[place]),
                            None => Forbidden::Instruction(name, mode),
                        };
                        assert_eq!(outcome.reason, Some(Reason::Forbidden(rule)));
                        assert!(
                            matches!(outcome.ending, Ending::Trapped(raised, _) if raised == trap)
                        );
                        assert_eq!(outcome.hart.mepc, 0x40);
                        assert_eq!(outcome.hart.mtval, trap.value);
                    }
                    None => {
                        assert_eq!(outcome.ending, Ending::Done, "{mode:?} {setting:b}");
                        assert_eq!(outcome.hart, before.moved_on());
                        assert_eq!(outcome.reason, None);
                    }
                }
            }
        }
        let bad = Hart::new(0, 2, 0);
        assert_eq!(event(&bad, WORD), refused_hart(&bad, BadHart::Mode(0, 2)));
        let last = Hart::new(0, 3, u64::MAX - 3);
        assert_eq!(event(&last, WORD).hart.pc, 0);
    }

    #[test]
    fn wfi_in_every_mode() {
        check("WFI", wfi, |mode, [_, tw, _, vtw]| match mode {
            Mode::M => None,
            _ if tw => Some((2, Some(1))),
            Mode::U => Some((2, None)),
            Mode::Vu => Some((22, None)),
            Mode::Vs => vtw.then_some((22, Some(3))),
            Mode::Hs => None,
        });
    }

    #[test]
    fn sfence_vma_in_every_mode() {
        check(
            "SFENCE.VMA",
            sfence_vma,
            |mode, [tvm, _, vtvm, _]| match mode {
                Mode::M => None,
                Mode::U => Some((2, None)),
                Mode::Hs => tvm.then_some((2, Some(0))),
                Mode::Vu => Some((22, None)),
                Mode::Vs => vtvm.then_some((22, Some(2))),
            },
        );
    }

    #[test]
    fn hfence_vvma_in_every_mode() {
        check("HFENCE.VVMA", hfence_vvma, |mode, _| match mode {
            Mode::M | Mode::Hs => None,
            Mode::U => Some((2, None)),
            Mode::Vu | Mode::Vs => Some((22, None)),
        });
    }

    #[test]
    fn hfence_gvma_in_every_mode() {
        check(
            "HFENCE.GVMA",
            hfence_gvma,
            |mode, [tvm, _, _, _]| match mode {
                Mode::M => None,
                Mode::Hs => tvm.then_some((2, Some(0))),
                Mode::U => Some((2, None)),
                Mode::Vu | Mode::Vs => Some((22, None)),
            },
        );
    }
}
