//! How events end, trap requests (refusal 4) and "Delivery" of traps and interrupts.

use crate::bits::{bit, with_bit};
use crate::hart::{BadHart, Hart, Mode};
use crate::image::BadImage;
use crate::reasons::Reason;
use crate::registers::{
    with_mpp, Row, HSTATUS_GVA, MIE, MPIE, MPV, MSTATUS_GVA, SIE, SPIE, SPP, SPV, SPVP,
};
use crate::stepping::BadPlace;
use crate::walk::BadAccess;

/// Cause 2, illegal instruction.
pub const ILLEGAL_INSTRUCTION: u64 = 2;
/// Cause 3, breakpoint.
pub const BREAKPOINT: u64 = 3;
/// Cause 22, virtual instruction.
pub const VIRTUAL_INSTRUCTION: u64 = 22;
/// The interrupt bit of a cause.
pub const INTERRUPT_BIT: u64 = 1 << 63;

/// A trap: a request for one, the fault that a translation answers, or an interrupt that is taken.
#[derive(Clone, Copy, PartialEq, Eq, Debug, Default)]
pub struct Trap {
    /// The cause.
    pub cause: u64,
    /// The value (mtval, stval, vstval).
    pub value: u64,
    /// The second value (mtval2, htval).
    pub second: u64,
    /// The instruction word (mtinst, htinst).
    pub word: u64,
    /// The guest-address flag (GVA).
    pub flag: bool,
}

impl Trap {
    /// A trap raised by the model with value, second value and word 0 and the flag clear: the environment calls, and interrupts,
    /// "with value, second value, word and flag 0".
    pub fn plain(cause: u64) -> Trap {
        Trap {
            cause,
            ..Trap::default()
        }
    }
}

/// The mode that a trap or an interrupt is delivered to, from the highest level down.
#[derive(Clone, Copy, PartialEq, Eq, Debug, PartialOrd, Ord)]
pub enum Target {
    /// To M.
    M,
    /// To HS.
    Hs,
    /// To VS.
    Vs,
}

/// Why the model says no.
#[derive(Clone, Copy, PartialEq, Eq, Debug)]
pub enum Refusal {
    /// 1: the image.
    Image(BadImage),
    /// 2: the hart.
    Hart(BadHart),
    /// 3: the access of a translation, or of a hypervisor load or store.
    Access(BadAccess),
    /// 4: "a trap request that can't arise".
    Request(BadRequest),
    /// 5: "register number over 4095".
    Number(u64),
    /// 6: a place that can't be pressed on with this image.
    Place(BadPlace),
}

impl Refusal {
    /// The number of the refusal.
    pub fn number(&self) -> u64 {
        match self {
            Refusal::Image(_) => 1,
            Refusal::Hart(_) => 2,
            Refusal::Access(_) => 3,
            Refusal::Request(_) => 4,
            Refusal::Number(_) => 5,
            Refusal::Place(_) => 6,
        }
    }
}

/// A rule by which an access to a register, a return, WFI, a fence or a hypervisor load or store traps with cause 2 or 22.
#[derive(Clone, Copy, PartialEq, Eq, Debug)]
pub enum Forbidden {
    /// No register has this number.
    Unlisted(u64),
    /// A write to a register that is read-only.
    ReadOnly(&'static Row),
    /// The mode does not reach the register.
    Register(&'static Row, Mode),
    /// The mode does not reach the instruction with this name.
    Instruction(&'static str, Mode),
    /// A bit that makes what the mode reaches trap.
    Bit(Control),
    /// A hypervisor load or store in U with hstatus.HU clear.
    HuClear,
}

/// The bits that make what a mode reaches trap.
#[derive(Clone, Copy, PartialEq, Eq, Debug)]
#[allow(missing_docs)] // The bits carry their own names.
pub enum Control {
    Tvm,
    Tw,
    Tsr,
    Vtvm,
    Vtw,
    Vtsr,
}

/// A trap that the model raises by such a rule: its cause (2 or 22) and the rule.
#[derive(Clone, Copy, PartialEq, Eq, Debug)]
pub struct Raised {
    /// The cause.
    pub cause: u64,
    /// The rule.
    pub rule: Forbidden,
}

/// A trap with cause 2.
pub fn illegal(rule: Forbidden) -> Raised {
    let cause = ILLEGAL_INSTRUCTION;
    Raised { cause, rule }
}

/// A trap with cause 22.
pub fn virtual_instruction(rule: Forbidden) -> Raised {
    let cause = VIRTUAL_INSTRUCTION;
    Raised { cause, rule }
}

/// How an event ended.
#[derive(Clone, Copy, PartialEq, Eq, Debug)]
pub enum Ending {
    /// The model refused it with this number; the hart is as given.
    Refused(u64),
    /// It trapped, and the trap was delivered.
    Trapped(Trap, Target),
    /// It was done.
    Done,
}

/// "every event hands the hart back": the hart after an event, and how the event ended.
#[derive(Clone, Copy, PartialEq, Eq, Debug)]
pub struct Outcome {
    /// The hart after the event.
    pub hart: Hart,
    /// How the event ended.
    pub ending: Ending,
    /// Why it was refused, or trapped by a rule or with a fault, or what came of an interrupt.
    pub reason: Option<Reason>,
}

/// A refused event: the hart as given.
pub fn refused(hart: &Hart, refusal: Refusal) -> Outcome {
    Outcome {
        hart: *hart,
        ending: Ending::Refused(refusal.number()),
        reason: Some(Reason::Refused(refusal)),
    }
}

/// An event that fails check 2.
pub fn refused_hart(hart: &Hart, bad: BadHart) -> Outcome {
    refused(hart, Refusal::Hart(bad))
}

/// An event that traps: "delivers at once".
pub fn trapped(hart: &Hart, mode: Mode, trap: Trap) -> Outcome {
    let (hart, target) = deliver(hart, mode, &trap);
    Outcome {
        hart,
        ending: Ending::Trapped(trap, target),
        reason: None,
    }
}

/// An event that traps with cause 2 or 22 by a rule, and its instruction word (change request 2026-02): "Causes 2 and 22 raised
/// by a register access, return, WFI or fence carry the 32-bit instruction word as the value." Those of a hypervisor load or store
/// do too (2026-03): "both carry the word". The word goes nowhere else.
pub fn forbidden(hart: &Hart, mode: Mode, raised: Raised, word: u32) -> Outcome {
    let trap = Trap {
        value: u64::from(word),
        ..Trap::plain(raised.cause)
    };
    Outcome {
        reason: Some(Reason::Forbidden(raised.rule)),
        ..trapped(hart, mode, trap)
    }
}

/// An event that is done, and the hart after it.
pub fn done(hart: Hart) -> Outcome {
    Outcome {
        hart,
        ending: Ending::Done,
        reason: None,
    }
}

/// An instruction that is done and only moves pc on.
pub fn only_moves_on(hart: &Hart) -> Outcome {
    done(hart.moved_on())
}

/// A trap request. Refused as 2 by the hart, as 4 if it cannot arise; otherwise delivered.
pub fn request(hart: &Hart, trap: &Trap) -> Outcome {
    let mode = match hart.check() {
        Ok(mode) => mode,
        Err(bad) => return refused_hart(hart, bad),
    };
    match cannot_arise(mode, trap) {
        Some(bad) => refused(hart, Refusal::Request(bad)),
        None => trapped(hart, mode, *trap),
    }
}

/// What makes a trap request one that can't arise. Each carries the cause.
#[derive(Clone, Copy, PartialEq, Eq, Debug)]
pub enum BadRequest {
    /// There is no such cause.
    Cause(u64),
    /// An environment call from another mode than its own.
    FromElsewhere(u64),
    /// Cause 22 with V=0.
    WithoutV(u64),
    /// An environment call with this value.
    Value(u64, u64),
    /// A second value that the cause doesn't have.
    SecondValue(u64),
    /// An instruction word that the cause doesn't have.
    Word(u64),
    /// The flag is set and may not be.
    FlagSet(u64),
    /// The flag is clear and may not be.
    FlagClear(u64),
    /// The flag is clear and may not be with V=1.
    FlagClearWithV(u64),
}

/// Refusal 4: why a hart in this mode can't have this trap, if it can't.
pub fn cannot_arise(mode: Mode, trap: &Trap) -> Option<BadRequest> {
    let cause = trap.cause;
    if cause_unknown(trap) {
        Some(BadRequest::Cause(cause))
    } else if environment_call_from_elsewhere(mode, trap) {
        Some(BadRequest::FromElsewhere(cause))
    } else if virtual_instruction_without_v(mode, trap) {
        Some(BadRequest::WithoutV(cause))
    } else if environment_call_with_value(trap) {
        Some(BadRequest::Value(cause, trap.value))
    } else {
        second_value_or_word(trap).or_else(|| flag_wrong(mode, trap))
    }
}

/// "cause not in 0-13, 15, 20-23".
fn cause_unknown(trap: &Trap) -> bool {
    !matches!(trap.cause, 0..=13 | 15 | 20..=23)
}

/// "8, 9, 10 or 11 from other than U/VU, HS, VS, M".
fn environment_call_from_elsewhere(mode: Mode, trap: &Trap) -> bool {
    match trap.cause {
        8 => mode != Mode::U && mode != Mode::Vu,
        9 => mode != Mode::Hs,
        10 => mode != Mode::Vs,
        11 => mode != Mode::M,
        _ => false,
    }
}

/// "22 with V=0".
fn virtual_instruction_without_v(mode: Mode, trap: &Trap) -> bool {
    trap.cause == VIRTUAL_INSTRUCTION && !mode.v()
}

/// "8-11 with a nonzero value".
fn environment_call_with_value(trap: &Trap) -> bool {
    matches!(trap.cause, 8..=11) && trap.value != 0
}

/// "second value or instruction word nonzero unless cause 20, 21, 23".
fn second_value_or_word(trap: &Trap) -> Option<BadRequest> {
    if matches!(trap.cause, 20 | 21 | 23) {
        None
    } else if trap.second != 0 {
        Some(BadRequest::SecondValue(trap.cause))
    } else if trap.word != 0 {
        Some(BadRequest::Word(trap.cause))
    } else {
        None
    }
}

/// "guest-address flag set for 2, 8-11, 22, or clear for 20, 21, 23, or clear with V=1 for any other cause".
fn flag_wrong(mode: Mode, trap: &Trap) -> Option<BadRequest> {
    let cause = trap.cause;
    match cause {
        2 | 8..=11 | 22 => trap.flag.then_some(BadRequest::FlagSet(cause)),
        20 | 21 | 23 => (!trap.flag).then_some(BadRequest::FlagClear(cause)),
        _ => (mode.v() && !trap.flag).then_some(BadRequest::FlagClearWithV(cause)),
    }
}

/// "Delivery": the hart after the trap, and where it went.
pub fn deliver(hart: &Hart, mode: Mode, trap: &Trap) -> (Hart, Target) {
    let target = target(hart, mode, trap.cause);
    (deliver_to(target, hart, mode, trap), target)
}

/// The hart after a trap or an interrupt into this target.
pub fn deliver_to(target: Target, hart: &Hart, mode: Mode, trap: &Trap) -> Hart {
    match target {
        Target::M => deliver_to_m(hart, mode, trap),
        Target::Hs => deliver_to_hs(hart, mode, trap),
        Target::Vs => deliver_to_vs(hart, mode, trap),
    }
}

/// "from M to M. Otherwise to M if medeleg's bit for the cause is 0; else to VS if V=1 and hedeleg's bit is 1; else to HS."
pub fn target(hart: &Hart, mode: Mode, cause: u64) -> Target {
    if mode == Mode::M || !delegates(hart.medeleg, cause) {
        Target::M
    } else if mode.v() && delegates(hart.hedeleg, cause) {
        Target::Vs
    } else {
        Target::Hs
    }
}

/// The bit of medeleg or hedeleg for a cause.
fn delegates(edeleg: u64, cause: u64) -> bool {
    match u32::try_from(cause) {
        Ok(position) => bit(edeleg, position),
        Err(_) => false,
    }
}

/// "pc becomes the target's tvec without bits 1:0." "Vectored tvec now adds 4 times the written cause, wrapping, for interrupts
/// only."
fn entry_point(tvec: u64, cause: u64) -> u64 {
    let base = tvec & !0b11;
    let vectored = bit(tvec, 0);
    let interrupt = cause & INTERRUPT_BIT != 0;
    if vectored && interrupt {
        base.wrapping_add((cause & !INTERRUPT_BIT).wrapping_mul(4))
    } else {
        base
    }
}

/// "M: MPV, MPP = former V and privilege (0, 1, 3); MPIE=MIE, MIE=0; GVA, mepc, mcause, mtval, mtval2, mtinst written."
fn deliver_to_m(hart: &Hart, mode: Mode, trap: &Trap) -> Hart {
    let mut after = *hart;
    after.mstatus = with_bit(after.mstatus, MPV, mode.v());
    after.mstatus = with_mpp(after.mstatus, mode.privilege());
    after.mstatus = with_bit(after.mstatus, MPIE, bit(hart.mstatus, MIE));
    after.mstatus = with_bit(after.mstatus, MIE, false);
    after.mstatus = with_bit(after.mstatus, MSTATUS_GVA, trap.flag);
    after.mepc = hart.pc;
    after.mcause = trap.cause;
    after.mtval = trap.value;
    after.mtval2 = trap.second;
    after.mtinst = trap.word;
    after.pc = entry_point(hart.mtvec, trap.cause);
    after.in_mode(Mode::M)
}

/// "HS: hstatus.SPV = former V; SPP = former privilege; SPVP likewise only if V was 1, otherwise kept; SPIE=SIE, SIE=0;
/// hstatus.GVA, sepc, scause, stval, htval, htinst written."
fn deliver_to_hs(hart: &Hart, mode: Mode, trap: &Trap) -> Hart {
    let from_supervisor = mode.privilege() == 1;
    let mut after = *hart;
    after.hstatus = with_bit(after.hstatus, SPV, mode.v());
    after.mstatus = with_bit(after.mstatus, SPP, from_supervisor);
    if mode.v() {
        after.hstatus = with_bit(after.hstatus, SPVP, from_supervisor);
    }
    after.mstatus = with_bit(after.mstatus, SPIE, bit(hart.mstatus, SIE));
    after.mstatus = with_bit(after.mstatus, SIE, false);
    after.hstatus = with_bit(after.hstatus, HSTATUS_GVA, trap.flag);
    after.sepc = hart.pc;
    after.scause = trap.cause;
    after.stval = trap.value;
    after.htval = trap.second;
    after.htinst = trap.word;
    after.pc = entry_point(hart.stvec, trap.cause);
    after.in_mode(Mode::Hs)
}

/// "VS: vsstatus.SPP, SPIE=SIE, SIE=0; vsepc, vscause, vstval. V stays 1; nothing of HS or M changes."
fn deliver_to_vs(hart: &Hart, mode: Mode, trap: &Trap) -> Hart {
    let mut after = *hart;
    after.vsstatus = with_bit(after.vsstatus, SPP, mode.privilege() == 1);
    after.vsstatus = with_bit(after.vsstatus, SPIE, bit(hart.vsstatus, SIE));
    after.vsstatus = with_bit(after.vsstatus, SIE, false);
    after.vsepc = hart.pc;
    after.vscause = trap.cause;
    after.vstval = trap.value;
    after.pc = entry_point(hart.vstvec, trap.cause);
    after.in_mode(Mode::Vs)
}

#[cfg(test)]
mod tests {
    use super::*;
    use crate::registers::mpp;

    const CAUSES: [u64; 19] = [
        0, 1, 2, 3, 4, 5, 6, 7, 8, 9, 10, 11, 12, 13, 15, 20, 21, 22, 23,
    ];

    fn hart(mode: Mode) -> Hart {
        let mut hart = Hart::new(0, 0, 0x1000).in_mode(mode);
        hart.mtvec = 0x3001;
        hart.stvec = 0x2001;
        hart.vstvec = 0x1101;
        hart
    }

    fn taken(mode: Mode, trap: Trap) -> bool {
        match request(&hart(mode), &trap).ending {
            Ending::Refused(number) => {
                assert_eq!(number, 4);
                assert_eq!(request(&hart(mode), &trap).hart, hart(mode));
                false
            }
            Ending::Trapped(..) => true,
            Ending::Done => panic!("a trap request is never just done"),
        }
    }

    /// A request that nothing but its cause and its mode could make impossible.
    fn fitting(mode: Mode, cause: u64) -> Trap {
        let flag = match cause {
            2 | 8..=11 | 22 => false,
            20 | 21 | 23 => true,
            _ => mode.v(),
        };
        Trap {
            flag,
            ..Trap::plain(cause)
        }
    }

    fn arises_from(mode: Mode, cause: u64) -> bool {
        match cause {
            8 => matches!(mode, Mode::U | Mode::Vu),
            9 => mode == Mode::Hs,
            10 => mode == Mode::Vs,
            11 => mode == Mode::M,
            22 => mode.v(),
            _ => true,
        }
    }

    #[test]
    fn refusal_4_by_cause_and_mode() {
        for mode in Mode::ALL {
            for cause in (0..70).chain([0x100, 1 << 32, (1 << 32) + 2, u64::MAX]) {
                let known = CAUSES.contains(&cause);
                assert_eq!(
                    taken(mode, fitting(mode, cause)),
                    known && arises_from(mode, cause),
                    "{mode:?} cause {cause}"
                );
            }
        }
    }

    /// "refusal 4 stays for exceptions and interrupts come only from pending bits": no request is an interrupt.
    #[test]
    fn refusal_4_by_the_interrupt_bit() {
        for mode in Mode::ALL {
            for number in 0..64 {
                assert!(!taken(mode, Trap::plain((1 << 63) + number)));
            }
        }
    }

    /// "Vectored tvec now adds 4 times the written cause, wrapping, for interrupts only": exceptions go to the base, whatever
    /// bit 0 is.
    #[test]
    fn an_exception_is_not_vectored() {
        for mode in [Mode::U, Mode::Hs, Mode::Vu, Mode::Vs] {
            for cause in CAUSES.into_iter().filter(|cause| arises_from(mode, *cause)) {
                for (medeleg, hedeleg) in [(0, 0), (u64::MAX, 0), (u64::MAX, u64::MAX)] {
                    let mut before = hart(mode);
                    [before.medeleg, before.hedeleg] = [medeleg & 0xf0_b7ff, hedeleg & 0xb1ff];
                    [before.mtvec, before.stvec, before.vstvec] = [0x3001; 3];
                    let after = request(&before, &fitting(mode, cause)).hart;
                    assert_eq!(after.pc, 0x3000, "{mode:?} {cause}");
                }
            }
        }
    }

    #[test]
    fn refusal_4_by_value_second_value_word_and_flag() {
        for mode in Mode::ALL {
            for cause in CAUSES {
                if !arises_from(mode, cause) {
                    continue;
                }
                let base = fitting(mode, cause);
                let guest_page_fault = matches!(cause, 20 | 21 | 23);
                let value = Trap { value: 1, ..base };
                assert_eq!(taken(mode, value), !matches!(cause, 8..=11));
                let second = Trap {
                    second: 1 << 63,
                    ..base
                };
                assert_eq!(taken(mode, second), guest_page_fault);
                let word = Trap { word: 1, ..base };
                assert_eq!(taken(mode, word), guest_page_fault);
                let other_flag = Trap {
                    flag: !base.flag,
                    ..base
                };
                let either_flag =
                    !guest_page_fault && !matches!(cause, 2 | 8..=11 | 22) && !mode.v();
                assert_eq!(taken(mode, other_flag), either_flag, "{mode:?} {cause}");
            }
        }
    }

    #[test]
    fn refusal_2_comes_before_4() {
        let mut bad = hart(Mode::U);
        bad.pc = 2;
        let outcome = request(&bad, &Trap::plain(99));
        assert_eq!(outcome.ending, Ending::Refused(2));
        assert_eq!(outcome.hart, bad);
    }

    #[test]
    fn each_target() {
        let cause = 13;
        for mode in Mode::ALL {
            for medeleg in [0, 1 << cause] {
                for hedeleg in [0, 1 << cause] {
                    let mut before = hart(mode);
                    before.medeleg = medeleg;
                    before.hedeleg = hedeleg;
                    let expected = match (mode, medeleg != 0, hedeleg != 0) {
                        (Mode::M, _, _) | (_, false, _) => Target::M,
                        (Mode::Vu | Mode::Vs, true, true) => Target::Vs,
                        _ => Target::Hs,
                    };
                    let outcome = request(&before, &fitting(mode, cause));
                    assert!(
                        matches!(outcome.ending, Ending::Trapped(_, target) if target == expected)
                    );
                    let pc = match expected {
                        Target::M => 0x3000,
                        Target::Hs => 0x2000,
                        Target::Vs => 0x1100,
                    };
                    assert_eq!(outcome.hart.pc, pc);
                }
            }
        }
    }

    #[test]
    fn delegation_looks_at_the_bit_of_the_cause() {
        for cause in 0..64 {
            let mut before = hart(Mode::Vs);
            before.medeleg = 1 << cause;
            before.hedeleg = 1 << cause;
            for other in 0..64 {
                let expected = if other == cause {
                    Target::Vs
                } else {
                    Target::M
                };
                assert_eq!(target(&before, Mode::Vs, other), expected);
            }
        }
        let mut before = hart(Mode::Hs);
        before.medeleg = u64::MAX;
        assert_eq!(target(&before, Mode::Hs, 64), Target::M);
        assert_eq!(target(&before, Mode::Hs, 1 << 32), Target::M);
    }

    const REQUEST: Trap = Trap {
        cause: 21,
        value: 0x1234,
        second: 0x5678,
        word: 0x3000,
        flag: true,
    };

    #[test]
    fn delivery_to_m_writes_these_and_nothing_else() {
        for mode in Mode::ALL {
            for mie in [false, true] {
                let mut before = hart(mode);
                before.mstatus = with_bit(before.mstatus, MIE, mie);
                before.mstatus = with_bit(before.mstatus, MPIE, !mie);
                before.mstatus = with_bit(before.mstatus, SIE, true);
                let after = request(&before, &REQUEST).hart;
                let mut expected = before;
                expected.v = 0;
                expected.privilege = 3;
                expected.pc = 0x3000;
                expected.mepc = 0x1000;
                expected.mcause = 21;
                expected.mtval = 0x1234;
                expected.mtval2 = 0x5678;
                expected.mtinst = 0x3000;
                expected.mstatus = 0xa_0000_0002
                    | (1 << 38)
                    | (u64::from(mode.v()) << 39)
                    | (mode.privilege() << 11)
                    | (u64::from(mie) << 7);
                assert_eq!(after, expected);
                assert_eq!(mpp(after.mstatus), mode.privilege());
            }
        }
    }

    #[test]
    fn delivery_to_hs_writes_these_and_nothing_else() {
        for mode in [Mode::U, Mode::Hs, Mode::Vu, Mode::Vs] {
            for sie in [false, true] {
                for spvp in [false, true] {
                    let mut before = hart(mode);
                    before.medeleg = 1 << 21;
                    before.mstatus = with_bit(before.mstatus, SIE, sie);
                    before.mstatus = with_bit(before.mstatus, SPIE, !sie);
                    before.mstatus = with_bit(before.mstatus, MIE, true);
                    before.hstatus = with_bit(before.hstatus, SPVP, spvp);
                    let after = request(&before, &REQUEST).hart;
                    let supervisor = matches!(mode, Mode::Hs | Mode::Vs);
                    let mut expected = before;
                    expected.v = 0;
                    expected.privilege = 1;
                    expected.pc = 0x2000;
                    expected.sepc = 0x1000;
                    expected.scause = 21;
                    expected.stval = 0x1234;
                    expected.htval = 0x5678;
                    expected.htinst = 0x3000;
                    expected.mstatus =
                        0xa_0000_0008 | (u64::from(supervisor) << 8) | (u64::from(sie) << 5);
                    let new_spvp = if mode.v() { supervisor } else { spvp };
                    expected.hstatus = 0x2_0000_0000
                        | (1 << 6)
                        | (u64::from(mode.v()) << 7)
                        | (u64::from(new_spvp) << 8);
                    assert_eq!(after, expected);
                }
            }
        }
    }

    #[test]
    fn delivery_to_vs_writes_these_and_nothing_else() {
        for mode in [Mode::Vu, Mode::Vs] {
            for sie in [false, true] {
                let mut before = hart(mode);
                before.medeleg = 1 << 13;
                before.hedeleg = 1 << 13;
                before.vsstatus = with_bit(before.vsstatus, SIE, sie);
                before.vsstatus = with_bit(before.vsstatus, SPIE, !sie);
                let trap = Trap {
                    cause: 13,
                    value: 0xabc,
                    second: 0,
                    word: 0,
                    flag: true,
                };
                let after = request(&before, &trap).hart;
                let mut expected = before;
                expected.privilege = 1;
                expected.pc = 0x1100;
                expected.vsepc = 0x1000;
                expected.vscause = 13;
                expected.vstval = 0xabc;
                expected.vsstatus =
                    0x2_0000_0000 | (u64::from(mode == Mode::Vs) << 8) | (u64::from(sie) << 5);
                assert_eq!(after, expected);
            }
        }
    }

    #[test]
    fn gva_is_also_cleared() {
        let mut before = hart(Mode::Hs);
        before.mstatus = with_bit(before.mstatus, MSTATUS_GVA, true);
        before.hstatus = with_bit(before.hstatus, HSTATUS_GVA, true);
        let to_m = request(&before, &Trap::plain(2)).hart;
        assert!(!bit(to_m.mstatus, MSTATUS_GVA));
        assert!(bit(to_m.hstatus, HSTATUS_GVA));
        before.medeleg = 4;
        let to_hs = request(&before, &Trap::plain(2)).hart;
        assert!(!bit(to_hs.hstatus, HSTATUS_GVA));
        assert!(bit(to_hs.mstatus, MSTATUS_GVA));
    }

    /// "Causes 2 and 22 raised by a register access, return, WFI or fence carry the 32-bit instruction word as the value": in the
    /// target's tval, as a number that is not negative, and in no other register. Each bit of a word counts.
    #[test]
    fn the_word_of_an_instruction_that_traps_is_the_value() {
        let rule = Forbidden::Bit(Control::Tw);
        let words = (0..32).flat_map(|bit| [1 << bit, !(1 << bit)]);
        for word in words.chain([0, u32::MAX, 0x1050_0073, 0x8000_0000]) {
            for (raised, medeleg, hedeleg, target) in [
                (illegal(rule), 0, 0, Target::M),
                (illegal(rule), 4, 0, Target::Hs),
                (illegal(rule), 4, 4, Target::Vs),
                (virtual_instruction(rule), 0, 0, Target::M),
                (virtual_instruction(rule), 1 << 22, 0, Target::Hs),
            ] {
                let mut before = hart(Mode::Vs);
                (before.medeleg, before.hedeleg) = (medeleg, hedeleg);
                let outcome = forbidden(&before, Mode::Vs, raised, word);
                let trap = Trap {
                    cause: raised.cause,
                    value: u64::from(word),
                    second: 0,
                    word: 0,
                    flag: false,
                };
                assert_eq!(outcome.ending, Ending::Trapped(trap, target));
                assert_eq!(outcome.reason, Some(Reason::Forbidden(rule)));
                assert_eq!(
                    outcome.hart,
                    request(&before, &trap).hart,
                    "as if asked for"
                );
                let after = outcome.hart;
                let mut tvals = [after.mtval, after.stval, after.vstval];
                assert_eq!(tvals[target as usize], u64::from(word));
                tvals[target as usize] = 0;
                assert_eq!(tvals, [0; 3]);
                assert_eq!((after.mtval2, after.htval), (0, 0));
                assert_eq!((after.mtinst, after.htinst), (0, 0));
            }
        }
    }

    #[test]
    fn from_m_to_m_whatever_is_delegated() {
        let mut before = hart(Mode::M);
        before.medeleg = 0xf0_b7ff;
        before.hedeleg = 0xb1ff;
        let outcome = request(&before, &Trap::plain(2));
        assert!(matches!(outcome.ending, Ending::Trapped(_, Target::M)));
        assert_eq!(mpp(outcome.hart.mstatus), 3);
    }

    #[test]
    fn a_trap_in_m_keeps_mprv() {
        let mut before = hart(Mode::M);
        before.mstatus |= 1 << 17;
        let after = request(&before, &Trap::plain(2)).hart;
        assert!(bit(after.mstatus, 17));
        assert!(after.checked_mode().is_some());
    }
}
