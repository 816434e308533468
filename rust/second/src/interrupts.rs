//! Interrupts (change request 2026-01): which one is due, and taking it.
//!
//! An interrupt's number is that of its bit in mip, mie, mideleg and hideleg.

use crate::bits::bit;
use crate::hart::{Hart, Mode};
use crate::reasons::Reason;
use crate::registers::{MIE, SIE};
use crate::trap::{deliver_to, refused_hart, Ending, Outcome, Target, Trap, INTERRUPT_BIT};

/// "the manual's order: 11, 3, 7, 9, 1, 5, 10, 2, 6".
pub const ORDER: [u32; 9] = [11, 3, 7, 9, 1, 5, 10, 2, 6];

/// What a level's own rule says in a mode.
#[derive(Clone, Copy, PartialEq, Eq, Debug, PartialOrd, Ord)]
pub enum Rule {
    /// In this mode the level's interrupts are always let through: it is below the level.
    Always(Mode),
    /// In the level's own mode its bit decides: mstatus.MIE of M, mstatus.SIE of HS, vsstatus.SIE of VS.
    Enable(bool),
    /// In this mode they are never let through: it is above the level or, for VS, outside the guest.
    Never(Mode),
}

impl Rule {
    /// Whether it lets an interrupt through.
    pub fn passes(self) -> bool {
        match self {
            Rule::Always(_) => true,
            Rule::Enable(on) => on,
            Rule::Never(_) => false,
        }
    }
}

/// An interrupt that is pending and enabled.
#[derive(Clone, Copy, PartialEq, Eq, Debug, PartialOrd, Ord)]
pub struct Interrupt {
    /// Its number.
    pub number: u32,
    /// The level that it goes to.
    pub level: Target,
    /// What that level's rule says.
    pub rule: Rule,
}

/// What came of the event, and why.
#[derive(Clone, Copy, PartialEq, Eq, Debug, PartialOrd, Ord)]
pub enum Why {
    /// This interrupt was due and is taken.
    Taken(Interrupt),
    /// None is due: none is pending.
    NonePending,
    /// None is due: no pending one is enabled.
    NoneEnabled,
    /// None is due: this one would be the first, but its level's rule keeps it back.
    Waits(Interrupt),
}

/// The event: "A new event takes the interrupt that is due, with value, second value, word and flag 0, or leaves the hart as it
/// is." Refused as 2 by the hart.
pub fn interrupt(hart: &Hart) -> Outcome {
    let mode = match hart.check() {
        Ok(mode) => mode,
        Err(bad) => return refused_hart(hart, bad),
    };
    let why = decide(hart, mode);
    let (hart, ending) = match why {
        Why::Taken(due) => take(hart, mode, &due),
        Why::NonePending | Why::NoneEnabled | Why::Waits(_) => (*hart, Ending::Done),
    };
    Outcome {
        hart,
        ending,
        reason: Some(Reason::Interrupt(why)),
    }
}

/// Which interrupt is due in this mode, or why none is: it must be pending, enabled and let through by its level's own rule.
pub fn decide(hart: &Hart, mode: Mode) -> Why {
    if hart.mip == 0 {
        return Why::NonePending;
    }
    let enabled = ORDER
        .into_iter()
        .filter(|number| bit(hart.mip & hart.mie, *number))
        .map(|number| of_number(hart, mode, number));
    let due = first(enabled.clone().filter(|found| found.rule.passes()));
    let waiting = first(enabled);
    match (due, waiting) {
        (Some(due), _) => Why::Taken(due),
        (None, Some(waiting)) => Why::Waits(waiting),
        (None, None) => Why::NoneEnabled,
    }
}

/// The interrupt with this number, if the hart is in this mode.
fn of_number(hart: &Hart, mode: Mode, number: u32) -> Interrupt {
    let level = level(hart, number);
    Interrupt {
        number,
        level,
        rule: rule(hart, mode, level),
    }
}

/// "Choose by target level first (M, HS, VS), then by the manual's order": of interrupts in that order, the first of the highest
/// level.
fn first(in_order: impl Iterator<Item = Interrupt>) -> Option<Interrupt> {
    in_order.min_by_key(|interrupt| interrupt.level)
}

/// M where mideleg's bit is clear, else HS where hideleg's bit is clear, else VS.
fn level(hart: &Hart, number: u32) -> Target {
    if !bit(hart.mideleg, number) {
        Target::M
    } else if !bit(hart.hideleg, number) {
        Target::Hs
    } else {
        Target::Vs
    }
}

/// The level's own rule. M: in every mode below M, and in M with mstatus.MIE=1. HS: in U, VU and VS, and in HS with
/// mstatus.SIE=1; never in M. VS: in VU, and in VS with vsstatus.SIE=1; never with V=0.
fn rule(hart: &Hart, mode: Mode, level: Target) -> Rule {
    match (level, mode) {
        (Target::M, Mode::M) => Rule::Enable(bit(hart.mstatus, MIE)),
        (Target::M, Mode::U | Mode::Hs | Mode::Vu | Mode::Vs) => Rule::Always(mode),
        (Target::Hs, Mode::Hs) => Rule::Enable(bit(hart.mstatus, SIE)),
        (Target::Hs, Mode::U | Mode::Vu | Mode::Vs) => Rule::Always(mode),
        (Target::Hs, Mode::M) => Rule::Never(mode),
        (Target::Vs, Mode::Vs) => Rule::Enable(bit(hart.vsstatus, SIE)),
        (Target::Vs, Mode::Vu) => Rule::Always(mode),
        (Target::Vs, Mode::U | Mode::Hs | Mode::M) => Rule::Never(mode),
    }
}

/// Delivery is that of a trap into the level. mip stays as it is.
fn take(hart: &Hart, mode: Mode, due: &Interrupt) -> (Hart, Ending) {
    let trap = Trap::plain(written_cause(due));
    let after = deliver_to(due.level, hart, mode, &trap);
    (after, Ending::Trapped(trap, due.level))
}

/// The interrupt bit and the number; "Into VS, causes 10, 2, 6 are written as 9, 1, 5 with the interrupt bit set."
fn written_cause(due: &Interrupt) -> u64 {
    let number = match (due.level, due.number) {
        (Target::Vs, 10) => 9,
        (Target::Vs, 2) => 1,
        (Target::Vs, 6) => 5,
        (_, number) => number,
    };
    INTERRUPT_BIT | u64::from(number)
}

#[cfg(test)]
#[path = "interrupts_tests.rs"]
mod tests;
