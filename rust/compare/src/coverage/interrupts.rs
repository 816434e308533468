//! What interrupts reached: which were taken and which had to wait, by number, level, mode and enable bits, what else was due
//! or waited with them, and how the level was entered.
//!
//! What is due is worked out here once more from the papers. An event that came to something else counts for nothing, so that
//! a wrong choice of the second program's leaves something unreached.

use std::collections::BTreeMap;
use std::fmt::Write as _;

use second::bits::bit;
use second::hart::{Hart, Mode};
use second::interrupts::Why;
use second::reasons::Reason;
use second::registers::{HSTATUS_GVA, MIE, MSTATUS_GVA, SIE};
use second::trap::{Ending, Outcome, Target};

use super::{add, count};

/// The interrupts in the manual's order.
pub const ORDER: [u32; 9] = [11, 3, 7, 9, 1, 5, 10, 2, 6];
/// The levels, from the highest down.
pub const LEVELS: [Target; 3] = [Target::M, Target::Hs, Target::Vs];
/// The interrupt bit of a cause.
const INTERRUPT: u64 = 1 << 63;

/// An interrupt's number and the level that it goes to.
pub type Way = (u32, Target);
/// mstatus.MIE, mstatus.SIE and vsstatus.SIE: the enable bits of the levels.
pub type Enables = [bool; 3];

/// Whether an interrupt can go to a level: mideleg always hands 2, 6 and 10 down and never 3, 7 and 11, hideleg hands down no
/// others than 2, 6 and 10.
fn can_go((number, level): Way) -> bool {
    match level {
        Target::M => !matches!(number, 2 | 6 | 10),
        Target::Hs => !matches!(number, 3 | 7 | 11),
        Target::Vs => matches!(number, 2 | 6 | 10),
    }
}

/// Each interrupt with each level that it can go to: by level, then in the manual's order. The first that is due is taken.
pub fn ways() -> Vec<Way> {
    let all = LEVELS
        .into_iter()
        .flat_map(|level| ORDER.map(|number| (number, level)));
    all.filter(|way| can_go(*way)).collect()
}

/// All settings of the enable bits.
pub fn settings() -> impl Iterator<Item = Enables> {
    (0..8u32).map(|setting| [0, 1, 2].map(|place| bit(u64::from(setting), place)))
}

/// Each two different interrupts that can be there at once, the first of them first.
pub fn pairs() -> Vec<(Way, Way)> {
    let ways = ways();
    let with_later = ways.iter().enumerate().flat_map(|(place, first)| {
        let later = ways[place + 1..].iter();
        later.map(|second| (*first, *second))
    });
    with_later
        .filter(|(first, second)| first.0 != second.0)
        .collect()
}

/// Whether a level's interrupts are let through: in its own mode by its bit, below it always, above it never; VS's never with
/// V=0.
pub fn passes(level: Target, mode: Mode, enables: Enables) -> bool {
    match (level, mode) {
        (Target::M, Mode::M) => enables[0],
        (Target::M, _) => true,
        (Target::Hs, Mode::M) => false,
        (Target::Hs, Mode::Hs) => enables[1],
        (Target::Hs, _) => true,
        (Target::Vs, Mode::Vs) => enables[2],
        (Target::Vs, Mode::Vu) => true,
        (Target::Vs, _) => false,
    }
}

/// A hart's enable bits.
fn enables_of(hart: &Hart) -> Enables {
    [
        bit(hart.mstatus, MIE),
        bit(hart.mstatus, SIE),
        bit(hart.vsstatus, SIE),
    ]
}

/// The interrupts that are pending and enabled, the first of them first.
fn enabled_of(hart: &Hart) -> Vec<Way> {
    let goes = |(number, level): &Way| {
        *level
            == match (bit(hart.mideleg, *number), bit(hart.hideleg, *number)) {
                (false, _) => Target::M,
                (true, false) => Target::Hs,
                (true, true) => Target::Vs,
            }
    };
    let mut ways = ways();
    ways.retain(|way| bit(hart.mip & hart.mie, way.0) && goes(way));
    ways
}

/// The interrupt that a delivered cause was: VS's are written one lower.
fn way_of(cause: u64, target: Target) -> Way {
    let number = (cause & !INTERRUPT) as u32;
    (number + u32::from(target == Target::Vs), target)
}

/// The tvec of a level.
fn tvec(hart: &Hart, level: Target) -> u64 {
    match level {
        Target::M => hart.mtvec,
        Target::Hs => hart.stvec,
        Target::Vs => hart.vstvec,
    }
}

/// What an interrupt into a level makes 0, and what it holds: "with value, second value, word and flag 0".
fn cleared(hart: &Hart, level: Target) -> Vec<(&'static str, u64)> {
    match level {
        Target::M => vec![
            ("mtval", hart.mtval),
            ("mtval2", hart.mtval2),
            ("mtinst", hart.mtinst),
            ("mstatus.GVA", hart.mstatus & (1 << MSTATUS_GVA)),
        ],
        Target::Hs => vec![
            ("stval", hart.stval),
            ("htval", hart.htval),
            ("htinst", hart.htinst),
            ("hstatus.GVA", hart.hstatus & (1 << HSTATUS_GVA)),
        ],
        Target::Vs => vec![("vstval", hart.vstval)],
    }
}

/// Counts of what interrupts reached.
#[derive(Clone, Debug, Default, PartialEq, Eq)]
pub struct Interrupts {
    /// One alone pending and enabled, in this mode with these bits: taken or not, as it should be.
    pub alone: BTreeMap<(Way, Mode, Enables), u64>,
    /// Two due at once and no other, the first taken.
    pub due: BTreeMap<(Way, Way), u64>,
    /// Two that wait and no other, the first told.
    pub waiting: BTreeMap<(Way, Way), u64>,
    /// None due because none was enabled (true) or pending.
    pub none: BTreeMap<(Mode, bool), u64>,
    /// What mideleg and hideleg held where some were pending and enabled.
    pub delegations: BTreeMap<(u64, u64), u64>,
    /// Taken, with a vectored tvec (true) or a direct one.
    pub taken: BTreeMap<(Way, bool), u64>,
    /// Taken where this, which becomes 0, was not 0.
    pub cleared: BTreeMap<(Target, &'static str), u64>,
    /// Taken with a sum that wrapped.
    pub wrapped: BTreeMap<Target, u64>,
    /// Exceptions delivered to this level, with a vectored tvec (true) or a direct one.
    pub exceptions: BTreeMap<(Target, bool), u64>,
}

impl Interrupts {
    /// Notes the event on a hart in this mode that was not refused.
    pub fn note(&mut self, before: &Hart, mode: Mode, outcome: &Outcome) {
        let enables = enables_of(before);
        let enabled = enabled_of(before);
        let due = enabled.iter().filter(|way| passes(way.1, mode, enables));
        let due: Vec<Way> = due.copied().collect();
        let taken = match outcome.ending {
            Ending::Trapped(trap, target) => Some((trap.cause, way_of(trap.cause, target))),
            _ => None,
        };
        if taken.map(|(_, way)| way) != due.first().copied() {
            return;
        }
        match enabled[..] {
            [] => count(&mut self.none, (mode, before.mip != 0)),
            [way] => count(&mut self.alone, (way, mode, enables)),
            [first, second] if due.is_empty() && told(outcome) == Some(first) => {
                count(&mut self.waiting, (first, second));
            }
            _ => {}
        }
        if let [first, second] = due[..] {
            count(&mut self.due, (first, second));
        }
        if !enabled.is_empty() {
            count(&mut self.delegations, (before.mideleg, before.hideleg));
        }
        if let Some((cause, way)) = taken {
            self.note_entry(tvec(before, way.1), cause, way);
            for (name, content) in cleared(before, way.1) {
                if content != 0 {
                    count(&mut self.cleared, (way.1, name));
                }
            }
        }
    }

    fn note_entry(&mut self, tvec: u64, cause: u64, way: Way) {
        let vectored = bit(tvec, 0);
        count(&mut self.taken, (way, vectored));
        let sum = (tvec & !3).checked_add(4 * (cause & !INTERRUPT));
        if vectored && sum.is_none() {
            count(&mut self.wrapped, way.1);
        }
    }

    /// Notes a trap that was delivered, if it is an exception.
    pub fn note_exception(&mut self, before: &Hart, cause: u64, target: Target) {
        if cause & INTERRUPT == 0 {
            count(&mut self.exceptions, (target, bit(tvec(before, target), 0)));
        }
    }

    /// Adds another's counts.
    pub fn add(&mut self, other: &Interrupts) {
        add(&mut self.alone, &other.alone);
        add(&mut self.due, &other.due);
        add(&mut self.waiting, &other.waiting);
        add(&mut self.none, &other.none);
        add(&mut self.delegations, &other.delegations);
        add(&mut self.taken, &other.taken);
        add(&mut self.cleared, &other.cleared);
        add(&mut self.wrapped, &other.wrapped);
        add(&mut self.exceptions, &other.exceptions);
    }

    /// What must be reached and was not.
    pub fn missing(&self) -> Vec<String> {
        let mut missing = Vec::new();
        for (way, mode, enables) in all_alone() {
            if !self.alone.contains_key(&(way, mode, enables)) {
                let what = describe(way);
                missing.push(format!("{what} alone in {mode:?}, enable bits {enables:?}"));
            }
        }
        for pair in pairs() {
            let what = format!("{} with {}", describe(pair.0), describe(pair.1));
            if !self.due.contains_key(&pair) {
                missing.push(format!("{what} due"));
            }
            if !self.waiting.contains_key(&pair) {
                missing.push(format!("{what} waiting"));
            }
        }
        for (mode, pending) in all_none() {
            if !self.none.contains_key(&(mode, pending)) {
                let none = if pending { "enabled" } else { "pending" };
                missing.push(format!("no interrupt {none} in {mode:?}"));
            }
        }
        for delegation in all_delegations() {
            if !self.delegations.contains_key(&delegation) {
                let (mideleg, hideleg) = delegation;
                missing.push(format!("mideleg {mideleg:x} with hideleg {hideleg:x}"));
            }
        }
        self.missing_entries(&mut missing);
        missing
    }

    fn missing_entries(&self, missing: &mut Vec<String>) {
        for vectored in [false, true] {
            let tvec = if vectored { "vectored" } else { "direct" };
            for way in ways() {
                if !self.taken.contains_key(&(way, vectored)) {
                    missing.push(format!("{} taken by a {tvec} tvec", describe(way)));
                }
            }
            for level in LEVELS {
                if !self.exceptions.contains_key(&(level, vectored)) {
                    missing.push(format!("an exception to {level} by a {tvec} tvec"));
                }
            }
        }
        for level in LEVELS {
            for (name, _) in cleared(&Hart::new(0, 3, 0), level) {
                if !self.cleared.contains_key(&(level, name)) {
                    missing.push(format!("{name} made 0 by an interrupt"));
                }
            }
            if !self.wrapped.contains_key(&level) {
                missing.push(format!("an interrupt to {level} whose vector wraps"));
            }
        }
    }

    /// The counts, for people.
    pub fn table(&self, text: &mut String) {
        text.push_str("interrupts taken, by number (direct, vectored):");
        for way in ways() {
            let by = |vectored| self.taken.get(&(way, vectored)).unwrap_or(&0);
            let (number, level) = way;
            let _ = write!(text, " {number} to {level}: {}/{}", by(false), by(true));
        }
        text.push_str("; with a vector that wraps:");
        for (level, number) in &self.wrapped {
            let _ = write!(text, " {level} {number}");
        }
        text.push_str("; where something became 0:");
        for ((_, name), number) in &self.cleared {
            let _ = write!(text, " {name} {number}");
        }
        text.push_str("\nexceptions by target (direct, vectored tvec):");
        for level in LEVELS {
            let by = |vectored| self.exceptions.get(&(level, vectored)).unwrap_or(&0);
            let _ = write!(text, " {level}: {}/{}", by(false), by(true));
        }
        let lets = |(way, mode, enables): &&(Way, Mode, Enables)| passes(way.1, *mode, *enables);
        let (all, taken) = (all_alone(), self.alone.keys().filter(lets).count());
        let _ = writeln!(
            text,
            "\ninterrupts alone, by number, level, mode and enable bits: {taken} of {} taken, {} of {} waiting",
            all.iter().filter(lets).count(),
            self.alone.len() - taken,
            all.iter().filter(|key| !lets(key)).count()
        );
        let _ = writeln!(
            text,
            "pairs of interrupts: {} of {pairs} due, {} of {pairs} waiting; none pending or enabled, by mode: {} of {}; \
             delegations: {} of {}",
            self.due.len(),
            self.waiting.len(),
            self.none.len(),
            all_none().len(),
            self.delegations.len(),
            all_delegations().len(),
            pairs = pairs().len()
        );
    }
}

/// The interrupt that a reason tells as the one that waits.
fn told(outcome: &Outcome) -> Option<Way> {
    match outcome.reason {
        Some(Reason::Interrupt(Why::Waits(waiting))) => Some((waiting.number, waiting.level)),
        _ => None,
    }
}

fn describe((number, level): Way) -> String {
    format!("interrupt {number} to {level}")
}

/// Each interrupt and level in each mode with each setting of the enable bits.
fn all_alone() -> Vec<(Way, Mode, Enables)> {
    let in_modes = ways()
        .into_iter()
        .flat_map(|way| Mode::ALL.map(|mode| (way, mode)));
    let all = in_modes.flat_map(|(way, mode)| settings().map(move |enables| (way, mode, enables)));
    all.collect()
}

fn all_none() -> Vec<(Mode, bool)> {
    let all = Mode::ALL.into_iter();
    all.flat_map(|mode| [(mode, false), (mode, true)]).collect()
}

/// mideleg holds 2, 6, 10 and any of 1, 5, 9, hideleg any of 2, 6, 10.
fn all_delegations() -> Vec<(u64, u64)> {
    let sets = [0, 0x2, 0x20, 0x22, 0x200, 0x202, 0x220, 0x222];
    let all = sets.into_iter();
    all.flat_map(|one| sets.map(|other| (0x444 | one, other << 1)))
        .collect()
}

#[cfg(test)]
mod tests {
    use super::*;
    use second::interrupts::interrupt;

    #[test]
    fn what_there_is() {
        let of = |level| {
            let ways = ways().into_iter().filter(move |way| way.1 == level);
            ways.map(|way| way.0).collect::<Vec<u32>>()
        };
        assert_eq!(of(Target::M), [11, 3, 7, 9, 1, 5]);
        assert_eq!(of(Target::Hs), [9, 1, 5, 10, 2, 6]);
        assert_eq!(of(Target::Vs), [10, 2, 6]);
        // Within M 15, HS 15, VS 3; M with HS 36 - 3, M with VS 18, HS with VS 18 - 3.
        assert_eq!(pairs().len(), 15 + 15 + 3 + 33 + 18 + 15);
        assert_eq!(all_alone().len(), 600);
        assert_eq!(all_delegations().len(), 64);
    }

    fn pending(mode: Mode, numbers: &[u32]) -> Hart {
        let mut hart = Hart::new(0, 0, 0).in_mode(mode);
        hart.mip = numbers.iter().map(|number| 1 << number).sum();
        hart.mie = hart.mip;
        hart
    }

    #[test]
    fn events_are_counted_by_what_was_due() {
        let mut counts = Interrupts::default();
        let mut note = |mode, numbers: &[u32]| {
            let hart = pending(mode, numbers);
            counts.note(&hart, mode, &interrupt(&hart));
        };
        note(Mode::U, &[]);
        note(Mode::U, &[11]);
        note(Mode::M, &[9]);
        note(Mode::U, &[7, 9]);
        note(Mode::M, &[2, 9]);
        note(Mode::U, &[7, 9, 2]);
        let (seven, nine) = ((7, Target::M), (9, Target::M));
        let clear = [false; 3];
        let alone = [((11, Target::M), Mode::U, clear), (nine, Mode::M, clear)];
        assert_eq!(counts.alone, BTreeMap::from(alone.map(|key| (key, 1))));
        assert_eq!(counts.due, BTreeMap::from([((seven, nine), 1)]));
        let waiting = (nine, (2, Target::Hs));
        assert_eq!(counts.waiting, BTreeMap::from([(waiting, 1)]));
        assert_eq!(counts.none, BTreeMap::from([((Mode::U, false), 1)]));
        assert_eq!(counts.delegations, BTreeMap::from([((0x444, 0), 5)]));
        assert_eq!(counts.taken.values().sum::<u64>(), 3);
    }

    #[test]
    fn a_wrong_choice_reaches_nothing() {
        let hart = pending(Mode::U, &[7, 9]);
        let other = interrupt(&pending(Mode::U, &[9]));
        let mut counts = Interrupts::default();
        counts.note(&hart, Mode::U, &other);
        assert_eq!(counts, Interrupts::default());
    }

    #[test]
    fn entries_are_told_apart() {
        let mut counts = Interrupts::default();
        // The last two: the sum is 2^64, and 4 less.
        for mtvec in [0x1000, 0x1001, !2, !3 - 0x27, !3 - 0x2b] {
            let mut hart = pending(Mode::M, &[11]);
            hart.mstatus |= 1 << MIE;
            hart.mtvec = mtvec;
            counts.note(&hart, Mode::M, &interrupt(&hart));
        }
        let eleven = (11, Target::M);
        let taken = [((eleven, false), 1), ((eleven, true), 4)];
        assert_eq!(counts.taken, BTreeMap::from(taken));
        assert_eq!(counts.wrapped, BTreeMap::from([(Target::M, 2)]));
        counts.note_exception(&pending(Mode::M, &[]), 2, Target::M);
        counts.note_exception(&pending(Mode::M, &[]), INTERRUPT | 3, Target::M);
        assert_eq!(counts.exceptions, BTreeMap::from([((Target::M, false), 1)]));
    }
}
