//! The event that takes an interrupt, in words: which are pending, which was taken and why, where it went, or why none was due.

use crate::events;
use crate::happened::{Explanation, Happened};
use crate::names::{self, place, Mode};
use crate::pending::{self, Way};
use crate::reason;
use crate::registers::{self, MCAUSE, MTVEC, SCAUSE, STVEC, VSCAUSE, VSTVEC};
use crate::views::held;
use balcumentri::{Hart, Outcome};

/// What it came to, the mode and pc after it, and what it wrote.
pub fn event(happened: &Happened<'_>, outcome: Outcome) -> Explanation {
    match outcome {
        Outcome::Interrupted(number) => taken(happened, number),
        Outcome::Done => none_due(happened),
        _ => events::event(happened, "interrupt", outcome),
    }
}

/// An interrupt was taken.
fn taken(happened: &Happened<'_>, number: u64) -> Explanation {
    let (before, after) = (happened.before, happened.after);
    let (from, to) = (place(before), place(after));
    let interrupt = names::titled_interrupt(number);
    let asking = pending::asking(before);
    let mut lines = vec![format!("interrupt in {from}: {interrupt} goes to {to}")];
    lines.extend(pending(before));
    lines.push(handed_down(after));
    lines.extend(later(&asking, number));
    lines.extend(waiting(&asking));
    lines.push(entry(after));
    lines.push(events::trap_writes(happened));
    Explanation {
        lines,
        why: reason::interrupted(before, number),
    }
}

/// No interrupt was due.
fn none_due(happened: &Happened<'_>) -> Explanation {
    let before = happened.before;
    let (from, to) = (place(before), place(happened.after));
    let mut lines = vec![format!("interrupt in {from}: none is due, on in {to}")];
    lines.extend(pending(before));
    lines.extend(waiting(&pending::asking(before)));
    Explanation {
        lines,
        why: reason::not_interrupted(before),
    }
}

/// Which interrupts are pending, if any.
fn pending(hart: &Hart) -> Option<String> {
    let (enabled, others) = pending::numbers(hart);
    let parts = [
        ("pending and enabled", enabled),
        ("pending, not enabled", others),
    ];
    let some = parts.iter().filter(|(_, numbers)| !numbers.is_empty());
    let said: Vec<String> = some
        .map(|(which, numbers)| format!("{which}: {}", names::interrupts(numbers)))
        .collect();
    (!said.is_empty()).then(|| said.join("; "))
}

/// Why an interrupt went where it went, and as what.
fn handed_down(after: &Hart) -> String {
    match Mode::of_hart(after) {
        Some(Mode::M) => "to M: mideleg does not hand it down".to_owned(),
        Some(Mode::Hs) => "to HS: mideleg hands it down, hideleg does not".to_owned(),
        _ => {
            let written = names::titled_interrupt(held(after, VSCAUSE) & !names::INTERRUPT);
            format!("to VS: mideleg and hideleg hand it down, as {written}")
        }
    }
}

/// The interrupts that are due too, and why they come later.
fn later(asking: &[Way], taken: u64) -> Vec<String> {
    let Some(first) = asking.iter().find(|way| way.number == taken) else {
        return Vec::new();
    };
    let due = asking.iter().filter(|way| way.gate.is_ok());
    let others = due.filter(|way| way.number != taken);
    let (same, lower): (Vec<&Way>, Vec<&Way>) = others.partition(|way| way.level == first.level);
    let mut lines = Vec::new();
    if !same.is_empty() {
        let order = pending::ORDER.map(|number| format!("{number:x}"));
        let (others, order) = (titles(&same), order.join(", "));
        lines.push(format!("it comes before {others}: the order is {order}"));
    }
    if !lower.is_empty() {
        let others = titles(&lower);
        lines.push(format!(
            "it comes before {others}: M comes before HS, and HS before VS"
        ));
    }
    lines
}

/// Why interrupts that are pending and enabled wait: a line for each level.
fn waiting(asking: &[Way]) -> Vec<String> {
    let levels = asking.chunk_by(|one, next| one.level == next.level);
    let lines = levels.filter_map(|ways| {
        let (level, waits) = (ways[0].level, ways[0].gate.as_ref().err()?);
        let names = titles(&ways.iter().collect::<Vec<_>>());
        Some(format!("{names} would go to {level}: {waits}"))
    });
    lines.collect()
}

fn titles(ways: &[&Way]) -> String {
    let numbers: Vec<u64> = ways.iter().map(|way| way.number).collect();
    names::interrupts(&numbers)
}

/// How an interrupt came to its pc.
fn entry(after: &Hart) -> String {
    let (tvec, cause) = match Mode::of_hart(after) {
        Some(Mode::M) => (MTVEC, MCAUSE),
        Some(Mode::Hs) => (STVEC, SCAUSE),
        _ => (VSTVEC, VSCAUSE),
    };
    let (register, word) = (registers::title(tvec), held(after, tvec));
    let (base, number) = (word & !3, held(after, cause) & !names::INTERRUPT);
    match registers::get(tvec, "MODE", word) {
        1 => format!("{register} is vectored: pc is its base {base:x} plus 4 times {number:x}"),
        _ => format!("{register} is direct: pc is its base {base:x}"),
    }
}
